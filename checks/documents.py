"""Makes documents of TOML from trees, by a grammar: dotted keys, headers, arrays of tables and inline tables, each kind of
string, number and date, comments, blank lines and both kinds of line end. It also makes documents that are wrong in one place.

It was written from the text of TOML 1.0, and on request uses the forms that 1.1 adds. Python's tomllib, if there is one, is a
second reader of the documents in 1.0.
"""

import datetime
import re
from typing import NamedTuple

try:
    import tomllib
except ImportError:
    tomllib = None

BARE = re.compile('[A-Za-z0-9_-]+')
ESCAPES = {'\b': '\\b', '\t': '\\t', '\n': '\\n', '\f': '\\f', '\r': '\\r', '"': '\\"', '\\': '\\\\'}


class Document(NamedTuple):
    units: list  # its statements, comments and blank lines; a statement may go over several lines
    end: str  # of each line
    has_mark: bool  # a byte order mark stands at the start
    is_new: bool  # it may have forms that 1.1 added

    def text(self):
        text = ''.join(unit + '\n' for unit in self.units)
        return ('\ufeff' if self.has_mark else '') + text.replace('\n', self.end)


class Writer:
    """Writes the parts of one document. Newlines are line feeds here."""

    def __init__(self, dice, is_new, has_long_lines):
        self.dice = dice
        self.is_new = is_new
        # In lines that end with a carriage return, too, a raw newline in a string would be read in two ways.
        self.has_newlines = not has_long_lines

    def chance(self, times, of):
        return self.dice.below(of) < times

    def new(self, of):
        return self.is_new and self.chance(1, of)

    def blank(self):
        return self.dice.one_of(['', '', '', ' ', '  ', '\t'])

    def comment(self):
        return self.dice.one_of(['', '', '', '#', ' # a comment', ' # "quoted" = [', "# \u00e9 '''"])

    # ---- Keys ----

    def key(self, key):
        kind = self.dice.below(6)
        if BARE.fullmatch(key) and kind > 1:
            return key
        if kind == 1 and is_literal(key):
            return f"'{key}'"
        return self.basic(key)

    def path(self, keys):
        return (self.blank() + '.' + self.blank()).join(map(self.key, keys))

    # ---- Strings ----

    def escaped(self, character):
        code = ord(character)
        forms = [f'\\u{code:04X}' if code < 0x10000 else f'\\U{code:08x}', f'\\U{code:08X}']
        forms += 3 * [ESCAPES[character]] if character in ESCAPES else []
        forms += [f'\\x{code:02x}'] if code < 0x100 and self.is_new else []
        forms += ['\\e'] if character == '\x1b' and self.is_new else []
        return self.dice.one_of(forms)

    def characters(self, text, raw):
        """The text, with each character that must be escaped, and now and then another one, as an escape."""
        return [
            self.escaped(one) if one in '"\\' or is_control(one) and one not in raw or self.chance(1, 12) else one
            for one in text]

    def basic(self, text):
        return '"' + ''.join(self.characters(text, '\t')) + '"'

    def long_basic(self, text):
        parts = self.characters(text, '\t\n' if self.has_newlines else '\t')
        for place in range(len(parts) + 1):
            if self.chance(1, 6):
                # A backslash at the end of a line takes the white space after it away, so no raw one may follow there.
                rest = ''.join(parts[place:])
                if rest[:1] not in (' ', '\t', '\n'):
                    parts[place:place] = ['\\' + self.blank() + '\n' + self.dice.one_of(['', '  ', '\n\t'])]
        return '"""' + self.dice.one_of(['\n', '']) + ''.join(parts) + '"""'

    def string(self, text):
        kinds = [self.basic, self.basic]
        if text[:1] != '\n':
            kinds.append(self.long_basic)
        if is_literal(text):
            kinds += [lambda text: f"'{text}'", lambda text: f"'''{self.dice.one_of([chr(10), ''])}{text}'''"]
        elif self.has_newlines and is_literal(text.replace('\n', '').replace("'", '')) and not re.search("'''|'$|^\n", text):
            kinds.append(lambda text: f"'''\n{text}'''")
        return self.dice.one_of(kinds)(text)

    # ---- Numbers and dates ----

    def digits(self, digits):
        """The digits, some with an underscore between."""
        return ''.join(
            digit + ('_' if place < len(digits) - 1 and self.chance(1, 10) else '') for place, digit in enumerate(digits))

    def whole(self, number):
        if number < 0 or self.chance(3, 4):
            sign = '-' if number < 0 else self.dice.one_of(['', '', '', '+'])
            return sign + self.digits(str(abs(number)))
        prefix, form = self.dice.one_of([('0x', 'x'), ('0x', 'X'), ('0o', 'o'), ('0b', 'b')])
        return prefix + self.digits('0' * self.dice.one_of([0, 0, 1, 3]) + format(number, form))

    def fraction(self, number):
        text = repr(number)
        if number != number or number > 0 or text == '0.0':
            text = self.dice.one_of(['', '', '+']) + text
        text = text.replace('e', self.dice.one_of('eE'))
        return re.sub('[0-9]+', lambda match: self.digits(match.group()), text)

    def time(self, time):
        if time.second == time.microsecond == 0 and self.new(2):
            return f'{time:%H:%M}'
        text = f'{time:%H:%M:%S}'
        if time.microsecond or self.chance(1, 4):
            text += f'.{time.microsecond:06d}' + self.dice.one_of(['', '', '000'])
        return text

    def date_time(self, value):
        text = value.date().isoformat() + self.dice.one_of('TTt ') + self.time(value.time())
        if value.tzinfo is None:
            return text
        minutes = int(value.utcoffset().total_seconds()) // 60
        if minutes == 0:
            return text + self.dice.one_of(['Z', 'z', '+00:00', '-00:00'])
        return text + f'{"-" if minutes < 0 else "+"}{abs(minutes) // 60:02}:{abs(minutes) % 60:02}'

    # ---- Values ----

    def value(self, value):
        if isinstance(value, bool):
            return 'true' if value else 'false'
        if isinstance(value, datetime.date) and not isinstance(value, datetime.datetime):
            return value.isoformat()
        forms = {
            int: self.whole, float: self.fraction, str: self.string, list: self.array, dict: self.inline,
            datetime.datetime: self.date_time, datetime.time: self.time}
        return forms[type(value)](value)

    def gap(self):
        """White space in an array, where lines may end."""
        return self.blank() + (self.dice.one_of(['', '', '# in an array']) + '\n' + self.blank() if self.chance(1, 8) else '')

    def listed(self, items, gap, may_end):
        """The items between commas; one more comma at the end where that may be."""
        text = ','.join(gap() + item + gap() for item in items)
        return text + (',' + gap() if items and may_end else '') or gap()

    def array(self, items):
        return '[' + self.listed([self.value(item) for item in items], self.gap, self.chance(1, 4)) + ']'

    def inline(self, table):
        gap = self.gap if self.new(2) else self.blank
        items = [self.assigned(path, value) for path, value in self.paths(table)]
        return '{' + self.listed(items, gap, self.new(3)) + '}'

    def paths(self, table):
        """The keys of a table with their values, where a table below may be given by dotted keys."""
        for key, value in self.shuffled(table.items()):
            if isinstance(value, dict) and value and self.chance(1, 3):
                yield from (([key] + path, item) for path, item in self.paths(value))
            else:
                yield [key], value

    def shuffled(self, items):
        return sorted(items, key=lambda _: self.dice.random.random())

    def assigned(self, path, value):
        return self.path(path) + self.blank() + '=' + self.blank() + self.value(value)

    # ---- Statements ----

    def statement(self, text):
        return self.blank() + text + self.blank() + self.comment()

    def between(self):
        return [self.dice.one_of(['', ' ', '# a line', '\t# [table]'])] if self.chance(1, 6) else []

    def header(self, path, marks):
        left, right = marks
        return self.statement(left + self.blank() + self.path(path) + self.blank() + right)

    def section(self, path, table):
        """The statements of a table, and then the sections of those below it."""
        own, below = [], []
        for key, value in self.shuffled(table.items()):
            is_list = isinstance(value, list) and value and all(isinstance(item, dict) for item in value)
            if isinstance(value, dict) and self.chance(1, 2):
                below.append([self.header(path + [key], '[]')] + self.section(path + [key], value))
            elif is_list and self.chance(3, 4):
                below.append([unit for item in value for unit in (
                    [self.header(path + [key], ('[[', ']]'))] + self.section(path + [key], item))])
            elif isinstance(value, dict) and value and self.chance(1, 2):
                own += [self.statement(self.assigned([key] + way, item)) for way, item in self.paths(value)]
            else:
                own.append(self.statement(self.assigned([key], value)))
            own += self.between()
        return own + [unit for units in self.shuffled(below) for unit in units + self.between()]


def is_control(character):
    return ord(character) < 0x20 or ord(character) == 0x7f


def is_literal(text):
    """Whether a text can stand between apostrophes as it is."""
    return "'" not in text and not any(is_control(one) and one != '\t' for one in text)


def document(dice, tree, is_new):
    """A document that says the tree."""
    has_long_lines = dice.below(5) == 0
    writer = Writer(dice, is_new, has_long_lines)
    units = writer.section([], tree)
    return Document(units, '\r\n' if has_long_lines else '\n', is_new and dice.below(8) == 0, is_new)


# ---- Wrong documents ----

# Lines that no document has, wherever they stand between two statements.
WRONG = """
z ; z = ; = 1 ; z = 1 2 ; z y = 1 ; "z" "y" = 1 ; z..y = 1 ; .z = 1 ; z. = 1 ; z = 1, ; z = ] ; z = } ; [z ; [] ; [[]] ; z]
[[z] ; [z]] ; [[z] ] ; [ [z]] ; [z] y = 1 ; [z.] ; [.z] ; [z..y] ; [z y] ; [z = 1] ; [[z.]] ; ['z" ] ; "z = 1 ; 'z = 1
z = 01 ; z = -01 ; z = +00 ; z = 1__0 ; z = _1 ; z = 1_ ; z = 0x ; z = 0xg ; z = 0x_1 ; z = 0x1_ ; z = +0x1 ; z = -0b1 ; z = 0b2
z = 0o8 ; z = 0X1 ; z = 0O1 ; z = 0B1 ; z = 1a ; z = ++1 ; z = +-1 ; z = 1-1 ; z = - ; z = +
z = 1. ; z = .5 ; z = 1e ; z = 1.e5 ; z = 1_.5 ; z = 1._5 ; z = 1e_5 ; z = 1e5_ ; z = 01.5 ; z = 1.5.5 ; z = 1e5.5 ; z = +.5
z = Inf ; z = NaN ; z = infinity ; z = +true ; z = True ; z = TRUE ; z = tru ; z = falsey ; z = null ; z = nil
z = "a ; z = 'a ; z = "a"b ; z = 'a'b ; z = "\\q" ; z = "\\u12" ; z = "\\ud800" ; z = "\\udfff" ; z = "\\U00110000" ; z = "\\U0041" ; z = "\\"
z = "\\xg0" ; z = "\\x4" ; z = "\\u{41}" ; z = "\\N" ; z = "\\'" ; z = "\\ " ; z = 'a'' ; z = ""a"" ; z = ''a''
z = [1 ; z = [1 2] ; z = [1,,2] ; z = [,1] ; z = [,] ; z = [1]] ; z = [[1] ; z = [1}
z = {a = 1 ; z = {a = 1 b = 2} ; z = {a = 1,, b = 2} ; z = {, a = 1} ; z = {,} ; z = {a} ; z = {a =} ; z = {= 1} ; z = {a = 1}} ; z = {a: 1}
z = {a = 1, a = 2} ; z = {a.b = 1, a = 2} ; z = {a = 1, a.b = 2} ; z = {a = {b = 1}, a.c = 2} ; z = {[a] = 1}
z = 1979-13-01 ; z = 1979-00-01 ; z = 1979-05-00 ; z = 1979-05-32 ; z = 1979-02-30 ; z = 1979-04-31 ; z = 1979-5-27 ; z = 79-05-27
z = 1979-05 ; z = 19790527 - ; z = 24:00:00 ; z = 12:60:00 ; z = 1:00:00 ; z = 12:00:0 ; z = 12: ; z = 12:00:00. ; z = 12:00:00Z
z = 1979-05-27T ; z = 1979-05-27T12 ; z = 1979-05-27T24:00:00 ; z = 1979-05-27T12:00:00+ ; z = 1979-05-27T12:00:00+1:00
z = 1979-05-27T12:00:00+01 ; z = 1979-05-27Z ; z = 1979-05-27T12:00:00ZZ ; z = 1979-05-27  12:00:00 ; z = 1900-02-29
"""
WRONG_LINES = [line.strip() for line in WRONG.strip().replace('\n', ' ; ').split(' ; ')] + [
    'z = "a\x01"', "z = 'a\x01'", 'z = "a\x7f"', "z = 'a\x7f'", '# \x00', '# \x1f', '# \x7f', 'z = 1 \x0b',
    'z\u00e9 = 1', 'z = \u0661', 'z\u00a0= 1', 'z = "a\nb"', "z = 'a\nb'", 'z\n= 1', 'z =\n1', '"""z""" = 1', "'''z''' = 1",
    '"z\ny" = 1', '[z\n]', '[\nz]', 'z = """\\q"""', 'z = """a\x01"""', "z = '''a\x7f'''", 'z = "\\\n"', '# \rx', 'z = 1\ry = 2',
    'z = """a""""""', "z = '''a''''''", 'z = 2000-01-01\n00:00:00', 'z = [1\n2]', 'z = 1 2000-01-01']
# Strings without an end, which a later string would end.
OPEN = ['z = """a', "z = '''a", 'z = """a""', "z = '''\na''"]

# Pairs of lines that say something twice.
TWICE = [
    'z = 1\nz = 2', 'z = 1\n"z" = 2', "z = 1\n'z' = 2", 'z = 1\n"\\u007a" = 2', 'z = 1\nz.y = 2', 'z.y = 1\nz = 2', 'z.y = 1\nz.y = 2',
    'z.y = 1\nz.y.x = 2', 'z = {}\nz.y = 1', 'z = { y = 1 }\nz.x = 1', 'z = []\nz.y = 1', 'z.y = { x = 1 }\nz.y.w = 2',
    'z.y.x = 1\nz.y = 2']
# Tables that come twice. The first part of each is at the top, since after it all statements are in another table.
TWICE_TABLES = [
    '[z]\n[z]', '[z]\n["z"]', '[z.y]\n[z.y]', '[z]\n[[z]]', '[[z]]\n[z]', '[z]\ny = 1\n[z.y]', '[z]\ny = 1\n[z.y.x]', '[z]\ny.x = 1\n[z.y]',
    '[z]\ny = {}\n[z.y]', '[z]\ny = {}\n[z.y.x]', '[z]\ny = []\n[[z.y]]', '[z]\ny = [{}]\n[[z.y]]', '[[z.y]]\n[[z]]', '[z.y]\n[[z]]',
    '[[z]]\ny = 1\n[z.y]', '[[z]]\n[z.y]\n[z.y]', '[[z.y]]\n[z]\ny = 1', '[z.y]\n[z]\ny = 1', '[z.y]\n[z]\ny.x = 1',
    '[z]\ny.x = 1\n[[z.y]]', '[z.y]\n[z]\n[z]']


def wrong(dice, right):
    """The units with one more that no document has, and that one alone."""
    line = dice.one_of(3 * WRONG_LINES + 3 * TWICE + TWICE_TABLES + OPEN)
    place = len(right.units) if line in OPEN else dice.below(len(right.units) + 1)
    units = right.units[:place] + [line] + right.units[place:]
    return right._replace(units=units), line


# ---- A second reader ----

# What 1.0 and 1.1 may read in two ways: inline tables over several lines or with a last comma, times without seconds, new
# escapes; and what Python has no value for: the year 0, the second 60, an offset of a day.
OF_TWO_READINGS = re.compile(r'\{|[0-9]:[0-9][0-9](?!:[0-9])|\\[ex]|(?<![0-9])0000-|:60|[+-]2[4-9]:|^\ufeff', re.ASCII)


def second_reading(data):
    """The tree that tomllib reads in some bytes, None where it refuses them, and whether both are sure."""
    try:
        text = data.decode()
    except UnicodeDecodeError:
        return None, True
    try:
        return tomllib.loads(text), True
    except (tomllib.TOMLDecodeError, ValueError, RecursionError):
        return None, not OF_TWO_READINGS.search(text)
