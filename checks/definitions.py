"""Counts the lines of definitions that the clauses of `edfvd` reach: what a reader must read to know what they say.

From the words of the clauses it follows the `use` lines from file to file, and takes of each file the declarations that
are reached by name. A line counts where it is no comment, no `use` and not blank. Types that the code declares are
followed to their structs, enums and other names (`pub type`); a type with a Model is read as the Value of that Model, since clauses do not see how
its fields make up the value. Names of the toolchain's libraries end the way, and are counted. A name that its equation
binds is no declaration's.

The headline stays below 700 lines of definitions, none of them longer than 110 characters: otherwise the status is 1.

usage: definitions.py [CLAUSE..]
       for all clauses together, or for these
"""

import collections
import pathlib
import re
from typing import NamedTuple

import with_tools
from usage import WrongWords, ends

CRATES = pathlib.Path(__file__).resolve().parent.parent / 'crates'
TOP = CRATES / 'edfvd_program/src/edfvd.rt'
TOO_MANY_LINES, LONGEST_LINE = 700, 110
# The clauses that README's sentence is.
PROMISE = ['headline', 'complete']
HEAD = re.compile(r'^(?:(?:abbrev|unfoldable|pub|record|data) )+([^\s(:{]+)')
FIXITY = re.compile(r'^infix[lr]? \d+ (\S+)')
NAME = re.compile(r"[A-Za-z_][\w'-]*")
HAS_BODY = re.compile(r'\s=(?:\s|$)')
USE = re.compile(r'^\s*(?:ghost |pub )?use ([\w.]+?)(?:\.\{(.*)\})?(?: as (\w+))?;?$')
RUST_USE = re.compile(r'^\s*(?:pub )?use (\w+)(?:::\w+)*::(?:\{([^}]*)\}|(\w+));')


# A declaration: its lines that count, and the file whose `use` lines its names go by.
class Declaration(NamedTuple):
    page: 'Page'
    name: str
    lines: list


# The lines of a text that count.
def counted(lines):
    return [line for line in lines if line.strip() and not re.match(r'^\s*(--|//|#\[|(ghost |pub )?use )', line)]


# A file of definitions, or one of the code: what its names stand for.
class Page:
    def __init__(self, path):
        self.path = path
        lines = path.read_text(encoding='utf-8').split('\n')
        self.names, self.modules, self.crates = {}, {}, []
        for line in lines:
            self.take_use(line)
        self.declared = self.types(lines) if path.suffix == '.rt' else self.declarations(lines)

    def take_use(self, line):
        match = USE.match(line)
        if match:
            module, names, alias = match.groups()
            if names is None:
                self.modules[alias or module.split('.')[-1]] = module
            for name in (names or '').split(', '):
                name, _, other = name.strip().partition(' as ')
                if name:
                    self.names[other or name] = module, name
        elif RUST_USE.match(line):
            self.crates.append(RUST_USE.match(line)[1])

    # The declarations of a file of definitions; those of a `data` stand for its constructors, too.
    def declarations(self, lines):
        found, fixities, current = {}, {}, None
        for line in counted(lines):
            head, fixity = HEAD.match(line), FIXITY.match(line)
            if fixity:
                fixities[fixity[1]] = line
            elif head:
                current = found[head[1]] = Declaration(self, head[1], [fixities.pop(head[1])] if head[1] in fixities else [])
            if current and not fixity:
                current.lines.append(line)
                constructor = re.match(r'^  (\w+) : ', line)
                if current.lines[0].startswith('pub data') and constructor:
                    found.setdefault(constructor[1], current)
        return found

    # The structs and enums of a file of the code; one with a Model is the line of its Value.
    def types(self, lines):
        found = {}
        for place, line in enumerate(lines):
            head = re.match(r'^(?:pub )?(?:struct|enum|type) (\w+)|^impl.* Model for (\w+)', line)
            if head and head[1]:
                found.setdefault(head[1], Declaration(self, head[1], counted(self.item(lines, place))))
            elif head:
                values = [inside for inside in self.item(lines, place) if 'ghost Value =' in inside]
                if len(values) != 1 or not values[0].endswith('};'):
                    raise LookupError(f'{self.path}: the Value of {head[2]} is not one line')
                found[head[2]] = Declaration(self, head[2], values)
        return found

    # The lines of the item that begins here.
    def item(self, lines, place):
        if lines[place].rstrip().endswith((';', '}')):
            return [lines[place]]
        end = next(number for number in range(place, len(lines)) if lines[number] in ('}', ');'))
        return lines[place:end + 1]


class Reader:
    def __init__(self):
        self.pages, self.reached, self.outside, self.lost = {}, {}, set(), set()

    def page(self, path):
        if path not in self.pages:
            self.pages[path] = Page(path)
        return self.pages[path]

    # Whether the name, as the page has it, is that of a function or a record, which no pattern can be.
    def is_function(self, page, name):
        if name in page.names:
            module, name = page.names[name]
            parts = module.split('.')
            if parts[3:4] == ['declared'] or parts[0] != 'Rattle' or not (CRATES / parts[1]).is_dir():
                return False
            page = self.page(CRATES / parts[1] / 'specs' / ('/'.join(parts[3:]) + '.antt'))
        return name in page.declared and not page.declared[name].lines[0].startswith('pub data')

    # The names that an equation binds: the variables of its patterns, and those of a λ, a let or a step of a do.
    def bound(self, page, equation):
        patterns = re.split(r'\s=(?:\s|$)', equation, maxsplit=1)[0] if HAS_BODY.search(equation) else ''
        names = {name for name in NAME.findall(patterns)[1:] if name not in page.names or self.is_function(page, name)}
        for names_of in re.findall(r'λ ([^.]*)\.\s|let \(?([^=:]*?)\)?(?: :[^=]*)? =|^\s+(\S+) ←', equation, re.MULTILINE):
            names.update(NAME.findall(' '.join(names_of)))
        for names_of in re.findall(r'\(([^():]+) :', equation):
            names.update(NAME.findall(names_of))
        return names

    # Follows each name of a declaration but those that it binds, equation by equation.
    def follow_all(self, page, lines):
        equations = []
        for line in lines:
            if line[:1].isspace() and equations:
                equations[-1] += '\n' + line
            else:
                equations.append(line)
        for equation in equations:
            self.follow(page, equation, self.bound(page, equation) if page.path.suffix == '.antt' else set())

    # Follows each name of a text, as the page has it, but the bound ones.
    def follow(self, page, text, bound=frozenset()):
        for word in re.split(r'[\s(){};,<>]+' if page.path.suffix == '.rt' else r'[\s(){};,λ]+', text):
            first, _, rest = word.partition('.')
            if first in bound:
                continue
            if first in page.modules and rest:
                self.reach(page.modules[first], rest.split('.')[0])
            for name in {word, first, f'◌{word}◌'}:
                if name in page.declared:
                    self.take(page.declared[name])
                elif name in page.names:
                    self.reach(*page.names[name])
            if page.path.suffix == '.rt' and first.isidentifier():
                self.reach_type(page, first)

    # A name of a module.
    def reach(self, module, name):
        parts = module.split('.')
        if parts[0] != 'Rattle' or not (CRATES / parts[1]).is_dir():
            self.outside.add((module, name))
            return
        if parts[3:4] == ['declared']:
            inside = [part for part in parts[4:] if not part.startswith('The')]
            name = inside[-1] if inside[-1][0].isupper() else name
            if not self.reach_in_code(parts[1], name):
                self.lost.add((module, name))
            return
        page = self.page(CRATES / parts[1] / 'specs' / ('/'.join(parts[3:]) + '.antt'))
        if name in page.declared:
            self.take(page.declared[name])
        elif name in page.names:
            self.reach(*page.names[name])
        else:
            self.lost.add((module, name))

    # A type that the code of a crate declares.
    def reach_in_code(self, crate, name):
        for path in sorted((CRATES / crate / 'src').rglob('*.rt')):
            if name in self.page(path).declared:
                self.take(self.page(path).declared[name])
                return True
        return False

    # A type that a type of the code has in it: of its own crate, or of one that its file uses.
    def reach_type(self, page, name):
        own = page.path.relative_to(CRATES).parts[0]
        if name[:1].isupper():
            any(self.reach_in_code(crate, name) for crate in [own] + page.crates if (CRATES / crate).is_dir())

    def take(self, declaration):
        place = declaration.page.path, declaration.name
        if place not in self.reached:
            self.reached[place] = declaration
            self.follow_all(declaration.page, declaration.lines)


# The clauses of the call, by their labels.
def clauses():
    text = TOP.read_text(encoding='utf-8')
    contract = text[text.index('pub fn edfvd'):]
    contract = contract[:contract.index('\n{')]
    pieces = re.split(r'\bensures (\w+) \{', contract)
    return dict(zip(pieces[1::2], (re.sub(r'//.*', '', piece) for piece in pieces[2::2])))


# The file of the top call, where names are only those of its `ghost use` lines.
class TopPage:
    def __init__(self):
        page = Page(TOP)
        self.path, self.modules, self.names = TOP.with_suffix('.antt'), page.modules, page.names
        self.declared, self.crates = {}, []


# What the clauses of these labels reach.
def read(labels):
    reader, page, known = Reader(), TopPage(), clauses()
    for label in labels:
        reader.follow(page, known[label])
    if reader.lost:
        raise LookupError(f'no declaration is found of {sorted(reader.lost)}')
    return reader


# How many declarations and lines are reached in the files of definitions and in the code.
def totals(reader):
    found = {}
    for kind, suffix in (('definitions', '.antt'), ('types of the code', '.rt')):
        reached = [declaration for (path, _), declaration in reader.reached.items() if path.suffix == suffix]
        files = {declaration.page.path for declaration in reached}
        found[kind] = len(reached), sum(len(declaration.lines) for declaration in reached), len(files)
    return found


# The line of the totals of some clauses.
def total_line(label, reader):
    (names, lines, files), (types, type_lines, type_files) = totals(reader).values()
    return (f'{label}: {names} definitions, {lines} lines in {files} files; {types} types of the code, {type_lines} lines '
            f'in {type_files}; {len(reader.outside)} names of libraries')


# The longest line of definitions that is reached: its length, its file and its declaration.
def longest(reader):
    lines = ((len(line), path.relative_to(CRATES), name) for (path, name), declaration in reader.reached.items()
             if path.suffix == '.antt' for line in declaration.lines)
    return max(lines, key=lambda line: (line[0], str(line[1])))


# What the headline reaches past its limits.
def faults():
    reader = read(['headline'])
    (_, lines, _), _ = totals(reader).values()
    length, path, name = longest(reader)
    if lines >= TOO_MANY_LINES:
        yield f'the headline reaches {lines} lines, and has to stay below {TOO_MANY_LINES}'
    if length > LONGEST_LINE:
        yield f'{path}: a line of {name} has {length} characters, and may have {LONGEST_LINE}'


def main(words):
    known = clauses()
    if any(word not in known for word in words):
        raise WrongWords(f'the clauses are {", ".join(known)}')
    reader = read(words or known)
    by_file = collections.defaultdict(list)
    for (path, _), declaration in reader.reached.items():
        by_file[path].append(declaration)
    for path in sorted(by_file):
        names = ' '.join(declaration.name for declaration in by_file[path])
        print(f'{path.relative_to(CRATES)}: {sum(len(declaration.lines) for declaration in by_file[path])} lines: {names}')
    modules = collections.Counter(module for module, _ in reader.outside)
    print('libraries: ' + ', '.join(f'{module} {count}' for module, count in sorted(modules.items())))
    if not words:
        for label in known:
            print(total_line(label, read([label])))
        print(total_line(' and '.join(PROMISE), read(PROMISE)))
    print(total_line(' and '.join(words) or 'all clauses', reader))
    length, path, name = longest(reader)
    print(f'longest line: {length} characters, of {name} in {path}')
    found = list(faults())
    for fault in found:
        print(f'definitions: {fault}')
    return 1 if found else 0


if __name__ == '__main__':
    ends(main, __doc__)
