"""Tries new cases for as long as it is given, by a seed: rounds of cases of compare.py, of mutate.py, of documents made by a
grammar (documents.py), and of explain.py beside the model. The same seed makes the same cases in the same order; how many of
them are tried depends on the time.

A case that fails is made smaller for as long as it fails, and written into FOLDER as a file that found.py tries again: put
into found/, it is tried by every run. The cases in found/ come first.

usage: night.py PROGRAM MINUTES SEED FOLDER
"""

import collections
import datetime
import os
import time

import with_tools
import compare
import documents
import explain_check
import found
import model
import mutate
from cases import Dice, Runner
from compare import between, chance
from documents import second_reading, tomllib
from found import Call
from usage import WrongWords, ends, whole_number

CASES_OF_A_ROUND = 40
# A case that fails is made smaller. For this it is run at most MOST_TRIES times, and for at most MOST_SECONDS seconds.
MOST_TRIES = 1500
MOST_SECONDS = 100
NOT_TOML = (3, b'task file: not TOML\n')


class Fault(Exception):
    """Of a case: the call that repeats it, or None where no program is called, and what is wrong."""

    def __init__(self, call, words):
        super().__init__(words)
        self.call = call


# ---- Smaller cases ----

class Shrinker:
    """Takes parts out of a list for as long as the rest still fails."""

    def __init__(self):
        self.tries = 0
        self.until = time.monotonic() + MOST_SECONDS

    def may_try(self):
        self.tries += 1
        return self.tries <= MOST_TRIES and time.monotonic() < self.until

    def shrunk(self, items, fails):
        """The fewest items found that still fail, in their order."""
        size = len(items)
        while size:
            place, was = 0, len(items)
            while place < len(items) and self.may_try():
                rest = items[:place] + items[place + size:]
                if fails(rest):
                    items = rest
                else:
                    place += size
            size = size if size == 1 and len(items) < was else size // 2
        return items

    def shrunk_bytes(self, data, fails):
        """Some bytes with as few lines as can be, and then as few bytes."""
        data = b''.join(self.shrunk(data.splitlines(keepends=True), lambda rest: fails(b''.join(rest))))
        return self.shrunk(data, fails) if len(data) <= 2000 else data

    def shrunk_contents(self, contents, fails):
        """Each of the contents in turn."""
        for place in reversed(range(len(contents))):
            with_content = lambda data, place=place: contents[:place] + [data] + contents[place + 1:]
            contents = with_content(self.shrunk_bytes(contents[place], lambda data: fails(with_content(data))))
        return contents


# ---- Cases of compare.py ----

MAKERS = compare.HUNDRED + 5 * [compare.demand_case] + compare.SEVERAL_AND_ROOM + 2 * compare.SCALED


def wanted_of(case):
    status, text = model.answer(case.command, case.tree, case.second, case.words)
    return status, (text or '').encode()


class Compared:
    """Cases of compare.py: the program's answer is the model's."""
    name = 'compare'

    def __init__(self, runner):
        self.runner = runner

    def one(self, dice):
        case = dice.one_of(MAKERS)(dice)
        seed = dice.below(2 ** 32)
        for twin in [case] + ([case._replace(second=case.twin)] if case.twin is not None else []):
            fault = self.fault_of(twin, seed)
            if fault is not None:
                small = self.smaller(twin, seed)
                call = Call(small.command, compare.contents_of(Dice(seed), small), small.words, wanted_of(small))
                raise Fault(call, self.fault_of(small, seed) or fault)

    def fault_of(self, case, seed):
        wanted = model.answer(case.command, case.tree, case.second, case.words)
        answer = self.runner.run(case.command, compare.contents_of(Dice(seed), case), case.words)
        if compare.is_right(case, wanted, answer):
            late = compare.breaks_the_law(case, answer[1].decode())
            return 'late though the rule holds' if late else None
        return compare.told(answer)

    def smaller(self, case, seed):
        """The case with fewer tasks and fewer records in its second file."""
        shrinker = Shrinker()
        fails = lambda case: self.fault_of(case, seed) is not None
        for _ in range(2):
            if case.second is not None:
                case = case._replace(second=''.join(shrinker.shrunk(
                    case.second.splitlines(keepends=True), lambda rest: fails(case._replace(second=''.join(rest))))))
            if case.tree is not None and isinstance(case.tree.get('task'), list):
                with_tasks = lambda tasks: case._replace(tree=dict(case.tree, task=tasks))
                case = with_tasks(shrinker.shrunk(case.tree['task'], lambda rest: fails(with_tasks(rest))))
        return case


# ---- Cases of mutate.py ----

class Mutated:
    """Example files that are spoilt: the answer is one that is named for the command, twice the same, in bounded memory."""
    name = 'mutate'

    def __init__(self, program):
        self.one_runner = Runner(program, mutate.limit)
        self.several = Runner(program, lambda: mutate.limit(mutate.BYTES_OF_SEVERAL))
        names = {name for _, names, _ in mutate.EXAMPLES for name in names}
        self.files = {}
        for name in names:
            with open(name, 'rb') as file:
                self.files[name] = file.read()

    def one(self, dice):
        command, names, words = dice.one_of(mutate.EXAMPLES)
        contents = [self.files[name] for name in names]
        for _ in range(between(dice, 1, 2)):
            which = dice.below(len(contents))
            contents[which] = mutate.spoilt(contents[which], dice)
        if self.fault_of(command, contents, words) is not None:
            contents = Shrinker().shrunk_contents(contents, lambda rest: self.fault_of(command, rest, words) is not None)
            raise Fault(Call(command, contents, words, None), self.fault_of(command, contents, words))

    def fault_of(self, command, contents, words):
        runner = self.several if command == 'runall' else self.one_runner
        return mutate.outcome(runner, command, contents, words)[2]


# ---- Documents ----

TEXTS = [
    '', 'ctl', 'a b', '"', "'", "''", '\\', '\n', 'a\nb', 'a\r\nb', '\t', '\x00', '\x1b[0m', '\x7f', '\u00e9', '\u2028', '\U0001f40c',
    '"""', "it's", "'''", 'low', 'high', '#', 'a = 1', '[task]', ' a ', '1979-05-27', 'true', '\ue000', '\U0010ffff', '\ud7ff']
FRACTIONS = [0.0, 1.0, 1.5, 1e22, 1e-7, 6.25e-10, float('inf'), float('nan'), -1.5, -0.0, 123456.75, 1e308, 5e-324]
KEYS = ['name', 'level', 'period', 'low', 'high', 'scale', 'version', 'a b', '', "it's", 'key-1', '1', '1.5', 'true', '\u00e9', '"', 'a\nb']


def some_date(dice):
    date = datetime.date(between(dice, 1, 9999), between(dice, 1, 12), between(dice, 1, 28))
    time = datetime.time(
        dice.below(24), dice.below(60), dice.one_of([0, dice.below(60)]), dice.one_of([0, 0, dice.below(1000000)]))
    minutes = dice.one_of([0, between(dice, -23 * 60, 23 * 60)])
    zone = dice.one_of([None, datetime.timezone(datetime.timedelta(minutes=minutes))])
    return dice.one_of([date, time, datetime.datetime.combine(date, time, zone)])


def some_value(dice, depth=0):
    kind = dice.below(6 if depth > 3 else 8)
    if kind == 0:
        return dice.one_of(compare.ODD_NUMBERS + [dice.below(2 ** 40)])
    if kind == 1:
        return dice.one_of(FRACTIONS)
    if kind == 2:
        return some_date(dice)
    if kind == 3:
        return dice.one_of([True, False])
    if kind < 6:
        return dice.one_of(TEXTS)
    if kind == 6:
        return [some_value(dice, depth + 1) for _ in range(dice.below(4))]
    return {dice.one_of(KEYS): some_value(dice, depth + 1) for _ in range(dice.below(4))}


def some_tree(dice):
    """The tree of a task file, right, with a change or two, or with values of any kind at some keys."""
    tasks = compare.small_tasks(dice)[:6]
    tree = dice.one_of(2 * [compare.without_scale] + [compare.with_scale])(dice, tasks)[1]
    if chance(dice, 1, 4):
        tree = compare.spoilt_tree(dice, tree)
    for _ in range(dice.one_of([0, 0, 1, 2])):
        tables = tree.get('task')
        table = dice.one_of([tree] + ([table for table in tables if isinstance(table, dict)] if isinstance(tables, list) else []))
        if table is tree or chance(dice, 1, 3):
            table[dice.one_of(KEYS)] = some_value(dice)
        else:
            table[dice.one_of(model.TASK_KEYS)] = some_value(dice)
    return tree


def canonical(value):
    """A value that two trees have alike exactly where they say the same."""
    if isinstance(value, dict):
        return {key: canonical(item) for key, item in value.items()}
    if isinstance(value, list):
        return [canonical(item) for item in value]
    return type(value).__name__, repr(value) if isinstance(value, float) else value


def says(tree):
    """The program's answer to a document that says a tree."""
    if tree is None:
        return NOT_TOML
    status, text = model.answer('check', tree)
    return status, text.encode()


class Documents:
    """Documents of the grammar: the answer to one is the model's to its tree; a wrong one is refused as no TOML."""
    name = 'documents'

    def __init__(self, runner):
        self.runner = runner

    def one(self, dice):
        tree, is_new = some_tree(dice), chance(dice, 1, 3)
        document = documents.document(dice, tree, is_new)
        line = None
        if chance(dice, 1, 2):
            (document, line), tree = documents.wrong(dice, document), None
        data = document.text().encode()
        if tomllib is not None and not is_new:
            self.agree(tree, line, data)
            if chance(dice, 1, 4):
                data, line = mutate.spoilt(data, dice), None
                tree, is_sure = second_reading(data)
                if tree is None and not is_sure:
                    return
        self.check(says(tree), data, line)

    def agree(self, tree, line, data):
        """tomllib reads the tree in the document, too, or refuses it."""
        other, is_sure = second_reading(data)
        if is_sure and canonical(other) != canonical(tree):
            raise Fault(Call('check', [data], [], says(tree)), f'tomllib reads another tree than was written ({line!r})')

    def check(self, wanted, data, line):
        answer = self.runner.run('check', [data], [])
        if answer == (*wanted, b''):
            return
        if tomllib is not None and second_reading(data)[1]:
            data = Shrinker().shrunk_bytes(data, self.differs)
            wanted = says(second_reading(data)[0])
        answer = self.runner.run('check', [data], [])
        has_line = line is not None and line.encode() in data
        raise Fault(Call('check', [data], [], wanted), compare.told(answer) + (f', with {line!r}' if has_line else ''))

    def differs(self, data):
        """Whether the program reads something else than tomllib does."""
        tree, is_sure = second_reading(data)
        return (tree is not None or is_sure) and self.runner.run('check', [data], []) != (*says(tree), b'')


# ---- Explanations ----

class Explained:
    """explain.py's verdicts and walk.py's traces beside the model's; no built program is called."""
    name = 'explain'

    def one(self, dice):
        case = dice.one_of(explain_check.MAKERS)(dice)
        wanted = model.answer('judge', case.tree, case.second, case.words)
        if explain_check.found(case) != wanted:
            call = Call('judge', compare.contents_of(Dice(1), case), case.words, wanted_of(case))
            raise Fault(call, f'explain.py finds {explain_check.found(case)}')


# ---- The night ----

class Night:
    """What came of the cases so far."""

    def __init__(self, program, folder, seed):
        runner = Runner(program)
        self.kinds = [Compared(runner), Documents(runner), Mutated(program), Documents(runner), Explained()]
        self.folder, self.seed = folder, seed
        self.cases = collections.Counter()
        self.faults = 0

    def go_on(self, until):
        """Rounds of the kinds in turn; the first one of each in any case."""
        number = 0
        while number < len(self.kinds) or time.monotonic() < until:
            kind = self.kinds[number % len(self.kinds)]
            dice = Dice(self.seed * 1000003 + number)
            for place in range(CASES_OF_A_ROUND):
                if number >= len(self.kinds) and time.monotonic() >= until:
                    return
                self.cases[kind.name] += 1
                try:
                    kind.one(dice)
                except Fault as fault:
                    self.note(fault, f'{kind.name}: night of seed {self.seed}, round {number}, case {place}')
            number += 1

    def note(self, fault, how):
        self.faults += 1
        os.makedirs(self.folder, exist_ok=True)
        path = os.path.join(self.folder, f'seed-{self.seed}-{self.faults}.json')
        found.save(path, fault.call, str(fault), how)
        with open(path, encoding='ascii') as file:
            print(f'{how}: {fault}\n  try it again: python3 -B found.py PROGRAM {path}\n{file.read(4000)}', flush=True)


def main(words):
    if len(words) != 4:
        raise WrongWords
    program, minutes, seed, folder = os.path.abspath(words[0]), whole_number(words[1]), whole_number(words[2]), words[3]
    until = time.monotonic() + 60 * minutes
    kept = found.main([program])
    night = Night(program, folder, seed)
    night.go_on(until)
    print(', '.join(f'{count} cases of {name}' for name, count in sorted(night.cases.items())))
    print(f'night: seed {seed}, {sum(night.cases.values())} cases, {night.faults} failed')
    return 1 if kept or night.faults else 0


if __name__ == '__main__':
    ends(main, __doc__)
