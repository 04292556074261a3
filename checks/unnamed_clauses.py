"""The clauses of public calls that no page names. PROMISES.md, C-AND-PYTHON.md, EVIDENCE.md and CALLING.md say what is promised: a page
names a clause as `call: clause`, or all clauses of a call by the call's name alone. unnamed_clauses.txt has the clauses that none of
them names, each with the reason, and here it is compared with the sources: a new clause is named in a page or gets its line there.

A call is known by its last name alone. So all clauses of a call `run` count as named if a page names another `run`, even a command.

usage: unnamed_clauses.py
       lists these clauses, and fails if the list differs
"""

import itertools
import pathlib
import re

import with_tools
import public_calls
from usage import WrongWords, ends

ROOT = pathlib.Path(__file__).resolve().parent.parent
PAGES = ('PROMISES.md', 'C-AND-PYTHON.md', 'EVIDENCE.md', 'CALLING.md')
# What the pages leave out at the head of the name of a call for C.
FRONTS = ('edfvd_raw_', 'edfvd_raw_scheduler_', 'edfvd_raw_monitor_')
LIST = pathlib.Path(__file__).with_suffix('.txt')


def clauses_of(call):
    """The names of a call's clauses; a clause without a name has the call's name, as the pages name it."""
    lines = call.path.read_text(encoding='utf-8').split('\n')[call.line:call.last]
    contract = itertools.takewhile(lambda line: not re.match(r'\s*(\{|let |match )', line), lines)
    heads = (re.match(r'\s*ensures (?:(\w+) )?\{', line) for line in contract)
    return [head[1] or call.name for head in heads if head]


def named():
    """What the pages name: calls by their names alone, and pairs of a call and a clause. A name that follows `call: clause` in the same
    line may be another clause of that call, too."""
    calls, pairs = set(), set()
    lines = (line for page in PAGES for line in (ROOT / 'docs' / page).read_text(encoding='utf-8').split('\n'))
    for line in lines:
        last = None
        for words in re.findall('`([^`]+)`', line):
            call, _, clauses = words.partition(': ')
            last = call.split('::')[-1] if clauses else last
            pairs.update((last, clause) for clause in (clauses or words).split(', '))
            calls.update([] if clauses else [call.split('::')[-1]])
    return calls, pairs


def unnamed():
    """The lines of the clauses that no page names, without their reasons."""
    calls, pairs = named()
    for crate in public_calls.crates():
        for call in (it for it in crate.functions if it.is_public and not crate.is_test):
            names = [call.name] + [call.name.removeprefix(front) for front in FRONTS if call.name.startswith(front)]
            clauses = [clause for clause in clauses_of(call) if not any(name in calls or (name, clause) in pairs for name in names)]
            if clauses:
                yield f'{crate.name} {call.shown()}: ' + ', '.join(clauses)


def listed():
    """The lines of the list, each with its reason."""
    lines = (line for line in LIST.read_text(encoding='utf-8').split('\n') if line and not line.startswith('#'))
    return {line: reason for line, _, reason in (line.partition(' | ') for line in lines)}


def faults():
    found, kept = set(unnamed()), listed()
    yield from (f'no page names {line}, and unnamed_clauses.txt does not have this line' for line in sorted(found - set(kept)))
    yield from (f'unnamed_clauses.txt has {line}, which is named in a page, or not there' for line in sorted(set(kept) - found))
    yield from (f'unnamed_clauses.txt has no reason for {line}' for line in sorted(kept) if not kept[line].strip())


def main(words):
    if words:
        raise WrongWords
    kept, failed = listed(), list(faults())
    for line in unnamed():
        print(f'{line} | {kept.get(line, "")}')
    for fault in failed:
        print(f'unnamed_clauses: {fault}')
    print(f'unnamed_clauses: {len(failed)} faults')
    return 1 if failed else 0


if __name__ == '__main__':
    ends(main, __doc__)
