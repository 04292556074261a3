"""The wrong bodies that the gate leaves out. They stand in wrong-bodies/ of their crates, in the form of those in must-fail/: each is a
plausible mistake that the prover must refuse.

With no word, looks whether each still applies, which means that an old line stands exactly once in its file; also those of the gate.
With names of crates, or `all`, has the prover try their edits, crate by crate. Each must be refused, and not only because a proof cites
a name that the edit took away. With `for`, tries a few of one crate after another, in an order by the seed, until the minutes are over.
It then fails if an edit does not apply, if the prover cannot read one or accepts one, or if `rt` ends before the time is over and says
nothing of one. Those that were not tried in time are only counted.

The edits are tried in a copy. If `rt ci` has proved the crates below in this tree, the copy has only the crate and those below it, and
`rt ci` there tries the edits like those of the gate. It takes from the gate what it proved, and first proves the crate itself again, as
the base of its edits. Otherwise `rt must-fail` (`rt ci`, if the kit has no such command) tries them in a copy of the repository, where
it first builds each crate below. Either tries one edit on each processor, as far as there is memory. It does not try an edit again
whose result it kept from an earlier run of the same files on this machine; a line of `rt` then says so.

usage: wrong_bodies.py [CRATE..]
       wrong_bodies.py for MINUTES SEED
"""

import collections
import contextlib
import enum
import os
import pathlib
import random
import re
import shutil
import signal
import subprocess
import tempfile
import time

import with_tools
from usage import WrongWords, ends, whole_number

ROOT = pathlib.Path(__file__).resolve().parent.parent
CRATES = ROOT / 'crates'
# How many edits of a crate are tried before the next crate: the first of a crate costs its proof besides.
AT_ONCE = 3
# Prints the crate and those below it, if rt ci has proved those in this tree (c/machine.sh). Without out/ nothing was proved here.
ON_GATE = '''
    here=$1 crates=$1/crates
    . "$here/sources.sh" && . "$here/c/machine.sh" || exit
    if [ -d "$crates/$2/out" ] && on_gate "$2"; then crate_lines "$2" | sed 's/:.*//'; fi
'''


class Result(enum.Enum):
    """What came of an edit, by the words with which `rt` begins to say it. NOT_TRIED is said here of an edit for which there was no time,
    and NO_WORD of one of which `rt` said nothing. The refusals BY_NAME, where a proof cites a name that is gone, and BY_LIMIT, where the
    prover came to a limit, show little of the contract, so they are counted apart."""
    BY_NAME = 'refused, as it must be (only because a proof file names'
    BY_LIMIT = 'refused, as it must be (only by a limit'
    REFUSED = 'refused, as it must be'
    ACCEPTED = 'NOT REFUSED'
    BAD = 'BAD EDIT'
    NOT_TRIED = 'NOT TRIED'
    NO_WORD = 'NO WORD OF IT'


def result_of(said):
    """What came of an edit of which this is said. If it begins with the words of several results, the longest count."""
    results = [result for result in Result if said.startswith(result.value)]
    return max(results, key=lambda result: len(result.value), default=Result.NO_WORD)


def fault_of(edit):
    """Why an edit does not apply to its crate, or None."""
    lines = edit.read_text(encoding='utf-8').splitlines()
    crate, file = edit.parent.parent, None
    for line in lines:
        if line.startswith('file: '):
            file = crate / line.removeprefix('file: ').strip()
            if not file.is_file():
                return f'there is no {file.relative_to(ROOT)}'
        elif line.startswith('old: '):
            count = 0 if file is None else file.read_text(encoding='utf-8').count(line.removeprefix('old: '))
            if count != 1:
                return f'an old line stands {count} times'
    changes = [line.partition(':')[0] for line in lines if line.startswith(('old: ', 'new:'))]
    return None if changes and changes == ['old', 'new'] * (len(changes) // 2) else 'it changes nothing'


def look(edits):
    """Looks whether each applies."""
    faults = [(edit, fault_of(edit)) for edit in edits]
    failed = [(edit, fault) for edit, fault in faults if fault]
    for edit, fault in failed:
        print(f'{edit.relative_to(ROOT)}: {fault}')
    print(f'wrong_bodies: {len(edits)} edits, {len(failed)} do not apply')
    return 1 if failed else 0


@contextlib.contextmanager
def copied():
    """A copy of the repository in which no edit stands in must-fail. The libraries of the crates below are built in the copy, each once.
    The prover's own files are made beside the copy, and go with it."""
    with tempfile.TemporaryDirectory(ignore_cleanup_errors=True) as folder:
        copy = pathlib.Path(folder) / 'copy'
        shutil.copytree(CRATES, copy / 'crates', symlinks=True, ignore=shutil.ignore_patterns('out', 'must-fail'))
        for name in ('crates.txt', 'HANDLES'):
            shutil.copy(ROOT / name, copy)
        yield copy


def command():
    """The command of the kit that tries the edits of named crates."""
    words = {'stdin': subprocess.DEVNULL, 'stdout': subprocess.PIPE, 'stderr': subprocess.STDOUT}
    usage = subprocess.run(['rt'], text=True, errors='replace', check=False, **words).stdout
    return 'must-fail' if 'rt must-fail' in usage else 'ci'


@contextlib.contextmanager
def place_of(copy, crate):
    """Where the edits of a crate are tried, and the words for `rt`: if `rt ci` has proved the crates below, a copy of the crate and of
    those alone, since `rt ci` takes all crates of a repository; else the copy of the repository."""
    words = ['sh', '-c', ON_GATE, 'sh', ROOT, crate]
    names = subprocess.run(words, stdout=subprocess.PIPE, text=True, check=True).stdout.split()
    if not names:
        yield copy, [command(), crate]
        return
    place = copy.parent / crate
    for name in names:
        shutil.copytree(copy / 'crates' / name, place / 'crates' / name, symlinks=True, ignore=shutil.ignore_patterns('out'))
    lines = (copy / 'crates.txt').read_text(encoding='utf-8').splitlines(keepends=True)
    (place / 'crates.txt').write_text(''.join(line for line in lines if re.match(r'\w*', line)[0] in names), encoding='utf-8')
    shutil.copy(copy / 'HANDLES', place)
    (place / '.git').mkdir()
    yield place, ['ci']
    shutil.rmtree(place, ignore_errors=True)


def said_by_prover(place, words, seconds):
    """What `rt` prints for these words, and whether it ended within that many seconds. If not, it is ended with all that it started,
    which is a process group of its own."""
    with open(place.parent / 'said', 'w+', encoding='utf-8', errors='replace') as said:
        where = {'cwd': place, 'env': {**os.environ, 'TMPDIR': str(place.parent)}, 'stdout': said, 'stderr': subprocess.STDOUT}
        prover = subprocess.Popen(['rt', *words], start_new_session=True, **where)
        try:
            prover.wait(seconds)
            ended = True
        except subprocess.TimeoutExpired:
            ended = False
        finally:
            if prover.poll() is None:
                os.killpg(prover.pid, signal.SIGTERM)
                prover.wait()
        said.seek(0)
        return said.read(), ended


def tried(copy, edits, seconds=None):
    """Has the prover try these edits of one crate, and returns what came of each."""
    crate = edits[0].parent.parent.name
    with place_of(copy, crate) as (place, words):
        folder = place / 'crates' / crate / 'must-fail'
        folder.mkdir()
        for edit in edits:
            shutil.copy(edit, folder)
        text, ended = said_by_prover(place, words, seconds)
        shutil.rmtree(folder)
    lines = text.split('\n')
    for line in lines:
        if line.startswith(f'rt: {crate}: ') and ' must-fail edits' in line:
            print(line)
    results = []
    for edit in edits:
        label = f'rt: must-fail {crate}/{edit.name}: '
        unsaid = Result.NO_WORD if ended else Result.NOT_TRIED
        said = next((line.removeprefix(label) for line in lines if line.startswith(label)), unsaid.value)
        print(label + said, flush=True)
        results.append(result_of(said))
    if Result.NO_WORD in results:
        print(*lines[-8:], sep='\n', flush=True)
    return results


def counted(results):
    """Prints how many edits came to each result, and returns the numbers."""
    counts = collections.Counter(results)
    little = f'{counts[Result.BY_NAME]} only by a name in a proof, {counts[Result.BY_LIMIT]} only by a limit'
    failed = f'{counts[Result.ACCEPTED]} accepted, {counts[Result.BAD]} bad, {counts[Result.NO_WORD]} of which rt said nothing'
    print(f'wrong_bodies: {counts[Result.REFUSED]} refused, {little}, {failed}, {counts[Result.NOT_TRIED]} not tried')
    return counts


def try_all(crates):
    """Has the prover try all edits of these crates."""
    with copied() as copy:
        results = [result for crate in crates for result in tried(copy, edits_of(crate))]
    counts = counted(results)
    return 0 if counts[Result.REFUSED] + counts[Result.BY_LIMIT] == len(results) else 1


def try_some(minutes, seed, crates):
    """Has the prover try a few edits of one crate after another, in an order by the seed, until the minutes are over."""
    order, end, results = random.Random(seed), time.monotonic() + 60 * minutes, []
    order.shuffle(crates)
    with copied() as copy:
        for crate in crates:
            edits = edits_of(crate)
            picked = order.sample(edits, min(AT_ONCE, len(edits)))
            if time.monotonic() < end:
                results += tried(copy, picked, end - time.monotonic())
    counts = counted(results)
    return 1 if counts[Result.ACCEPTED] or counts[Result.BAD] or counts[Result.NO_WORD] else 0


def edits_of(crate):
    return sorted((CRATES / crate / 'wrong-bodies').glob('*.edit'))


def main(words):
    if not words:
        return look(sorted(CRATES.glob('*/*/*.edit')))
    crates = sorted(folder.parent.name for folder in CRATES.glob('*/wrong-bodies'))
    is_some = words[0] == 'for' and len(words) == 3
    wanted = crates if is_some or words == ['all'] else words
    if not set(wanted) <= set(crates):
        raise WrongWords(f'crates: {" ".join(crates)}')
    edits = [edit for crate in wanted for edit in edits_of(crate)]
    if look(edits):
        return 1
    return try_some(whole_number(words[1]), whole_number(words[2]), crates) if is_some else try_all(wanted)


if __name__ == '__main__':
    ends(main, __doc__)
