"""Runs the commands that the pages show after `$ `, and compares what they write with what the page shows below them.

The commands of a page run one after the other in one shell, in a folder that has copies of the repository's files and links to the
program and to the Python package, so that a file of one command is there for the next. A block of Python is the file own.py. Standard error counts too, and in
what a page shows `...` stands for any number of lines. A command whose tool is not installed, or that would start jobs on a cluster, is
left out, and named.

usage: shown.py PROGRAM [PAGE..]
       the pages are files of the repository, by default README.md, those of docs and the manual page
"""

import os
import pathlib
import re
import shutil
import subprocess
import sys
import tempfile
from typing import NamedTuple

import with_tools
from usage import WrongWords, ends

ROOT = pathlib.Path(__file__).resolve().parent.parent
COPIED = ['examples', 'tools']
# What a command needs besides the program; None where it is never run here.
NEEDS = {'slurm.sh': None, 'parallel.sh': 'parallel', 'gnuplot': 'gnuplot'}
# Stands alone in a line after the output of each command.
MARK = '--- shown.py: the next command ---'
MOST_SECONDS = 300


class Shown(NamedTuple):
    """A command of a page, the number of its line, and the lines that the page shows below it."""
    number: int
    command: str
    lines: list


# ---- Pages ----

def plain(line):
    """A line of a manual page, without its marks of fonts."""
    return re.sub(r'\\f[BIR]', '', line).replace('\\-', '-')


def blocks(page):
    """The blocks of a page that are set as they stand: the number of the line above, what is said of the block, and its lines."""
    is_manual = page.suffix != '.md'
    begins, closes = (r'\.nf()$', '.fi') if is_manual else (r'```(\w*)$', '```')
    inside = None
    for number, line in enumerate(page.read_text(encoding='utf-8').split('\n'), 1):
        if inside is None:
            found = re.match(begins, line)
            inside = (number, found[1], []) if found else None
        elif line == closes:
            yield inside
            inside = None
        elif not is_manual or not line.startswith('.'):
            inside[2].append(plain(line) if is_manual else line)


def shown_in(number, lines):
    """The commands of a block. A line that ends with a backslash goes on in the next one."""
    shown = []
    for offset, line in enumerate(lines, 1):
        if line.startswith('$ '):
            shown.append(Shown(number + offset, line[2:], []))
        elif shown and shown[-1].command.endswith('\\') and not shown[-1].lines:
            shown[-1] = shown[-1]._replace(command=shown[-1].command + '\n' + line)
        elif shown:
            shown[-1].lines.append(line)
    return shown


def is_as_shown(shown, written):
    """Whether the lines written are those shown, where `...` is any number of lines."""
    pattern = ''.join('(?:.*\n)*' if line == '...' else re.escape(line + '\n') for line in shown)
    return re.fullmatch(pattern, ''.join(line + '\n' for line in written)) is not None


# ---- Runs ----

def missing(command):
    """The tool without which the command cannot be run here, or None."""
    for name, tool in NEEDS.items():
        if name in command and (tool is None or shutil.which(tool) is None):
            return tool or name
    return None


def make_folder(folder, program):
    """Makes the folder in which the commands run."""
    for name in COPIED:
        if (ROOT / name).is_dir():
            shutil.copytree(ROOT / name, folder / name)
    # Its real place says which library the package takes.
    (folder / 'python').symlink_to(ROOT / 'python')
    (folder / 'bin').mkdir()
    for link in ('edfvd', 'bin/edfvd'):
        (folder / link).symlink_to(program)


def outputs(commands, folder):
    """What each of the commands writes, as lists of lines; fewer where the shell ended or took too long before the last of them."""
    script = ''.join(f'{command}\nlast=$?; echo; echo "{MARK}"; (exit $last)\n' for command in commands)
    paths = os.pathsep.join([str(folder / 'bin'), os.environ['PATH']])
    ended = subprocess.run(['timeout', str(MOST_SECONDS), 'sh', '-c', 'exec 2>&1\n' + script], cwd=folder,
                           env=dict(os.environ, PATH=paths, PYTHONDONTWRITEBYTECODE='1'), stdin=subprocess.DEVNULL, stdout=subprocess.PIPE)
    texts = ended.stdout.decode('utf-8', 'replace').split(f'\n{MARK}\n')[:-1]
    return [text.removesuffix('\n').split('\n') if text.strip('\n') else [] for text in texts]


def faults_of(page, program):
    """The commands of a page that write other lines than it shows, and the number of those that were run."""
    shown, own = [], None
    for number, kind, lines in blocks(page):
        shown += shown_in(number, lines)
        own = '\n'.join(lines) + '\n' if kind == 'python' else own
    name = page.relative_to(ROOT)
    for left in [each for each in shown if missing(each.command)]:
        print(f'shown: {name}:{left.number} is left out: {missing(left.command)}')
        shown.remove(left)
    with tempfile.TemporaryDirectory() as work:
        folder = pathlib.Path(work)
        make_folder(folder, program)
        if own is not None:
            (folder / 'own.py').write_text(own, encoding='utf-8')
        written = outputs([each.command for each in shown], folder) if shown else []
    written += [['(nothing: the shell had ended, or had no time left)']] * (len(shown) - len(written))
    return [(name, each, lines) for each, lines in zip(shown, written) if not is_as_shown(each.lines, lines)], len(shown)


def report(name, shown, written):
    """Says what a command wrote in place of what the page shows."""
    print(f'shown: {name}:{shown.number}: {shown.command}: the lines shown (<) and written (>):')
    for line in [f'  < {line}' for line in shown.lines[:12]] + [f'  > {line}' for line in written[:12]]:
        print(line)


def main(words):
    if not words:
        raise WrongWords
    pages = [pathlib.Path(word).resolve() for word in words[1:]]
    if any(not page.is_file() or ROOT not in page.parents for page in pages):
        raise WrongWords
    program = pathlib.Path(words[0]).resolve()
    if not os.access(program, os.X_OK):
        print(f'shown: there is no program {program}', file=sys.stderr)
        return 1
    pages = pages or [ROOT / 'README.md', *sorted((ROOT / 'docs').glob('*.md')), ROOT / 'man/edfvd.1']
    commands = failed = 0
    for page in pages:
        faults, count = faults_of(page, program)
        commands, failed = commands + count, failed + len(faults)
        for fault in faults:
            report(*fault)
    print(f'shown: {commands} commands of {len(pages)} pages, {failed} write something else than their page shows')
    return 1 if failed or not commands else 0


if __name__ == '__main__':
    ends(main, __doc__)
