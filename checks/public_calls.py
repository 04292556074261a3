"""The public calls that no other crate calls. If a clause of such a call is too weak, no proof above it fails. So the gate must try an
edit of it, or of a private function that it calls; or a test must call it.

A call is public if the root of its crate exports it, or the type whose method it is. Of a program it is each function that other files of
it may call: the gate compares what the program prints. Calls in calling_examples and in tests do not count as calls of another crate.
Left out are the calls for C, which have tests in C and in Python, and laws, whose bodies return nothing. Calls are found by their names
in the text: a method counts as called if its name follows a dot, whatever the type is. A test counts if it makes the call; whether it
compares what comes back is for its reader.

usage: public_calls.py
       lists these calls, each with what shows it, and fails if nothing shows one
"""

import pathlib
import re
from typing import NamedTuple, Optional

import with_tools
from usage import WrongWords, ends

ROOT = pathlib.Path(__file__).resolve().parent.parent
CRATES = ROOT / 'crates'


class Function(NamedTuple):
    crate: str
    owner: Optional[str]  # the type whose method it is
    name: str
    is_public: bool
    path: pathlib.Path
    line: int  # of its head, counted from 1
    last: int  # of its body
    words: set  # of its body

    def shown(self):
        return f'{self.owner}::{self.name}' if self.owner else self.name


class Crate(NamedTuple):
    name: str
    is_for_c: bool
    is_test: bool
    is_program: bool
    below: list
    functions: list
    texts: list  # of each file: whether it is one of tests, and its code without comments and `use` lines


def functions_in(crate, path, exported):
    """The functions of a file, in a crate that exports these names, or in a program."""
    owner, lines = None, path.read_text(encoding='utf-8').split('\n')
    for number, line in enumerate(lines, 1):
        block = re.match(r'(?:impl(?:<.*?>)? (?:.+? for )?|(?:pub )?trait )(\w+)', line)
        owner = block[1] if block else None if line.startswith('}') else owner
        head = re.match(r'(\s*)(pub )?(extern "C" )?fn (\w+)', line)
        if head:
            last = next((at for at, end in enumerate(lines, 1) if at >= number and end in (head[1] + '}', head[1] + '{}')), number)
            words, of = set(re.findall(r'\w+', ' '.join(lines[number:last]))), owner if head[1] else None
            is_public = head[2] and (exported is None or head[3] or (of or head[4]) in exported)
            yield Function(crate, of, head[4], bool(is_public), path, number, last, words)


def exported_by(root):
    """The names that the root of a library exports."""
    text = code = root.read_text(encoding='utf-8')
    for module in re.findall(r'^pub mod (\w+)', text, re.MULTILINE):
        code += root.with_name(f'{module}.rt').read_text(encoding='utf-8')
    names = re.findall(r'^pub (?:fn|struct|enum|trait) (\w+)', code, re.MULTILINE)
    return {name for found in re.findall(r'^pub use ([^;]*);', text, re.MULTILINE) + names for name in re.findall(r'\w+', found)}


def code_of(path):
    return re.sub(r'//.*|^\s*(?:ghost |pub )?use [^;]*;', '', path.read_text(encoding='utf-8'), flags=re.MULTILINE)


def is_test_file(path):
    return path.name == 'tests.rt' or 'tests' in path.parts


def crates():
    """The crates of crates.txt."""
    for line in (ROOT / 'crates.txt').read_text(encoding='utf-8').split('\n'):
        head, colon, below = line.partition(':')
        if colon and not line.startswith('#'):
            name, *kind = head.split()
            root, paths = CRATES / name / 'src/lib.rt', sorted((CRATES / name / 'src').rglob('*.rt'))
            is_test = name.endswith('_tests') or name.startswith('worked_')
            exported = exported_by(root) if root.is_file() else None
            functions = [it for path in paths if not is_test_file(path) for it in functions_in(name, path, exported)]
            texts = [(is_test or is_test_file(path), code_of(path)) for path in paths]
            yield Crate(name, 'staticlib' in kind, is_test, exported is None, below.split(), functions, texts)


def calls_it(text, call):
    """Whether a text calls it; a constructor only by its type's name, since most types have one of that name."""
    if call.owner is None:
        return re.search(rf'(?<![.\w]){call.name}\b', text)
    return re.search(rf'\b{call.owner}::{call.name}\b' + ('' if call.name == 'new' else rf'|\.{call.name}(?:\(|::<)'), text)


def with_private(functions, call):
    """A call, and the private functions that it calls, or that these call, by their names."""
    found = [call]
    for caller in found:
        found += [it for it in functions if it.name in caller.words and not it.is_public and it not in found]
    return found


def edits(crate):
    """The gate's edits of a crate: the file and the line at which an old text stands, and the edit's name."""
    for edit in sorted((CRATES / crate / 'must-fail').glob('*.edit')):
        path = None
        for line in edit.read_text(encoding='utf-8').split('\n'):
            if line.startswith('file: '):
                path = edit.parent.parent / line.removeprefix('file: ').strip()
            elif line.startswith('old: '):
                yield path, path.read_text(encoding='utf-8').split(line.removeprefix('old: '))[0].count('\n') + 1, edit.stem


def shown_by(call, crate, every):
    """What shows a call: edits, the crates whose tests call it, or the program that calls it."""
    own = with_private(crate.functions, call)
    by_edits = {name for path, line, name in edits(crate.name) if any(it.path == path and it.line <= line <= it.last for it in own)}
    tests = {it.name for it in every if it == crate or crate.name in it.below for is_test, text in it.texts if is_test and calls_it(text, call)}
    is_run = crate.is_program and any(call.name in it.words for it in crate.functions if it != call)
    return sorted(by_edits) + sorted(tests) + ['what the program prints'] * is_run


def lone_calls():
    """The public calls that no other crate calls, each with what shows it."""
    every = list(crates())
    for crate in every:
        above = [text for it in every if crate.name in it.below and it.name != 'calling_examples' for is_test, text in it.texts if not is_test]
        for call in [] if crate.is_for_c or crate.is_test else crate.functions:
            if call.is_public and not call.name.endswith('_law') and not any(calls_it(text, call) for text in above):
                yield call, shown_by(call, crate, every)


def faults():
    return [f'nothing shows {call.shown()} of {call.crate}: it needs an edit in must-fail, or a test' for call, shows in lone_calls() if not shows]


def main(words):
    if words:
        raise WrongWords
    for call, shows in lone_calls():
        print(f'{call.crate} {call.shown()}: {", ".join(shows) or "nothing"}')
    return 1 if faults() else 0


if __name__ == '__main__':
    ends(main, __doc__)
