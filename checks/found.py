"""Cases that were found and kept: a file each, of JSON, in found/ or elsewhere. Tries whether the program answers them as the
model did when they were found; a case without an answer has to get one that is named for its command.

usage: found.py PROGRAM [FILE]
"""

import glob
import json
import os
from typing import NamedTuple, Optional

import with_tools
import mutate
from cases import Runner
from reading import Refusal, bytes_in, or_refused
from usage import WrongWords, ends, shown_name

MOST_BYTES = 2 ** 28  # of a kept case, in which each byte of its files may take six


class Call(NamedTuple):
    command: str
    contents: list  # the bytes of its files
    words: list
    wanted: Optional[tuple]  # the status and the bytes of the text; None where any answer does that is named for the command


def save(path, call, found, how):
    """Writes a case, with what was found instead of the answer, and how it came. A byte is a character."""
    case = {
        'how': how, 'command': call.command, 'words': call.words, 'files': [content.decode('latin-1') for content in call.contents],
        'wanted': None if call.wanted is None else [call.wanted[0], call.wanted[1].decode('latin-1')], 'found': found}
    with open(path, 'w', encoding='ascii') as file:
        file.write(json.dumps(case, indent=1) + '\n')


def load(path):
    """The call of a case that `save` wrote."""
    try:
        case = json.loads(bytes_in(path, MOST_BYTES))
        command, words, files, wanted = (case[key] for key in ('command', 'words', 'files', 'wanted'))
        if not (are_texts([command]) and are_texts(words) and '\0' not in command + ''.join(words) and are_texts(files) and (wanted is None or is_answer(wanted))):
            raise ValueError
        contents = [content.encode('latin-1') for content in files]
        return Call(command, contents, words, wanted and (wanted[0], wanted[1].encode('latin-1')))
    except (ValueError, KeyError, TypeError, RecursionError):
        raise Refusal(1, f'found: {shown_name(path)} is no kept case') from None


def are_texts(values):
    """Whether these are a list of texts."""
    return isinstance(values, list) and all(isinstance(value, str) for value in values)


def is_answer(wanted):
    """Whether this is a status and a text."""
    return isinstance(wanted, list) and len(wanted) == 2 and isinstance(wanted[0], int) and are_texts(wanted[1:])


def fault_of(runner, call):
    """What is wrong with the program's answer to a call, or None."""
    if call.wanted is None:
        return mutate.outcome(runner, call.command, call.contents, call.words)[2]
    status, text, errors = runner.run(call.command, call.contents, call.words)
    if call.command == 'live' and call.wanted[0] == 0:
        return None if (status, errors) == (0, b'') else f'status {status}'
    return None if (status, text, errors) == (*call.wanted, b'') else f'status {status}, {text[:200]}{errors[:200]}'


def main(words):
    if len(words) not in (1, 2):
        raise WrongWords
    runner = Runner(os.path.abspath(words[0]))
    names = words[1:] or sorted(glob.glob(os.path.join(os.path.dirname(os.path.abspath(__file__)), 'found', '*.json')))
    failed = 0
    for name in names:
        fault = fault_of(runner, load(name))
        if fault is not None:
            failed += 1
            print(f'{name}: {fault}')
    print(f'found: {len(names)} kept cases, {failed} failed')
    return 1 if failed else 0


if __name__ == '__main__':
    ends(or_refused(main), __doc__)
