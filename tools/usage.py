"""How a script answers its words: `--help` by its usage, with status 0, and words that are none of its forms by its
usage on standard error, with status 2. A file that fails ends it with one line and status 7, a standard output that takes
no more, as a closed pipe or a full disk, with one line and status 8, and too little memory with one line and status 9.
"""

import os
import re
import signal
import sys
from errno import EBADF


class WrongWords(Exception):
    """Words that are none of the forms, and what else to say about them."""


def whole_number(word):
    """The whole number that a word is."""
    if not re.fullmatch('[0-9]{1,20}', word):
        raise WrongWords
    return int(word)


def numbers(words, *defaults):
    """The whole numbers that the words are, with these in the place of those that are left away."""
    if len(words) > len(defaults):
        raise WrongWords
    return [whole_number(word) for word in words] + list(defaults[len(words):])


def shown_name(name):
    """The name of a file as part of a line."""
    return ''.join(one if one.isprintable() else '?' for one in str(name))


def leaves_nothing_on_signals():
    """Ends the process on SIGHUP and SIGTERM as at its end, so that its folders go, where these signals are not ignored."""
    for number in (signal.SIGHUP, signal.SIGTERM):
        if signal.getsignal(number) == signal.SIG_DFL:
            signal.signal(number, lambda number, _: sys.exit(128 + number))


def ends(main, page):
    """Ends the process with the status that main returns for the words; the usage stands at the end of the script's page."""
    usage, words = page[page.index('usage: '):].strip(), sys.argv[1:]
    leaves_nothing_on_signals()
    try:
        status = answer(main, usage, words)
    except WrongWords as wrong:
        print(usage, *wrong.args, sep='\n', file=sys.stderr)
        status = 2
    except (MemoryError, RecursionError):
        print(f'{os.path.basename(sys.argv[0])}: out of memory', file=sys.stderr)
        status = 9
    except KeyboardInterrupt:
        status = 130
    except OSError as error:
        what = 'standard output' if error.filename is None else shown_name(error.filename)
        print(f'{os.path.basename(sys.argv[0])}: {what}: {error.strerror}', file=sys.stderr)
        status = 8 if error.filename is None else 7
        # What is not written yet would be tried again at the end.
        os.dup2(os.open(os.devnull, os.O_WRONLY), 1)
    sys.exit(status)


def answer(main, usage, words):
    if '--help' in words:
        print(usage)
        status = 0
    elif any(word.startswith('--') and word not in re.findall('--[a-z]+', usage) for word in words):
        raise WrongWords
    else:
        status = main(words)
    if sys.stdout is None:
        raise OSError(EBADF, os.strerror(EBADF))
    sys.stdout.flush()
    return status
