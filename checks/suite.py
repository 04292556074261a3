"""Compares the program's answer to each valid document of the TOML test suite with the model's answer to what Python's tomllib
reads in it. One that only TOML 1.1 has is passed over.

usage: suite.py PROGRAM FOLDER
"""

import glob
import os

import with_tools
from cases import Runner
from documents import second_reading
from night import says
from usage import WrongWords, ends


def main(words):
    if len(words) != 2:
        raise WrongWords
    runner = Runner(os.path.abspath(words[0]))
    compared = failed = 0
    for name in sorted(glob.glob(os.path.join(words[1], 'valid', '**', '*.toml'), recursive=True)):
        with open(name, 'rb') as file:
            data = file.read()
        tree, _ = second_reading(data)
        if tree is not None:
            compared += 1
            answer = runner.run('check', [data], [])
            if answer != (*says(tree), b''):
                failed += 1
                print(f'{name}: {answer}, of the model: {says(tree)}')
    print(f'suite: {compared} documents beside the model, {failed} failed')
    return 0 if compared and not failed else 1


if __name__ == '__main__':
    ends(main, __doc__)
