"""Draws the ticks from FROM up to TO of a trace as a picture in SVG, with a lane for each task.

An arrow up is a release, and an arrow down a deadline. Each tick that a job has is a box; a box ends with a bar where its job
is done or stopped. Overruns have a colour of their own, high mode is shaded, and a cross is a job that was dropped at its
release or discarded by an overrun. In a browser each box says its job. The trace may be of either version, and is drawn as it is:
`edfvd judge` says whether it is legal.

usage: svg.py TASKS TRACE FROM TO > FILE.svg
       TASKS is a task file, TRACE a trace of it; FROM and TO are numbers of ticks, 0 <= FROM < TO <= 100,000,000
"""

import sys
from pathlib import Path

from reading import number_between, or_refused, runs_in, tasks_in
from rules import MOST_TICKS
from usage import WrongWords, ends

# The drawing is in the Python package; this module of it needs no library.
sys.path.append(str(Path(__file__).resolve().parent.parent / 'python' / 'edfvd'))
from _picture import Mark, Window, axis, discards, high_modes, marks, picture, ticks_of


def main(words):
    if len(words) != 4:
        raise WrongWords
    begin, end = (number_between(word, 0, MOST_TICKS) for word in words[2:])
    if begin >= end:
        raise WrongWords
    tasks = tasks_in(words[0])
    for text in picture(tasks, runs_in(tasks, words[1]), begin, end):
        print(text)
    return 0


if __name__ == '__main__':
    ends(or_refused(main), __doc__)
