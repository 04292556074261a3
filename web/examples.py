"""Writes the examples that the page offers, as a JavaScript module, from the files of the folder examples.

usage: examples.py > examples.js
"""

import json
import pathlib
import sys

sys.path.insert(0, str(pathlib.Path(__file__).resolve().parent.parent / 'tools'))
from usage import WrongWords, ends  # noqa: E402

ROOT = pathlib.Path(__file__).resolve().parent.parent / 'examples'

# The name, the tab, the files by the part that each fills, and the values of fields.
EXAMPLES = [
    ('An overrun', 'schedule', {'tasks': 'overrun/tasks.toml', 'work': 'overrun/work.csv'}, {'ticks': '12', 'processors': '2'}),
    ('A flight computer', 'schedule', {'tasks': 'avionics/tasks.toml', 'work': 'avionics/work.csv'}, {'ticks': '20000'}),
    ('A certified scale', 'schedule', {'tasks': 'certified/tasks.toml', 'work': 'certified/work.csv'}, {'ticks': '16'}),
    ('A certified scale, outgrown', 'schedule', {'tasks': 'certified/outgrown.toml', 'work': 'certified/work.csv'}, {'ticks': '16'}),
    ('A legal trace', 'judge', {'tasks': 'judged/tasks.toml', 'trace': 'judged/legal.csv'}, {}),
    ('An illegal trace', 'judge', {'tasks': 'judged/tasks.toml', 'trace': 'judged/illegal.csv'}, {}),
    ('A job late under the scale 1/1', 'judge', {'tasks': 'judged/tasks.toml', 'trace': 'judged/late.csv'}, {'scale': '1/1'}),
    ('A recording of one’s own', 'judge', {'tasks': 'record/tasks.toml', 'trace': 'record/by_hand_events.csv'}, {'tick': '1000'}),
    ('A trace that takes too much', 'judge', {'tasks': 'runs/tasks.toml', 'trace': 'explained/in_a_run.csv'}, {}),
    ('Not admitted', 'schedule', {'tasks': 'refused/high_load.toml'},
     {'work': 'task,release,need\ntap,0,1\narm,0,3\ntap,2,1\narm,4,1\ntap,4,1\ntap,8,1\n', 'ticks': '12'}),
    ('A wrong task file', 'schedule', {'tasks': 'refused/unknown_key.toml'}, {}),
    ('Budgets that may grow', 'fit', {'tasks': 'control/tasks.toml'}, {'processors': '2'}),
    ('Two processors', 'fit', {'tasks': 'several/tasks.toml', 'work': 'several/work.csv'}, {'processors': '2', 'ticks': '5'}),
    ('Deadlines within periods', 'demand', {'demands': 'demand/within.csv'}, {}),
    ('A deadline that may be missed', 'demand', {'demands': 'demand/past.csv'}, {}),
]


def main(words):
    if words:
        raise WrongWords
    examples = [{'name': name, 'tab': tab, **{part: (ROOT / file).read_text() for part, file in files.items()}, **fields}
                for name, tab, files, fields in EXAMPLES]
    print('// Made by examples.py from the folder examples.')
    print(f'export const EXAMPLES = {json.dumps(examples, indent=4)};')
    return 0


if __name__ == '__main__':
    ends(main, __doc__)
