"""The share of random task sets that the published test of EDF-VD admits, by the load of their low budgets.

Loads come from UUniFast (Bini and Buttazzo, Real-Time Systems 2005). Periods are spread evenly over the orders of magnitude
from 10 to 10,000 ticks, and rounded down to divisors of one number, as tools/divisors.py does it, so that the hyperperiod
stays below 2^60. Half of the tasks are high, with twice the budget in high mode. The table goes to standard output, a line for
each load; with matplotlib, or else gnuplot, a picture goes to the file PICTURE.

usage: acceptance.py [SETS [PICTURE]]
       SETS is how many sets there are in all, 10000 without it; PICTURE is a name that ends in .png or .svg
"""

import random
import shutil
import subprocess
import sys
from pathlib import Path
from typing import List, Tuple

from edfvd import Task, check

sys.path.append(str(Path(__file__).resolve().parents[2] / "tools"))
from divisors import DENSE, divisors, rounded_down

LOADS = [percent / 100 for percent in range(50, 100, 5)]


def random_set(rng: random.Random, steps: List[int], left: float, count: int = 8) -> List[Task]:
    """A set of ``count`` tasks whose low budgets take ``left`` of the processor, up to rounding."""
    tasks = []
    for n in range(count):
        rest = left * rng.random() ** (1 / (count - 1 - n)) if n < count - 1 else 0
        period = rounded_down(int(10 ** rng.uniform(1, 4)), steps)
        low, left = max(1, round((left - rest) * period)), rest
        tasks.append(Task(f"t{n}", "high", period, low, 2 * low) if n % 2 else Task(f"t{n}", "low", period, low))
    return tasks


def curve(sets: int) -> List[Tuple[float, float]]:
    """Each load, with the share of its sets that the test admits."""
    rng, steps, each = random.Random(1), divisors(DENSE), max(1, sets // len(LOADS))
    return [(load, sum(check(random_set(rng, steps, load)).rule is not None for _ in range(each)) / each) for load in LOADS]


def draw(table: List[Tuple[float, float]], picture: str) -> None:
    """Draws the curve with whichever of the two programs is installed."""
    try:
        from matplotlib import pyplot
    except ImportError:
        if shutil.which("gnuplot") is None:
            sys.exit("acceptance.py: the picture needs matplotlib or gnuplot")
        points = "".join(f"{load} {share}\n" for load, share in table)
        script = f'set terminal {picture.rsplit(".", 1)[1]}; set yrange [0:1]; set key off; ' \
                 'set xlabel "load of the low budgets"; set ylabel "share admitted"; plot "-" with linespoints'
        # gnuplot writes to its standard output, so that it never reads the picture's name as a part of its language.
        drawn = subprocess.run(["gnuplot", "-e", script], input=points.encode(), stdout=subprocess.PIPE, check=True)
        Path(picture).write_bytes(drawn.stdout)
        return
    pyplot.plot(*zip(*table), "o-")
    pyplot.xlabel("load of the low budgets")
    pyplot.ylabel("share admitted")
    pyplot.ylim(0, 1)
    pyplot.savefig(picture)


def main(words: List[str]) -> int:
    if len(words) > 2 or not all(map(str.isdigit, words[:1])) or not all(word.endswith((".png", ".svg")) for word in words[1:]):
        print((__doc__ or "").rsplit("\n\n", 1)[1], end="", file=sys.stderr)
        return 2
    table = curve(int(words[0]) if words else 10_000)
    for load, share in table:
        print(f"{load:.2f} {share:.3f}")
    if len(words) == 2:
        draw(table, words[1])
    return 0


if __name__ == "__main__":
    sys.exit(main(sys.argv[1:]))
