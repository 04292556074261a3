"""The share of random task sets that each of three tests admits, by their load: the picture of docs/LABORATORY.md.

In each set U_LL + U_HL and U_HH are the load. The table goes to standard output, a line for each load with the shares in the
order of the first line, and the picture to the file PICTURE.

usage: curve.py [SETS [PICTURE]]
       SETS is how many sets each load has, 200 without it; PICTURE is a name that ends in .svg
"""

import sys
from pathlib import Path
from typing import List

from edfvd import laboratory

LOADS = [percent / 100 for percent in range(50, 101, 2)]


def main(words: List[str]) -> int:
    if len(words) > 2 or not all(map(str.isdigit, words[:1])) or words[:1] == ["0"] or not all(word.endswith(".svg") for word in words[1:]):
        print((__doc__ or "").rsplit("\n\n", 1)[1], end="", file=sys.stderr)
        return 2
    shares = laboratory.acceptance(laboratory.set_of_load, laboratory.TESTS, LOADS, sets=int(words[0]) if words else 200, seed=1)
    print("load,", ", ".join(shares))
    for load, *row in zip(LOADS, *shares.values()):
        print(f"{load:.2f}", *(f"{share:.3f}" for share in row))
    if len(words) == 2:
        Path(words[1]).write_text(laboratory.drawn(LOADS, shares, "load in each mode"), encoding="utf-8")
    return 0


if __name__ == "__main__":
    sys.exit(main(sys.argv[1:]))
