"""Compares the replies of `ask` with those of the program, byte for byte, on the same words and files, many of them damaged.

usage: against_program.py PROGRAM [REPLIES]
       compares at least this many replies, 2000 without the number
"""

import random
import subprocess
import sys
import tempfile
from pathlib import Path
from typing import List, Sequence, Set, Tuple

from edfvd import ask

Command = Tuple[Sequence[str], bytes]


def program_reply(program: str, words: Sequence[str], first: bytes, second: bytes, folder: Path) -> Tuple[int, bytes]:
    """The program's exit status and text, over files named `1` and `2`."""
    (folder / "1").write_bytes(first)
    (folder / "2").write_bytes(second)
    done = subprocess.run([program, *words], cwd=folder, capture_output=True, check=False)
    return done.returncode, done.stdout


def task_file(rng: random.Random, count: int) -> bytes:
    """The text of a set of ``count`` tasks."""
    text = ""
    for place in range(count):
        period = rng.choice([4, 5, 8, 10, 20, 25, 40])
        low = rng.randint(1, max(1, period // count))
        high = f"level = \"high\"\nhigh = {rng.randint(low, low + 2)}" if rng.random() < 0.5 else 'level = "low"'
        text += f'[[task]]\nname = "t{place}"\nperiod = {period}\nlow = {low}\n{high}\n'
    return text.encode()


def damaged(rng: random.Random, text: bytes) -> bytes:
    """The text, in three of ten cases with one byte changed."""
    if not text or rng.random() >= 0.3:
        return text
    changed = bytearray(text)
    changed[rng.randrange(len(changed))] = rng.randrange(256)
    return bytes(changed)


def commands(rng: random.Random) -> Tuple[bytes, List[Command]]:
    """Some ten commands, as their words and second files, with the first file that they share."""
    count = rng.randint(1, 5)
    first = damaged(rng, task_file(rng, count))
    releases = sorted(rng.randint(0, 60) for _ in range(rng.randint(0, 10)))
    jobs = "task,release,need\n" + "".join(f"t{rng.randrange(count)},{at},{rng.randint(1, 4)}\n" for at in releases)
    demands = "task,period,deadline,budget\n"
    for place in range(count):
        period = rng.choice([4, 5, 8, 10, 20])
        demands += f"t{place},{period},{rng.randint(1, period)},{rng.randint(1, 3)}\n"
    run = ["run", "1", "2", str(rng.randint(1, 60))]
    work = damaged(rng, jobs.encode())
    accept = ["accept", str(rng.randint(0, 999)), str(rng.randint(0, 30)), str(rng.randint(1, 10))]
    cases: List[Command] = [
        (["check", "1"], b""), (["stretch", "1"], b""), (["partition", "1", str(rng.randint(1, 3))], b""), (run, work),
        (accept, b""), (["demand", "2"], damaged(rng, demands.encode())), (["check"], b""),
    ]
    ended, trace = ask(run, first, work)
    if ended == 0:
        trace = damaged(rng, trace)
        cases += [(words.split(), trace) for words in ("judge 1 2", "judge 1 2 1 2", "chart 1 2", "report 1 2", "migrate 1 2")]
    return first, cases


def main(words: List[str]) -> int:
    if not 1 <= len(words) <= 2 or words[0].startswith("-") or not all(map(str.isdigit, words[1:])):
        print((__doc__ or "").split("\n\n")[1], end="", file=sys.stderr)
        return 2
    program, wanted = words[0], int(words[1]) if len(words) == 2 else 2000
    rng, same = random.Random(7), 0
    ends: Set[Tuple[str, int]] = set()
    with tempfile.TemporaryDirectory() as folder:
        while same < wanted:
            first, cases = commands(rng)
            for asked, second in cases:
                ours = ask(asked, first, second)
                theirs = program_reply(program, asked, first, second, Path(folder))
                if ours != theirs:
                    print(f"{asked}, {first!r}, {second!r}: ask gives {ours!r}, the program {theirs!r}")
                    return 1
                same += 1
                ends.add((asked[0], ours[0]))
    print(f"{same} replies of {len(ends)} kinds are the program's")
    return 0


if __name__ == "__main__":
    sys.exit(main(sys.argv[1:]))
