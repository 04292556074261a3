"""Random words and the random workloads that are made of them; the same seed makes the same ones on every machine."""

from rules import HIGH, LOW, Task

SOAK_STREAM = 54
SOAK_PERIODS = [200, 250, 400, 500, 800, 1000, 1250, 2000, 2500, 4000, 5000, 10000]


def pcg_words(seed, stream):
    """The 32-bit words of PCG's generator XSH RR of 64 bits of state, for a seed and a stream."""
    multiplier, increment, below = 6364136223846793005, 2 * stream + 1, 2 ** 64
    state = ((seed + increment) * multiplier + increment) % below
    while True:
        word = ((state >> 18) ^ state) >> 27 & 0xffffffff
        turn = state >> 59
        yield (word >> turn | word << (32 - turn)) & 0xffffffff
        state = (state * multiplier + increment) % below


def soak_task(words, number, count):
    """The task of this number among `count`, made of two words if it is high and of one if it is low."""
    period = SOAK_PERIODS[next(words) % len(SOAK_PERIODS)]
    high_tasks, low_tasks = (count + 1) // 2, count // 2
    if number % 2 == 1:
        low = 1 + next(words) % (period // (4 * high_tasks))
        return Task(f't{number}', HIGH, period, low, 3 * period // (4 * high_tasks))
    low = period // (2 * low_tasks)
    return Task(f't{number}', LOW, period, low, low)


def soak_tasks(seed, count):
    """The tasks of `edfvd soak SEED COUNT`; after each task a word says how far apart its releases are."""
    words, tasks = pcg_words(seed, SOAK_STREAM), []
    for number in range(1, count + 1):
        tasks.append(soak_task(words, number, count))
        next(words)
    return tasks
