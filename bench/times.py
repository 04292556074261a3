"""Times commands that take milliseconds. It runs them in turn, so that all run beside the same other processes. For each command
it prints the least and the median time, in milliseconds, with the start of its process. Then it prints how long the host of a
virtual machine took the processors away meanwhile: if that is long, the times say little.

usage: times.py RUNS COMMAND.., each command one word, with its own words between blanks; if the first of these is `one`, the
rest of the command runs on one processor
"""

import os
import statistics
import sys
import time

ALL = os.sched_getaffinity(0)


# How long the host has kept the processors, in milliseconds.
def kept_by_host():
    with open('/proc/stat', encoding='ascii') as stat:
        return int(stat.readline().split()[8]) * 1000 // os.sysconf('SC_CLK_TCK')


# The time of one run, whose output is thrown away.
def run(words):
    on_one = words[0] == 'one'
    os.sched_setaffinity(0, {min(ALL)} if on_one else ALL)
    words = words[on_one:]
    start = time.perf_counter()
    away = [(os.POSIX_SPAWN_OPEN, 1, os.devnull, os.O_WRONLY, 0)]
    process = os.posix_spawnp(words[0], words, os.environ, file_actions=away)
    _, status = os.waitpid(process, 0)
    if status:
        sys.exit(f'times: {" ".join(words)} failed')
    return (time.perf_counter() - start) * 1000


def main(words):
    runs, commands = int(words[0]), [command.split() for command in words[1:]]
    times = [[] for _ in commands]
    kept = kept_by_host()
    for _ in range(runs):
        for command, taken in zip(commands, times):
            taken.append(run(command))
    for command, taken in zip(commands, times):
        print(f'{min(taken):.2f} ms at the least, {statistics.median(taken):.2f} by the median: {" ".join(command)}')
    print(f'the host kept the processors for {kept_by_host() - kept} ms')


if __name__ == '__main__':
    main(sys.argv[1:])
