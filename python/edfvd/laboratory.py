"""Random task sets of two levels, tests to compare on them, and the curves of papers.

A study asks of many random sets how many of them each test admits, and draws this share over the load:

>>> rng = random.Random(1)
>>> tasks = random_set(rng, low_tasks=3, high_tasks=3, low_low=0.4, high_low=0.2, high_high=0.5)
>>> [task.level for task in tasks], edf_vd(tasks)
(['high', 'high', 'high', 'low', 'low', 'low'], True)
>>> shares = acceptance(set_of_load, TESTS, points=[0.6, 0.7], sets=20, seed=1)
>>> shares["EDF-VD"]
[1.0, 1.0]

A load is a utilisation, the sum of budget / period. There are three: U_LL of the low tasks, and U_HL and U_HH of the high tasks with
their low and their high budgets. All that is random comes from the ``random.Random`` that is given, so a seed makes the same sets
again. docs/LABORATORY.md in the repository shows a curve, its table, sets of another program, and how to judge the trace of a
simulator of your own.
"""

from __future__ import annotations

import functools
import itertools
import math
import random
import reprlib
import struct
from bisect import bisect_right
from fractions import Fraction
from typing import Callable, Dict, Iterable, List, Mapping, Sequence, Tuple

from ._calls import check
from ._errors import Status
from ._given import MOST_32, copied, given_tasks, number, real, reals, shown, text, whole_number
from ._values import LEVELS, Task

__all__ = [
    "TESTS", "acceptance", "dirichlet_rescale", "drawn", "edf_vd", "generator_of", "loads", "periods", "random_set", "reservation",
    "set_of_load", "three_quarters", "uunifast",
]

# Below 2^60, and with 103,680 divisors: periods that divide it have a hyperperiod in the range of the library.
DENSE = 897_612_484_786_617_600


# ---- Loads of tasks ----

def _generator(rng: random.Random) -> None:
    """Raises an exception if this gives no random numbers; the module ``random`` does, too, without a seed of your own."""
    if not all(hasattr(rng, call) for call in ("random", "uniform", "expovariate")):
        raise TypeError(f"rng must be a random.Random, such as random.Random(1), not {type(rng).__name__}")


def uunifast(rng: random.Random, count: int, total: float) -> List[float]:
    """``count`` loads that add up to ``total``, uniformly distributed over all such.

    The algorithm UUniFast of Bini and Buttazzo (Measuring the performance of schedulability tests, Real-Time Systems 30, 2005).

    >>> [round(load, 3) for load in uunifast(random.Random(1), 3, 0.9)]
    [0.57, 0.05, 0.28]
    """
    _generator(rng)
    wanted, left = number(count, MOST_32, "count", least=1), real(total, "total")
    if left < 0:
        raise ValueError(f"total is {left:g}, and a load is not below 0")
    found = []
    for place in range(1, wanted):
        rest = left * rng.random() ** (1 / (wanted - place))
        found.append(left - rest)
        left = rest
    return [*found, left]


def dirichlet_rescale(rng: random.Random, total: float, most: Sequence[float], least: Sequence[float] = ()) -> List[float]:
    """Loads that add up to ``total``, each at most as in ``most``, and at least as in ``least`` (zeros without it).

    They are uniformly distributed over all such loads. The algorithm is DRS of Griffin, Bate and Davis (Generating utilization
    vectors for the systematic evaluation of schedulability tests, RTSS 2020), written from its description: a point of the flat
    Dirichlet distribution that exceeds bounds lies in a smaller simplex, which is rescaled to the whole one, until no bound is
    exceeded. Two things are added. Rescaling can reach a simplex that misses some of the loads within the bounds; then a new point is
    drawn. If a hundred draws and rescalings find no loads, a random walk over the loads within the bounds gives them, whose
    distribution comes as close to the uniform one as tests can measure. So a call always ends: with 128 loads after some
    thousand steps.

    >>> [round(load, 3) for load in dirichlet_rescale(random.Random(1), 0.5, most=[0.1, 0.2, 0.9])]
    [0.035, 0.119, 0.347]
    """
    _generator(rng)
    highest = reals(most, "most")
    lowest = reals(least, "least") or [0.0] * len(highest)
    widths = [high - low for high, low in zip(highest, lowest)]
    left, room = real(total, "total") - sum(lowest), sum(widths)
    if not highest or len(lowest) != len(highest):
        raise ValueError(f"most has {len(highest)} bounds, and least {len(lowest)}: each load has one of both")
    if min(widths) < 0:
        raise ValueError(f"least is {lowest}, and most {highest}: no load is from one to the other")
    if not -1e-9 <= left <= room + 1e-9:
        raise ValueError(f"total is {total}, but loads from least to most have a total from {sum(lowest):g} to {sum(highest):g}")
    left = min(max(left, 0.0), room)
    # Counted up from the lower bounds or down from the upper ones: whichever simplex is smaller is exceeded less often.
    if room - left < left:
        return [low + width - part for low, width, part in zip(lowest, widths, _within(rng, room - left, widths))]
    return [low + part for low, part in zip(lowest, _within(rng, left, widths))]


# Draws and rescalings before the walk. Up to eight loads they nearly always suffice, from 40 on hardly ever.
_ROUNDS = 100


def _within(rng: random.Random, total: float, most: Sequence[float]) -> List[float]:
    """Parts of the total, each from 0 to its bound, where the bounds add up to at least twice the total.

    The points of each choice of exceeded bounds are uniformly distributed, whatever came before. So a limit on the rounds changes how
    often points are found, and not how they are distributed.
    """
    if total < 1e-12:
        return [0.0] * len(most)
    bounds = [bound / total for bound in most]
    point, limits = _flat(rng, len(most))
    # Rescaling takes the bound away from a part that exceeds it, so under a far smaller bound it takes too many rounds.
    is_narrow = min(bounds) * len(most) * _ROUNDS < 1
    for _ in range(0 if is_narrow else _ROUNDS):
        if not all(limit >= min(bound, 1.0) for limit, bound in zip(limits, bounds)):
            point, limits = _flat(rng, len(most))
        elif all(part <= bound for part, bound in zip(point, bounds)):
            return [total * part for part in point]
        else:
            point, limits = rescaled(point, limits, bounds)
    return _walked(rng, total, most, _SWEEPS * len(most).bit_length())


def _flat(rng: random.Random, count: int) -> Tuple[List[float], List[float]]:
    """A point of the flat Dirichlet distribution, and its limits, which are all 1."""
    draws = [rng.expovariate(1.0) for _ in range(count)]
    whole = sum(draws)
    return [draw / whole for draw in draws], [1.0] * count


# Sweeps of the walk for each binary digit of the number of parts, so 24 for 60 parts. With 8 already, the distributions of a part, of
# a difference of two, of the greatest part and of the sum of squares differ no more from those of a far longer walk than two samples
# of one distribution do, for samples of 1,200.
_SWEEPS = 4


def _walked(rng: random.Random, total: float, most: Sequence[float], sweeps: int) -> List[float]:
    """Parts of the total, each from 0 to its bound: where a random walk over all such parts is after these sweeps.

    A step takes two parts and shares out their sum anew, uniformly over what both bounds allow. So it keeps the uniform distribution,
    whichever two it takes; this is Gibbs sampling. A sweep takes each part in turn, and with it one that is chosen in proportion to
    its bound, since a wide part can give and take more.
    """
    whole = sum(most)
    parts = [total * bound / whole for bound in most]
    up_to = list(itertools.accumulate(min(bound, total) for bound in most))
    for _ in range(sweeps):
        for one in range(len(most)):
            other = min(bisect_right(up_to, rng.random() * up_to[-1]), len(most) - 1)
            if other == one:
                continue
            both = parts[one] + parts[other]
            lowest, highest = max(0.0, both - most[other]), min(most[one], both)
            parts[one] = min(lowest + (highest - lowest) * rng.random(), most[one])
            parts[other] = min(both - parts[one], most[other])
    return parts


def rescaled(point: Sequence[float], limits: Sequence[float], bounds: Sequence[float]) -> Tuple[List[float], List[float]]:
    """The point of the whole simplex that is where the point is in the simplex of all points that exceed the bounds it exceeds,
    and its limits.

    Parts of a point add up to 1. Of those that exceed their bounds, the bounds are taken away, and what is left is made 1 again.
    If the point is uniformly distributed over all points with no part above its limit, then so is the new one with the new
    limits, for each choice of bounds that are exceeded: the map is the same for all points of a choice, and keeps volumes in
    proportion.

    >>> rescaled([0.75, 0.25, 0.0], [1.0, 1.0, 1.0], bounds=[0.5, 0.25, 1.0])
    ([0.5, 0.5, 0.0], [1.0, 0.5, 2.0])
    """
    exceeded = [part > bound for part, bound in zip(point, bounds)]
    whole = max(1.0 - sum(bound for bound, over in zip(bounds, exceeded) if over), 1e-300)
    parts = [(part - bound if over else part) / whole for part, bound, over in zip(point, bounds, exceeded)]
    highest = [(limit - bound if over else min(limit, bound)) / whole for limit, bound, over in zip(limits, bounds, exceeded)]
    return parts, highest


# ---- Periods ----

@functools.lru_cache(maxsize=16)
def _divisors(most: int) -> List[int]:
    """The divisors of ``DENSE`` up to ``most``, in order."""
    found, left = [1], DENSE
    for prime in range(2, 50):
        powers = [1]
        while left % prime == 0:
            left //= prime
            powers.append(powers[-1] * prime)
        found = [divisor * power for divisor in found for power in powers if divisor * power <= most]
    return sorted(found)


def periods(rng: random.Random, count: int, least: int = 10, most: int = 10_000) -> List[int]:
    """``count`` periods from ``least`` to ``most`` ticks, log-uniform, whose hyperperiod is below 2^60.

    Each is drawn and then rounded down to a divisor of 897,612,484,786,617,600, or up to the first one from ``least`` on. A whole
    number of ticks loses at most 2.5 per cent by this, and nothing up to 40 ticks.

    >>> periods(random.Random(1), 5)
    [25, 3480, 1955, 58, 306]
    """
    _generator(rng)
    how_many, shortest = number(count, MOST_32, "count"), number(least, MOST_32, "least", least=1)
    longest = number(most, MOST_32, "most", least=shortest)
    steps = _divisors(longest)
    first = bisect_right(steps, shortest - 1)
    if first == len(steps):
        raise ValueError(f"no divisor of {DENSE} is from least to most, which are {shortest} and {longest}")
    drawn_periods = (math.exp(rng.uniform(math.log(shortest), math.log(longest))) for _ in range(how_many))
    return [steps[max(first, bisect_right(steps, period) - 1)] for period in drawn_periods]


# ---- Sets ----

def random_set(
    rng: random.Random, low_tasks: int, high_tasks: int, low_low: float, high_low: float, high_high: float, least: int = 10,
    most: int = 10_000,
) -> List[Task]:
    """A set with these loads, up to rounding: the high tasks first, then the low ones.

    The loads of the low tasks, and those of the high tasks with their high budgets, come from :func:`uunifast`, or, if they add up to
    more than 1, from :func:`dirichlet_rescale`, each at most 1. The loads with the low budgets come from the latter, each at most as
    with the high one. Periods are those of :func:`periods` from ``least`` to ``most``. Budgets are rounded to whole ticks, and are at
    least 1: small loads need long periods.

    >>> for task in random_set(random.Random(1), 1, 2, low_low=0.3, high_low=0.2, high_high=0.4, least=1000, most=10_000):
    ...     print(task.name, task.level, task.period, task.low, task.high)
    t1 high 1798 278 623
    t2 high 3128 142 168
    t3 low 2812 844 None
    """
    _generator(rng)
    low_tasks, high_tasks = number(low_tasks, MOST_32, "low_tasks"), number(high_tasks, MOST_32, "high_tasks")
    if low_tasks + high_tasks < 1:
        raise ValueError("low_tasks and high_tasks are both 0: a set has at least one task")
    low_low = _possible("low_low", low_low, "low_tasks", low_tasks)
    high_low = _possible("high_low", high_low, "high_tasks", high_tasks)
    high_high = _possible("high_high", high_high, "high_tasks", high_tasks)
    if high_low > high_high + 1e-9:
        raise ValueError(f"high_low is {high_low}, above high_high, which is {high_high}")
    high_loads = _at_most_one(rng, high_tasks, high_high)
    low_loads = dirichlet_rescale(rng, high_low, high_loads) if high_tasks else []
    of_low_tasks = _at_most_one(rng, low_tasks, low_low)
    ticks = periods(rng, low_tasks + high_tasks, least, most)
    tasks = []
    for place, period in enumerate(ticks):
        if place < high_tasks:
            low = max(1, round(low_loads[place] * period))
            tasks.append(Task(f"t{place + 1}", "high", period, low, max(low, round(high_loads[place] * period))))
        else:
            tasks.append(Task(f"t{place + 1}", "low", period, max(1, round(of_low_tasks[place - high_tasks] * period))))
    return tasks


def _possible(name: str, load: float, tasks_name: str, tasks: int) -> float:
    """The load, if tasks, this many, have it with budgets up to their periods."""
    found = real(load, name)
    if not 0 <= found <= tasks:
        raise ValueError(f"{name} is {found:g}, but {tasks_name} is {tasks}: the load of a task is from 0 to 1")
    return found


def _at_most_one(rng: random.Random, count: int, total: float) -> List[float]:
    """Loads that add up to the total, each at most 1."""
    if not count:
        return []
    return uunifast(rng, count, total) if total <= 1 else dirichlet_rescale(rng, total, [1.0] * count)


def set_of_load(rng: random.Random, load: float, tasks: int = 8) -> List[Task]:
    """A set, half of it high, whose load is ``load`` in low mode and in high mode: U_LL + U_HL and U_HH are both that.

    Of the load in low mode, high tasks have a share between one tenth and nine tenths, which is drawn first. Periods are from 1,000
    to 1,000,000 ticks, so that rounding is of no weight.
    """
    _generator(rng)
    of_both = number(tasks, MOST_32, "tasks", least=2)
    low_tasks = of_both // 2
    whole = _possible("load", load, "the number of low tasks", low_tasks)
    high_low = whole * rng.uniform(0.1, 0.9)
    return random_set(rng, low_tasks, of_both - low_tasks, whole - high_low, high_low, whole, least=1_000, most=1_000_000)


# ---- Tests ----

def loads(tasks: Iterable[Task]) -> Tuple[Fraction, Fraction, Fraction]:
    """U_LL, U_HL and U_HH of a set.

    >>> loads([Task("ctl", "high", period=10, low=2, high=6), Task("log", "low", period=10, low=5)])
    (Fraction(1, 2), Fraction(1, 5), Fraction(3, 5))
    """
    packed, names = given_tasks(tasks)
    low_low = high_low = high_high = Fraction(0)
    for task, (level, period, low, high) in enumerate(struct.iter_unpack("4I", packed), 1):
        if period == 0:
            raise names.refused(Status.ZERO_NUMBER, task)
        if level == LEVELS["low"]:
            low_low += Fraction(low, period)
        else:
            high_low += Fraction(low, period)
            high_high += Fraction(high, period)
    return low_low, high_low, high_high


def reservation(tasks: Iterable[Task]) -> bool:
    """Whether plain EDF schedules the set with the greatest budget of each task: U_LL + U_HH is at most 1.

    The test of Liu and Layland (Scheduling algorithms for multiprogramming in a hard-real-time environment, JACM 1973) on
    reservations for the worst case, which needs no modes.

    >>> reservation([Task("ctl", "high", period=10, low=2, high=6), Task("log", "low", period=10, low=5)])
    False
    """
    low_low, _, high_high = loads(tasks)
    return low_low + high_high <= 1


def three_quarters(tasks: Iterable[Task]) -> bool:
    """Whether neither mode has a load above 3/4: U_LL + U_HL and U_HH are at most that.

    The utilisation bound of EDF-VD (Baruah, Bonifaci, D'Angelo, Li, Marchetti-Spaccamela, van der Ster and Stougie, The preemptive
    uniprocessor scheduling of mixed-criticality implicit-deadline sporadic task systems, ECRTS 2012).

    >>> three_quarters([Task("ctl", "high", period=10, low=2, high=6), Task("log", "low", period=10, low=5)])
    True
    """
    low_low, high_low, high_high = loads(tasks)
    return max(low_low + high_low, high_high) <= Fraction(3, 4)


def edf_vd(tasks: Iterable[Task]) -> bool:
    """Whether the published test of EDF-VD admits the set, exactly, by the proved library: :func:`edfvd.check`.

    A set has at most 128 tasks and a hyperperiod of at most 2^60 ticks; another one is :class:`edfvd.Refused`.

    >>> edf_vd([Task("ctl", "high", period=10, low=2, high=6), Task("log", "low", period=10, low=5)])
    True
    """
    return check(tasks).rule is not None


TESTS: Mapping[str, Callable[[List[Task]], bool]] = {
    "EDF-VD": edf_vd, "bound of 3/4": three_quarters, "EDF with reservations": reservation,
}


# ---- Curves ----

def acceptance(
    make: Callable[[random.Random, float], List[Task]], tests: Mapping[str, Callable[[List[Task]], bool]], points: Sequence[float],
    sets: int, seed: int,
) -> Dict[str, List[float]]:
    """For each test, the share of sets that it admits at each point; ``make`` makes a set from random numbers and a point.

    All tests see the same sets, of which there are ``sets`` at each point, and return True or False. Equal arguments give equal shares.
    Each point has a ``random.Random`` of its own, :func:`generator_of` the seed and the point, so its shares do not depend on the
    other points. The message of an exception that ``make`` or a test raises ends with the point and the number of the set, from 1.

    >>> def small_set(rng, load):
    ...     return random_set(rng, low_tasks=2, high_tasks=2, low_low=load / 2, high_low=load / 2, high_high=load, least=1000)
    >>> acceptance(small_set, {"EDF-VD": edf_vd, "U_LL above 0.3": lambda tasks: loads(tasks)[0] > 0.3}, [0.5, 0.7], 20, seed=1)
    {'EDF-VD': [1.0, 1.0], 'U_LL above 0.3': [0.0, 1.0]}
    """
    given, each = _points_of(make, tests, points), number(sets, MOST_32, "sets", least=1)
    shares: Dict[str, List[float]] = {name: [] for name in tests}
    for point in given:
        rng, admitted = generator_of(seed, point), dict.fromkeys(tests, 0)
        for which in range(1, each + 1):
            try:
                tasks = make(rng, point)
                for name, test in tests.items():
                    admitted[name] += _truth(test(tasks), name)
            except Exception as error:
                _add(error, f"(at point {point:g}, set {which})")
                raise
        for name, count in admitted.items():
            shares[name].append(count / each)
    return shares


def _truth(found: object, name: str) -> bool:
    """What a test returned, if it is True or False, of Python or of numpy."""
    if type(found).__name__ not in ("bool", "bool_"):
        raise TypeError(f"test {name!r} returned {reprlib.repr(found)}, not True or False")
    return bool(found)


def _add(error: Exception, where: str) -> None:
    """Ends the message of the exception with these words. Notes of exceptions need Python 3.11. An exception of more than a message
    stays as it is, and so does a KeyError, which has a key."""
    if len(error.args) <= 1 and all(isinstance(word, str) for word in error.args) and not isinstance(error, KeyError):
        error.args = (" ".join([*error.args, where]),)


# Numbers that Python turns into text whatever its limit for digits is.
_MOST_BITS = 2_048


def generator_of(seed: int, point: float) -> random.Random:
    """The ``random.Random`` of a point of a curve: that of the seed and the point as a text, such as ``"1 0.7"``.

    >>> generator_of(1, 0.7).random() == random.Random("1 0.7").random()
    True
    """
    whole = whole_number(seed, "seed", None)
    if whole.bit_length() > _MOST_BITS:
        raise ValueError(f"seed is {shown(whole)}, and has at most {_MOST_BITS}")
    return random.Random(f"{whole} {real(point, 'point')!r}")


def _points_of(make: object, tests: object, points: Iterable[float]) -> Tuple[float, ...]:
    """The points, which are numbers; an argument of :func:`acceptance` of another type is named."""
    if not callable(make):
        raise TypeError(f"make must be a function from a random.Random and a point to a set, not {type(make).__name__}")
    if not isinstance(tests, Mapping) or not all(map(callable, tests.values())):
        raise TypeError('tests must be a mapping from names to functions, such as {"EDF-VD": laboratory.edf_vd}')
    if isinstance(points, (str, bytes)) or not isinstance(points, Iterable):
        raise TypeError(f"points must be a sequence of numbers, not {type(points).__name__}")
    given = copied(points, "points")
    reals(given, "points")
    return given


_COLOURS = ("#4477aa", "#ee6677", "#228833", "#ccbb44", "#66ccee", "#aa3377")
# The first line has no gaps. Each later one has, so that lines beneath it stay visible.
_DASHES = ("10 6", "3 5", "12 4 3 4", "6 3")
_LEFT, _TOP, _WIDTH, _HEIGHT = 64, 16, 560, 300


def drawn(points: Sequence[float], shares: Mapping[str, Sequence[float]], words: str = "load") -> str:
    """The curves as a picture in SVG: shares on the y axis, ``words`` as the label of the x axis.

    There are at least two points, each above the one before. Each curve has a share from 0 to 1 for each point.

    >>> drawn([0.5, 0.6], {"EDF-VD": [1.0, 0.5]}).count("<polyline")
    1
    """
    if not isinstance(shares, Mapping):
        raise TypeError(f"shares must be a mapping from names to shares, not {type(shares).__name__}")
    points, below = reals(points, "points"), _plain(words, "words")
    curves = [(_plain(name, "a name in shares"), reals(curve, "shares")) for name, curve in shares.items()]
    _check_curves(points, curves)

    def place(point: float, share: float) -> Tuple[float, float]:
        across = (point - points[0]) / (points[-1] - points[0])
        return _LEFT + _WIDTH * across, _TOP + _HEIGHT * (1 - share)

    bottom = _TOP + _HEIGHT
    high = bottom + 60 + 22 * len(shares)
    lines = [
        f'<svg xmlns="http://www.w3.org/2000/svg" viewBox="0 0 {_LEFT + _WIDTH + 24} {high}" role="img">',
        f"<title>Share of admitted sets over the {below}</title>",
        "<style>text { font: 13px sans-serif; fill: #222 } .grid { stroke: #ccc } .middle { text-anchor: middle } "
        "polyline { fill: none; stroke-width: 2 }</style>",
        f'<rect width="100%" height="{high}" fill="#fff"/>',
        f'<text class="middle" transform="translate(18 {_TOP + _HEIGHT // 2}) rotate(-90)">share of admitted sets</text>',
    ]
    for tenths in range(0, 11, 2):
        y = place(points[0], tenths / 10)[1]
        lines.append(f'<path class="grid" d="M{_LEFT} {y:g}h{_WIDTH}"/><text x="{_LEFT - 30}" y="{y + 4:g}">{tenths / 10:g}</text>')
    for tick in _round_ticks(points[0], points[-1]):
        x = place(tick, 0)[0]
        lines.append(
            f'<path class="grid" d="M{x:.1f} {_TOP}V{bottom}"/><text class="middle" x="{x:.1f}" y="{bottom + 18}">{tick:.12g}</text>'
        )
    lines.append(f'<text class="middle" x="{_LEFT + _WIDTH // 2}" y="{bottom + 38}">{below}</text>')
    for which, (name, curve) in enumerate(curves):
        y = bottom + 60 + 22 * which
        stroke = f'stroke="{_COLOURS[which % len(_COLOURS)]}"'
        if which:
            stroke += f' stroke-dasharray="{_DASHES[(which - 1) % len(_DASHES)]}"'
        path = " ".join("{:.1f},{:.1f}".format(*place(point, share)) for point, share in zip(points, curve))
        lines.append(f'<polyline {stroke} points="{path}"/>')
        lines.append(f'<path d="M{_LEFT} {y}h40" {stroke} stroke-width="2"/><text x="{_LEFT + 50}" y="{y + 4}">{name}</text>')
    return "\n".join([*lines, "</svg>"]) + "\n"


def _check_curves(points: Sequence[float], curves: Sequence[Tuple[str, Sequence[float]]]) -> None:
    """Raises an exception if these are no points and curves of a picture."""
    if len(points) < 2:
        raise ValueError(f"points has {len(points)} of them, and a curve needs two or more")
    for point, after in zip(points, points[1:]):
        if point >= after:
            raise ValueError(f"points are not in order: {after:g} comes after {point:g}")
    if math.isinf(points[-1] - points[0]):
        raise ValueError("points are further apart than floats go")
    for name, curve in curves:
        if len(curve) != len(points):
            raise ValueError(f"shares has {len(curve)} shares of {name!r} for {len(points)} points")
        for point, share in zip(points, curve):
            if not 0 <= share <= 1:
                raise ValueError(f"shares: the share of {name!r} at point {point:g} is {share:g}, which is not from 0 to 1")


def _round_ticks(first: float, last: float) -> List[float]:
    """The multiples from first to last of a step of 1, 2 or 5 times a power of ten, the least that goes into their distance at most
    ten times.

    >>> _round_ticks(0.0, 50.0), _round_ticks(0.26, 0.41)[:3]
    ([0.0, 5.0, 10.0, 15.0, 20.0, 25.0, 30.0, 35.0, 40.0, 45.0, 50.0], [0.26, 0.28, 0.3])
    """
    power = math.floor(math.log10(last - first)) - 1
    steps = (ten * times for ten in (Fraction(10) ** power, Fraction(10) ** (power + 1)) for times in (1, 2, 5))
    step = next(step for step in steps if Fraction(last - first) / step <= 10 + Fraction(1, 10**9))
    little = Fraction(1, 10**9)
    begin, end = math.ceil(Fraction(first) / step - little), math.floor(Fraction(last) / step + little)
    return [float(step * times) for times in range(begin, end + 1)]


def _plain(words: object, what: str) -> str:
    """The words as text of a picture."""
    return text(words, what).replace("&", "&amp;").replace("<", "&lt;").replace(">", "&gt;")
