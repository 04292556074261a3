"""Generators, tests and curves: on values worked out by hand from their sources, and on counts over many draws by a seed."""

import math
import os
import pickle
import random
import subprocess
import sys
import tempfile
import unittest
import xml.etree.ElementTree as xml
from collections import Counter
from fractions import Fraction
from itertools import accumulate, combinations
from operator import itemgetter
from pathlib import Path
from typing import Any, Callable, Dict, List, Tuple

from edfvd import Refused, Rule, Status, Task, check, laboratory
from edfvd.laboratory import (
    acceptance, dirichlet_rescale, drawn, edf_vd, loads, periods, random_set, rescaled, reservation, set_of_load, three_quarters,
    uunifast, _round_ticks, _SWEEPS, _walked,
)
from support import CONTROL, TOO_MUCH, Case

EXAMPLE = Path(__file__).resolve().parents[1] / "examples" / "curve.py"
PICTURE = Path(__file__).resolve().parents[2] / "docs" / "laboratory.svg"


class Given(random.Random):
    """Random numbers that are these."""

    def __init__(self, *numbers: float) -> None:
        super().__init__(0)
        self.numbers = list(numbers)

    def random(self) -> float:
        return self.numbers.pop(0)


class Counting(random.Random):
    """Random numbers that are counted, up to a limit."""

    def __init__(self, seed: int, most: int) -> None:
        super().__init__(seed)
        self.left = most

    def random(self) -> float:
        self.left -= 1
        if self.left < 0:
            raise AssertionError("too many random numbers")
        return super().random()


def difference(one: List[float], other: List[float]) -> float:
    """The greatest distance of the distributions of two samples of one size, by Kolmogorov and Smirnov, which for equal distributions
    is below 2 in 999 of 1,000 cases."""
    both = sorted([(value, 1) for value in one] + [(value, -1) for value in other])
    steps: List[int] = [step for _, step in both]
    return max(abs(whole) for whole in accumulate(steps)) / len(one) * math.sqrt(len(one) / 2)


# Where the distance of a sample of n values from their distribution, times the root of n, is in 99 of 100 cases.
MOST_DISTANCE = 1.63


def distance(values: List[float], share_below: Callable[[float], float]) -> float:
    """The greatest distance of a sample from its distribution, by Kolmogorov and Smirnov, times the root of how many values it has."""
    count = len(values)
    shares = [share_below(value) for value in sorted(values)]
    return max(max(share - place / count, (place + 1) / count - share) for place, share in enumerate(shares)) * math.sqrt(count)


def straight(*knots: Tuple[float, float]) -> Callable[[float], float]:
    """The distribution whose density goes straight from each of these points to the next."""
    areas = [0.0, *accumulate((x - before) * (y + y_before) / 2 for (before, y_before), (x, y) in zip(knots, knots[1:]))]

    def share_below(value: float) -> float:
        for (before, y_before), (x, y), area in zip(knots, knots[1:], areas):
            if value < x:
                width = max(0.0, value - before)
                return (area + width * (y_before + width * (y - y_before) / (x - before) / 2)) / areas[-1]
        return 1.0
    return share_below


def cut_simplex(total: float, own: float, others: List[float]) -> Callable[[float], float]:
    """The distribution of one of several loads that add up to the total and are uniform within their bounds, of which ``own`` is its own.

    What is left for the others is the volume of a simplex from which corners are cut: of the simplex of sides s, those of each set of
    other bounds with the sum b have the volume (s - b)^(n - 2), and are counted by inclusion and exclusion.
    """
    corners = Counter[Tuple[int, float]]()
    for size in range(min(len(others), int(total / min(others))) + 1):
        if len(set(others)) == 1:
            corners[size, size * others[0]] = math.comb(len(others), size)
        else:
            corners.update((size, sum(some)) for some in combinations(others, size))

    def volume(value: float) -> float:
        found: float = sum(
            many * (1 - 2 * (size % 2)) * max(0.0, total - value - cut) ** len(others) for (size, cut), many in corners.items()
        )
        return found

    first, last = volume(0.0), volume(min(own, total))
    return lambda value: (first - volume(value)) / (first - last)


def random_set_with(name: str) -> Callable[[Any], object]:
    """What makes a set with this argument, which all the others suit."""
    suits: Any = {"low_tasks": 2, "high_tasks": 2, "low_low": 0.3, "high_low": 0.2, "high_high": 0.4}
    return lambda value: random_set(random.Random(1), **{**suits, name: value})


def near(found: List[float], expected: List[float], within: float = 1e-9) -> bool:
    return len(found) == len(expected) and all(abs(one - other) <= within for one, other in zip(found, expected))


class Loads(Case):
    def test_uunifast_by_hand(self) -> None:
        """As Bini and Buttazzo (2005) state UUniFast, the sum of the loads that are left is the sum before times r^(1/(n - i)), with a
        random number r. 0.8 * 0.25^(1/2) is 0.4, so the first load is 0.4; 0.4 * 0.5 is 0.2, so the second is 0.2, and 0.2 is left."""
        self.assertTrue(near(uunifast(Given(0.25, 0.5), 3, 0.8), [0.4, 0.2, 0.2]))
        self.assertEqual(uunifast(Given(), 1, 0.5), [0.5])

    def test_uunifast_is_uniform(self) -> None:
        """Of two loads the first is uniform. Of three, each is below half of the total in three of four cases."""
        rng = random.Random(1)
        quarters = Counter(int(4 * uunifast(rng, 2, 1.0)[0]) for _ in range(20_000))
        self.assertTrue(all(abs(quarters[place] - 5_000) < 250 for place in range(4)), quarters)
        vectors = [uunifast(rng, 3, 0.6) for _ in range(20_000)]
        for place in range(3):
            self.assertLess(abs(sum(vector[place] < 0.3 for vector in vectors) - 15_000), 250)
        self.assertTrue(all(abs(sum(vector) - 0.6) < 1e-9 and min(vector) >= 0 for vector in vectors))

    def test_rescaled_by_hand(self) -> None:
        """What exceeds no bound stays in proportion; of what exceeds one, the bound is taken away. So it is with the limits, of
        which the one of a part that exceeds no bound is at most that bound."""
        cases: List[Tuple[List[float], List[float], List[float], List[float], List[float]]] = [
            ([0.6, 0.3, 0.1], [1, 1, 1], [0.5, 1, 1], [0.2, 0.6, 0.2], [1, 2, 2]),
            ([0.6, 0.3, 0.1], [0.9, 0.5, 0.5], [0.5, 0.4, 1], [0.2, 0.6, 0.2], [0.8, 0.8, 1]),
            ([0.5, 0.4, 0.1], [1, 1, 1], [0.25, 0.25, 1], [0.5, 0.3, 0.2], [1.5, 1.5, 2]),
            ([0.5, 0.5, 0.0], [1, 1, 1], [1, 1, 1], [0.5, 0.5, 0.0], [1, 1, 1]),
        ]
        for point, limits, bounds, parts, highest in cases:
            found = rescaled(point, limits, bounds)
            self.assertTrue(near(found[0], parts) and near(found[1], highest), found)

    def test_rescale_of_one_draw(self) -> None:
        """Draws of 2, 1 and 1 are the point (1/2, 1/4, 1/4); with the bound 2/5 for the first it becomes (1/6, 5/12, 5/12)."""
        draws = [1 - math.exp(-2.0), 1 - math.exp(-1.0), 1 - math.exp(-1.0)]
        self.assertTrue(near(dirichlet_rescale(Given(*draws), 1.0, [0.4, 1.0, 1.0]), [1 / 6, 5 / 12, 5 / 12]))
        self.assertTrue(near(dirichlet_rescale(Given(*draws), 0.5, [0.2, 0.5, 0.5]), [1 / 12, 5 / 24, 5 / 24]))

    def test_rescale_is_uniform(self) -> None:
        """Two loads of 1, at most 0.7 and 0.6: the first is uniform from 0.4 to 0.7. Three, at most 0.6 each: the mean of the
        square of a load is (1/6 - 0.16 * 0.6) / 0.52, of the triangle without its three corners."""
        rng = random.Random(2)
        thirds = Counter(int((dirichlet_rescale(rng, 1.0, [0.7, 0.6])[0] - 0.4) / 0.1) for _ in range(15_000))
        self.assertTrue(all(abs(thirds[place] - 5_000) < 250 for place in range(3)), thirds)
        vectors = [dirichlet_rescale(rng, 1.0, [0.6, 0.6, 0.6]) for _ in range(20_000)]
        for place in range(3):
            self.assertLess(abs(sum(vector[place] ** 2 for vector in vectors) / 20_000 - 0.0706667 / 0.52), 0.002)

    def test_rescale_is_uniform_where_bounds_are_exceeded_together(self) -> None:
        """Three loads of 0.5, of which the third has no bound: the first two are uniform in a rectangle of 0.1 by 0.2. Four loads of
        1, each at most 0.3: what they are below it is uniform in the simplex of four parts of 0.2."""
        rng = random.Random(5)
        vectors = [dirichlet_rescale(rng, 0.5, [0.1, 0.2, 0.9]) for _ in range(20_000)]
        cells = Counter((int(vector[0] / 0.05), int(vector[1] / 0.1)) for vector in vectors)
        self.assertEqual(sorted(cells), [(0, 0), (0, 1), (1, 0), (1, 1)])
        self.assertTrue(all(abs(count - 5_000) < 250 for count in cells.values()), cells)
        # 0.3 minus a load is a part of 0.2, uniform over the simplex: it is above 0.1 in one case of eight.
        vectors = [dirichlet_rescale(rng, 1.0, [0.3] * 4) for _ in range(20_000)]
        for place in range(4):
            self.assertLess(abs(sum(vector[place] < 0.2 for vector in vectors) - 2_500), 200)

    def test_rescale_beside_rejection(self) -> None:
        """Where bounds are tight, means and distributions of loads are those of points that are drawn until one is within the bounds."""
        rng, most = random.Random(6), [0.2, 0.25, 0.4, 0.7]
        found = [dirichlet_rescale(rng, 1.0, most) for _ in range(8_000)]
        drawn_again: List[List[float]] = []
        while len(drawn_again) < 8_000:
            vector = uunifast(rng, 4, 1.0)
            drawn_again += [vector] if all(load <= bound for load, bound in zip(vector, most)) else []
        for place in range(4):
            means = [sum(vector[place] for vector in vectors) / 8_000 for vectors in (found, drawn_again)]
            self.assertLess(abs(means[0] - means[1]), 0.005)
            # The whole distribution of a load: as many of them are below each of 20 numbers.
            for step in range(1, 20):
                number = most[place] * step / 20
                below = [sum(vector[place] < number for vector in vectors) for vectors in (found, drawn_again)]
                self.assertLess(abs(below[0] - below[1]), 300, (place, number))

    def test_rescale_within_bounds(self) -> None:
        rng = random.Random(3)
        for count in (1, 2, 5, 8):
            for _ in range(40):
                least = [rng.uniform(0, 0.1) for _ in range(count)]
                most = [low + rng.uniform(0, 0.4) for low in least]
                total = rng.uniform(sum(least), sum(most))
                found = dirichlet_rescale(rng, total, most, least)
                self.assertLess(abs(sum(found) - total), 1e-9)
                self.assertTrue(all(low - 1e-12 <= load <= high + 1e-12 for low, load, high in zip(least, found, most)))
        self.assertTrue(near(dirichlet_rescale(rng, 0.5, [0.2, 0.3]), [0.2, 0.3]))
        self.assertEqual(dirichlet_rescale(rng, 0.0, [0.2, 0.3]), [0.0, 0.0])

    def test_bounds_of_nothing(self) -> None:
        """A load that may only be 0 is 0, and rescaling ends all the same. So it is with a load that is fixed by both of its bounds, and
        with one whose bound is a millionth of a millionth. The others are uniform: each is below half of the total in half of the cases."""
        rng = random.Random(9)
        vectors = [dirichlet_rescale(rng, 0.5, [0.0, 1.0, 2.0]) for _ in range(4_000)]
        self.assertTrue(all(vector[0] == 0 and abs(sum(vector) - 0.5) < 1e-9 for vector in vectors))
        self.assertLess(abs(sum(vector[1] < 0.25 for vector in vectors) - 2_000), 150)
        fixed = dirichlet_rescale(rng, 0.7, [0.2, 1.0, 1.0], [0.2, 0.0, 0.0])
        self.assertEqual(fixed[0], 0.2)
        self.assertLess(abs(sum(fixed) - 0.7), 1e-9)
        narrow = [dirichlet_rescale(rng, 1.0, [1e-12, 1.0, 1.0])[0] for _ in range(4_000)]
        self.assertTrue(0 <= min(narrow) and max(narrow) <= 1e-12)
        self.assertLess(abs(sum(load < 0.5e-12 for load in narrow) - 2_000), 150)

    def test_many_loads_end(self) -> None:
        """128 loads need one draw of 128 random numbers, at most 100 more, and a walk of 32 sweeps with two numbers for each load, whatever
        the bounds are."""
        most = 128 * (101 + 2 * 32)
        rng = random.Random(4)
        cases = [
            [2 / 128] * 128, [rng.expovariate(64) for _ in range(128)], [0.0] * 64 + [2 / 64] * 64, [0.9**place for place in range(128)],
            [1.0, 1.0] + [1e-9] * 126, [0.5, 0.50001] + [0.0] * 126,
        ]
        for place, bounds in enumerate(cases):
            for part in (0.001, 0.3, 0.5, 0.7, 0.999):
                with self.subTest(place=place, part=part):
                    total = part * sum(bounds)
                    found = dirichlet_rescale(Counting(place, most), total, bounds)
                    self.assertLess(abs(sum(found) - total), 1e-9)
                    self.assertTrue(all(0 <= load <= bound + 1e-15 for load, bound in zip(found, bounds)))
        for count in (60, 128):
            self.assertEqual(len(set_of_load(Counting(1, 4 * most), 0.7, count)), count)

    def test_walk_beside_rejection(self) -> None:
        """The walk by itself has the distributions of points that are drawn until one is within the bounds: of each part, of the
        difference of the first two, and of the greatest."""
        rng, size = random.Random(12), 1_500
        for bounds in ([0.5, 0.7, 0.8], [0.2, 0.6, 0.6, 0.9], [0.05, 0.3, 0.5, 0.6, 0.8, 0.9]):
            count = len(bounds)
            walked = [_walked(rng, 1.0, bounds, _SWEEPS * count.bit_length()) for _ in range(size)]
            drawn_again: List[List[float]] = []
            while len(drawn_again) < size:
                vector = uunifast(rng, count, 1.0)
                drawn_again += [vector] if all(part <= bound for part, bound in zip(vector, bounds)) else []
            measures: List[Callable[[List[float]], float]] = [lambda vector: vector[0] - vector[1], max]
            measures += [itemgetter(place) for place in range(count)]
            for place, measure in enumerate(measures):
                with self.subTest(count=count, place=place):
                    self.assertLess(difference(list(map(measure, walked)), list(map(measure, drawn_again))), 2)

    def test_walk_by_hand(self) -> None:
        """Two parts of 1 with the bounds 0.7 and 0.6. The first is uniform from 0.4 to 0.7, so a random number of 1/3 makes it 0.5. A
        part that is chosen beside itself stays. So it is with the first one in the second case; the second one is then in the middle
        of 0.3 and 0.6."""
        self.assertTrue(near(_walked(Given(0.9, 1 / 3, 0.9), 1.0, [0.7, 0.6], 1), [0.5, 0.5]))
        self.assertTrue(near(_walked(Given(0.1, 0.1, 0.5), 1.0, [0.7, 0.6], 1), [0.55, 0.45]))

    def test_rescale_beside_the_flat_simplex(self) -> None:
        """Loads whose bounds say nothing have the moments of the flat Dirichlet distribution: of three that add up to U, each has the mean
        U / 3 and the variance U^2 (3 - 1) / (3^2 (3 + 1)), and two have the covariance -U^2 / (3^2 (3 + 1))."""
        rng, total, count = random.Random(10), 0.9, 20_000
        draws: List[Callable[[], List[float]]] = [lambda: uunifast(rng, 3, total), lambda: dirichlet_rescale(rng, total, [1.0] * 3)]
        for draw in draws:
            vectors = [draw() for _ in range(count)]
            means = [sum(vector[place] for vector in vectors) / count for place in range(3)]
            for one in range(3):
                self.assertLess(abs(means[one] - total / 3), 0.006)
                for other in range(3):
                    together = sum((vector[one] - means[one]) * (vector[other] - means[other]) for vector in vectors) / count
                    self.assertLess(abs(together - total**2 * (2 if one == other else -1) / 36), 0.0015)

    def distributed(self, vectors: List[List[float]], shares_below: List[Callable[[float], float]]) -> None:
        """Asserts that the loads at each place have their distribution, as closely as a sample of this size does."""
        for place, share_below in enumerate(shares_below):
            with self.subTest(place=place):
                self.assertLess(distance([vector[place] for vector in vectors], share_below), MOST_DISTANCE)

    def test_distributions_without_bounds(self) -> None:
        """A flat Dirichlet distribution: a load is above t in (1 - t/U)^(n - 1) of all cases, which Bini and Buttazzo (2005) derive for
        UUniFast, and Griffin, Bate and Davis (2020) take as the start of Dirichlet-Rescale. The mean is U/n and the variance
        U^2 (n - 1) / (n^2 (n + 1)). The sum is the total up to what floats can add."""
        rng, size = random.Random(21), 1_500
        for count, total in ((2, 1.0), (3, 0.5), (8, 2.0)):
            draws: List[Callable[[], List[float]]] = [
                lambda: uunifast(rng, count, total), lambda: dirichlet_rescale(rng, total, [total] * count),
            ]
            for draw in draws:
                vectors = [draw() for _ in range(size)]
                self.distributed(vectors, [lambda load: 1 - max(0.0, 1 - load / total) ** (count - 1)] * count)
                self.assertLess(max(abs(sum(vector) - total) for vector in vectors), 1e-14)
                variance = total**2 * (count - 1) / (count**2 * (count + 1))
                for place in range(count):
                    mean = sum(vector[place] for vector in vectors) / size
                    self.assertLess(abs(mean - total / count), 4 * math.sqrt(variance / size))
                    square = sum((vector[place] - total / count) ** 2 for vector in vectors) / size
                    self.assertLess(abs(square / variance - 1), 0.25)

    def test_distributions_of_two_loads(self) -> None:
        """Of two loads with the bounds a and b, the first is uniform from max(0, U - b) to min(a, U), and the second is the rest."""
        rng = random.Random(22)
        for total, a, b, least, most in [
            (1.0, 0.7, 0.6, 0.4, 0.7), (1.0, 0.7, 2.0, 0.0, 0.7), (1.0, 2.0, 0.3, 0.7, 1.0), (0.5, 0.4, 0.45, 0.05, 0.4),
            (0.3, 0.2, 0.9, 0.0, 0.2), (0.9, 0.5, 0.5, 0.4, 0.5),
        ]:
            vectors = [dirichlet_rescale(rng, total, [a, b]) for _ in range(1_500)]
            self.assertTrue(all(least - 1e-12 <= vector[0] <= most + 1e-12 for vector in vectors))
            self.distributed(vectors, [
                straight((least, 1.0), (most, 1.0)), straight((total - most, 1.0), (total - least, 1.0)),
            ])

    def test_distributions_of_three_loads(self) -> None:
        """At the value t of a load the others lie on a line, whose length is the density: with U - t left and the bounds b and c it is
        min(b, U - t) - max(0, U - t - c). Each area by hand: 0.25 in the first case, 0.22 in the second, 0.26 in the third."""
        rng = random.Random(23)
        cases: List[Tuple[float, List[float], List[List[Tuple[float, float]]]]] = [
            (1.0, [0.5, 0.6, 0.7], [
                [(0, 0.3), (0.3, 0.6), (0.4, 0.6), (0.5, 0.5)], [(0, 0.2), (0.3, 0.5), (0.5, 0.5), (0.6, 0.4)],
                [(0, 0.1), (0.4, 0.5), (0.5, 0.5), (0.7, 0.3)],
            ]),
            (0.9, [0.3, 0.8, 0.9], [
                [(0, 0.8), (0.1, 0.8), (0.3, 0.6)], [(0, 0.3), (0.6, 0.3), (0.8, 0.1)],
                [(0, 0.2), (0.1, 0.3), (0.6, 0.3), (0.9, 0)],
            ]),
            (1.0, [0.6, 0.6, 0.6], [[(0, 0.2), (0.4, 0.6), (0.6, 0.4)]] * 3),
        ]
        for total, most, densities in cases:
            for order in ((0, 1, 2), (2, 0, 1), (1, 2, 0)):
                least = [0.1 * place for place in order]
                bounds = [most[place] + low for place, low in zip(order, least)]
                vectors = [dirichlet_rescale(rng, total + sum(least), bounds, least) for _ in range(2_000)]
                above = [[load - low for load, low in zip(vector, least)] for vector in vectors]
                self.distributed(above, [straight(*densities[place]) for place in order])

    def test_distributions_of_more_loads(self) -> None:
        """The densities are volumes of simplices without some corners, up to 6 loads nearly always by draws and rescalings, of 24 loads
        mostly by the walk. What these volumes say of three loads is what areas by hand say."""
        rng = random.Random(24)
        area, volume = straight((0, 0.3), (0.3, 0.6), (0.4, 0.6), (0.5, 0.5)), cut_simplex(1.0, 0.5, [0.6, 0.7])
        self.assertTrue(near([area(step / 20) for step in range(11)], [volume(step / 20) for step in range(11)]))
        for total, most, size in [
            (1.0, [0.2, 0.25, 0.4, 0.7], 2_000), (0.8, [0.1, 0.2, 0.3, 0.4, 0.5, 0.6], 1_500), (1.0, [1 / 12] * 24, 250),
        ]:
            vectors = [dirichlet_rescale(rng, total, most) for _ in range(size)]
            self.assertLess(max(abs(sum(vector) - total) for vector in vectors), 1e-12)
            self.assertTrue(all(0 <= load <= bound + 1e-12 for vector in vectors for load, bound in zip(vector, most)))
            self.distributed(vectors, [
                cut_simplex(total, own, most[:place] + most[place + 1:]) for place, own in enumerate(most[:3])
            ])

    def test_equal_bounds_have_no_order(self) -> None:
        """Loads with equal bounds may change their places. So each of the 24 orders of four comes in one case of 24: chi square with 23
        degrees of freedom is below 41.64 in 99 of 100 cases."""
        rng, size = random.Random(25), 2_400
        for total, bound in ((1.0, 0.3), (1.0, 0.45), (1.0, 1.0)):
            vectors = [dirichlet_rescale(rng, total, [bound] * 4) for _ in range(size)]
            orders = Counter(tuple(sorted(range(4), key=vector.__getitem__)) for vector in vectors)
            self.assertEqual(len(orders), 24)
            self.assertLess(sum((count - size / 24) ** 2 for count in orders.values()) / (size / 24), 41.64)

    def test_what_there_is_not(self) -> None:
        rng = random.Random(1)
        calls: List[Callable[[], object]] = [
            lambda: uunifast(rng, 0, 1.0), lambda: uunifast(rng, 2, -0.1), lambda: dirichlet_rescale(rng, 1.0, [0.4, 0.5]),
            lambda: dirichlet_rescale(rng, 0.1, [0.4, 0.5], [0.2, 0.2]), lambda: dirichlet_rescale(rng, -1.0, [0.4]),
            lambda: dirichlet_rescale(rng, 0.5, [0.4, 0.5], [0.5, 0.0]), lambda: dirichlet_rescale(rng, 0.0, []),
            lambda: dirichlet_rescale(rng, 0.5, [0.4, 0.5], [0.1]), lambda: periods(rng, 1, 10, 9), lambda: periods(rng, 1, 0, 9),
            lambda: random_set(rng, 0, 0, 0.1, 0.1, 0.1), lambda: random_set(rng, -1, 2, 0.1, 0.1, 0.1),
            lambda: random_set(rng, 1, 1, 0.1, 0.5, 0.4),
            lambda: acceptance(set_of_load, {}, [0.5], 0, 1), lambda: drawn([0.5], {}), lambda: drawn([0.5, 0.4], {}),
            lambda: drawn([0.5, 0.6], {"a": [1.0]}),
        ]
        for place, call in enumerate(calls):
            with self.subTest(place=place), self.assertRaises(ValueError):
                call()


class Sets(Case):
    def test_periods(self) -> None:
        """From 10 to 10,000 each power of ten has a third of them; each divides one number below 2^60."""
        found = periods(random.Random(1), 15_000)
        self.assertTrue(all(10 <= period <= 10_000 and 897_612_484_786_617_600 % period == 0 for period in found))
        decades = Counter(len(str(period)) for period in found)
        self.assertTrue(all(abs(decades[digits] - 5_000) < 250 for digits in (2, 3, 4)), decades)
        self.assertLessEqual(math.lcm(*found), 2**60)
        self.assertEqual(set(periods(random.Random(1), 100, 41, 42)), {42})
        # 53.5 of 10 to 10,000: 53 is a prime above 47, so 52, which is 4 times 13, is the next divisor below.
        self.assertEqual(periods(Given(math.log(5.35) / math.log(1000)), 1), [52])
        self.assertEqual(len(laboratory._divisors(10**18)), 103_680)

    def test_loads_of_a_set(self) -> None:
        """Each load is right up to half a tick in a period for each task."""
        rng = random.Random(1)
        for _ in range(200):
            low, high = rng.randint(1, 5), rng.randint(1, 5)
            high_high = rng.uniform(0.1, 0.9)
            wanted = (rng.uniform(0.1, 0.9), rng.uniform(0.05, 1) * high_high, high_high)
            tasks = random_set(rng, low, high, *wanted, least=100_000, most=1_000_000)
            self.assertEqual([task.level for task in tasks], ["high"] * high + ["low"] * low)
            self.assertEqual([task.name for task in tasks], [f"t{place}" for place in range(1, low + high + 1)])
            self.assertTrue(all(1 <= task.low <= (task.high or task.low) for task in tasks))
            for found, load, level in zip(loads(tasks), wanted, ("low", "high", "high")):
                half_ticks = sum(0.5 / task.period for task in tasks if task.level == level)
                self.assertLess(abs(float(found) - load), half_ticks + 1e-9)

    def test_loads_that_no_set_has(self) -> None:
        """The message names the arguments."""
        cases: List[Tuple[Tuple[int, int, float, float, float], str]] = [
            ((0, 2, 0.5, 0.2, 0.3), "low_low is 0.5, but low_tasks is 0"), ((2, 0, 0.5, 0.2, 0.3), "high_low is 0.2, but high_tasks is 0"),
            ((2, 0, 0.5, 0, 0.3), "high_high is 0.3, but high_tasks is 0"), ((2, 2, 0.5, 0.4, 0.3), "high_low is 0.4, above high_high"),
            ((2, 2, 2.1, 0.2, 0.3), "low_low is 2.1, but low_tasks is 2"), ((2, 2, 0.5, 0.2, 3), "high_high is 3, but high_tasks is 2"),
            ((2, 2, -0.1, 0.2, 0.3), "low_low is -0.1, but"), ((2, 2, math.nan, 0.2, 0.3), "low_low is nan, and not a finite number"),
        ]
        for given, words in cases:
            with self.subTest(given=given), self.assertRaisesRegex(ValueError, f"^{words}"):
                random_set(random.Random(1), *given)
        with self.assertRaisesRegex(ValueError, "^tasks is 1, which is not from 2 "):
            set_of_load(random.Random(1), 0.5, tasks=1)

    def test_no_budget_is_beyond_its_period(self) -> None:
        """Two loads of 1.5, each at most 1, are both at least 0.5; two loads of 2 are 1 each."""
        rng = random.Random(8)
        for _ in range(300):
            for task in random_set(rng, 2, 2, 1.5, 1.2, 1.5, least=1_000, most=10_000):
                self.assertTrue(0.499 * task.period <= (task.high or task.low) <= task.period and task.low <= (task.high or task.low))
        for task in random_set(rng, 2, 2, 2, 2, 2):
            self.assertEqual((task.low, task.high or task.low), (task.period, task.period))

    def test_budgets_of_small_loads(self) -> None:
        """With loads of at most 0.002 and periods of at most 20 each budget is below a tick, so it is 1, the high one as well."""
        tasks = random_set(random.Random(1), 2, 2, 0.002, 0.001, 0.002, least=10, most=20)
        self.assertEqual([(task.low, task.high) for task in tasks], [(1, 1), (1, 1), (1, None), (1, None)])

    def test_a_seed_makes_the_sets_again(self) -> None:
        self.assertEqual(set_of_load(random.Random(5), 0.7), set_of_load(random.Random(5), 0.7))
        self.assertNotEqual(set_of_load(random.Random(5), 0.7), set_of_load(random.Random(6), 0.7))
        tasks = set_of_load(random.Random(5), 0.7, tasks=9)
        low_low, high_low, high_high = map(float, loads(tasks))
        self.assertEqual([len(tasks), sum(task.level == "high" for task in tasks)], [9, 5])
        self.assertTrue(near([low_low + high_low, high_high], [0.7, 0.7], 0.01))
        self.assertTrue(0.07 <= high_low <= 0.63)


class Tests(Case):
    def test_by_hand(self) -> None:
        """Loads 1/2, 1/4 and 3/4 are the bound itself, and the test's inequality is an equality: 1/2 * 1/2 + 3/4 is 1. With a
        thousandth more in low mode neither admits the set. With 4/5 in high mode EDF-VD admits what the bound does not."""
        tight = [Task("h", "high", 4, 1, 3), Task("l", "low", 2, 1)]
        above = [Task("h", "high", 1000, 251, 750), Task("l", "low", 2, 1)]
        little = [Task("ctl", "high", 10, 2, 8), Task("log", "low", 10, 5)]
        few = [Task("h", "high", 10, 1, 9), Task("l", "low", 10, 1)]
        for tasks, admitted in [
            (CONTROL, (False, True, True)), (TOO_MUCH, (False, False, False)), (tight, (False, True, True)),
            (above, (False, False, False)), (little, (False, False, True)), (few, (True, False, True)),
        ]:
            with self.subTest(tasks=tasks):
                self.assertEqual((reservation(tasks), three_quarters(tasks), edf_vd(tasks)), admitted)
        self.assertEqual(loads(CONTROL), (Fraction(1, 2), Fraction(1, 5), Fraction(3, 5)))

    def test_reservations_at_their_bound(self) -> None:
        """Liu and Layland (1973): EDF schedules a set exactly if its load is at most 1. Here each task counts with its greatest budget:
        1/3 + 1/6 + 1/2 is 1, and 1/3 + 1/6 + 501/1000 is above it. The low budgets of high tasks do not count."""
        others = [Task("l", "low", 6, 2), Task("m", "low", 6, 1)]
        for high, admitted in ((500, True), (501, False)):
            for low in (1, 250, 500):
                self.assertIs(reservation([Task("h", "high", 1000, low, high), *others]), admitted)
        self.assertEqual([reservation([Task("h", "high", 7, 1, high)]) for high in (7, 8)], [True, False])
        self.assertEqual([reservation([Task("l", "low", 7, low)]) for low in (7, 8)], [True, False])

    def test_three_quarters_are_always_enough(self) -> None:
        """Baruah et al. (2012): a set with U_LL + U_HL and U_HH of at most 3/4 is admitted. Let both be 3/4, and U_LL be u. The scale is
        x = (3/4 - u) / (1 - u), and x u + 3/4 is at most 1 exactly if (u - 1/2)^2 is not below 0. So all are admitted, and at u = 1/2
        nothing is left: there a load L in both modes needs (L - 1/2) + L of at most 1, which is 3/4. So the bound is tight."""
        for hundredths in range(1, 75):
            tasks = [Task("h", "high", 100, 75 - hundredths, 75), Task("l", "low", 100, hundredths)]
            self.assertEqual((three_quarters(tasks), edf_vd(tasks)), (True, True), hundredths)
            self.assertEqual(reservation(tasks), hundredths <= 25)
            if hundredths > 25:
                self.assertEqual(check(tasks).scale, Fraction(75 - hundredths, 100 - hundredths))
        for little in (1, 10, 100):
            period = 4_000 * little
            at, above = ([Task("h", "high", period, period // 4 + more, 3 * period // 4 + more), Task("l", "low", 2, 1)] for more in (0, 1))
            self.assertEqual((three_quarters(at), edf_vd(at), check(at).scale), (True, True, Fraction(1, 2)))
            self.assertEqual((three_quarters(above), edf_vd(above)), (False, False))
        for low, high in ((250, 751), (251, 750)):
            self.assertFalse(three_quarters([Task("h", "high", 1000, low, high), Task("l", "low", 2, 1)]))

    def test_edf_vd_at_its_bound(self) -> None:
        """The test of Baruah et al. (2012): plain EDF if U_LL + U_HH is at most 1, otherwise EDF-VD with x = U_HL / (1 - U_LL) if
        x U_LL + U_HH is at most 1. With U_LL = 2/5 and U_HL = 3/10 the scale is 1/2, so U_HH may be 4/5, which the bound of 3/4 does not
        admit. With U_LL = 1/5 and U_HL = 3/5 it is 3/4, and U_HH may be 17/20. With U_LL = 1 there is no scale."""
        for u_ll, u_hl, scale, most in ((400, 300, Fraction(1, 2), 800), (200, 600, Fraction(3, 4), 850)):
            low = Task("l", "low", 1000, u_ll)
            for high, rule in ((1000 - u_ll, Rule.PLAIN), (1001 - u_ll, Rule.VIRTUAL), (most, Rule.VIRTUAL), (most + 1, None)):
                tasks = [Task("h", "high", 1000, u_hl, high), low]
                self.assertEqual((check(tasks).rule, edf_vd(tasks)), (rule, rule is not None))
                self.assertEqual(check(tasks).scale, scale if rule is Rule.VIRTUAL else None)
        self.assertFalse(edf_vd([Task("h", "high", 1000, 1, 1), Task("l", "low", 7, 7)]))
        self.assertTrue(edf_vd([Task("l", "low", 7, 7)]))

    def test_beside_one_another(self) -> None:
        """EDF-VD admits what either of the other two admits, and what the inequality of its test says."""
        rng, seen = random.Random(4), Counter[Tuple[bool, bool, bool]]()
        for _ in range(300):
            tasks = set_of_load(rng, rng.uniform(0.5, 1))
            low_low, high_low, high_high = loads(tasks)
            admitted = (reservation(tasks), three_quarters(tasks), edf_vd(tasks))
            by_scale = low_low < 1 and high_low / (1 - low_low) * low_low + high_high <= 1
            self.assertEqual(admitted[2], admitted[0] or by_scale)
            self.assertTrue(admitted[2] or not admitted[1])
            seen[admitted] += 1
        self.assertEqual(len(seen), 5, seen)


class Curves(Case):
    def test_shares_by_hand(self) -> None:
        """Of four sets at each point the test admits those below the point, which are 1, 2 and 4."""
        counts = [1, 1, 2, 9, 1, 2, 3, 9, 1, 2, 3, 4]

        def make(rng: random.Random, point: float) -> List[Task]:
            return [Task("a", "low", counts.pop(0), int(point))]

        tests: Any = {"not above": lambda tasks: tasks[0].period <= tasks[0].low, "all": lambda tasks: True}
        self.assertEqual(acceptance(make, tests, [1.0, 2.0, 4.0], 4, 1), {"not above": [0.5, 0.5, 1.0], "all": [1.0, 1.0, 1.0]})
        self.assertEqual(counts, [])

    def test_a_test_returns_true_or_false(self) -> None:
        """What is neither True nor False of Python or numpy is refused; a number would be added up."""
        class bool_:  # what numpy calls its own
            def __bool__(self) -> bool:
                return True

        untyped: Any = acceptance
        results: List[Tuple[object, str]] = [(2, "2"), (1, "1"), (0.5, "0.5"), (None, "None"), ("yes", "'yes'"), ([], r"\[\]")]
        for found, words in results:
            with self.assertRaisesRegex(TypeError, rf"^test 'a b' returned {words}, not True or False \(at point 0.5, set 1\)$"):
                untyped(set_of_load, {"a b": lambda tasks: found}, [0.5], 2, 1)
        self.assertEqual(untyped(set_of_load, {"a": lambda tasks: bool_()}, [0.5], 2, 1), {"a": [1.0]})

    def test_an_error_says_where(self) -> None:
        """The second set at the point 0.75 is the fourth of all. The exception keeps its type and its other fields."""
        def failing(error: Exception) -> Callable[[random.Random, float], List[Task]]:
            numbers = iter(range(1, 9))

            def make(rng: random.Random, point: float) -> List[Task]:
                if next(numbers) == 4:
                    raise error
                return CONTROL
            return make

        for error, words in [
            (ValueError("no set"), "no set (at point 0.75, set 2)"), (ZeroDivisionError(), "(at point 0.75, set 2)"),
            (KeyError("a key"), "'a key'"), (OSError(2, "no file"), "[Errno 2] no file"),
            (Refused(Status.EMPTY), "no tasks (at point 0.75, set 2)"),
        ]:
            with self.subTest(words=words), self.assertRaises(type(error)) as caught:
                acceptance(failing(error), laboratory.TESTS, [0.5, 0.75], 2, 1)
            self.assertIs(caught.exception, error)
            self.assertEqual(str(error), words)
        with self.assertRaises(Refused) as refused:
            acceptance(lambda rng, point: [Task("a", "low", 0, 1)], laboratory.TESTS, [0.5], 2, 1)
        self.assertEqual((refused.exception.status, refused.exception.task), (Status.ZERO_NUMBER, "a"))
        self.assertRegex(str(pickle.loads(pickle.dumps(refused.exception))), r"^task a: a period, .* is 0 \(at point 0.5, set 1\)$")

    def test_a_generator_for_each_point(self) -> None:
        """The shares of a point are those that it has alone; its sets are those of the generator that the seed and the point make."""
        points = [0.7, 0.8, 1]
        shares = acceptance(set_of_load, laboratory.TESTS, points, 30, seed=-3)
        for place, point in enumerate(points):
            alone = acceptance(set_of_load, laboratory.TESTS, [point], 30, seed=-3)
            self.assertEqual({name: curve[place:place + 1] for name, curve in shares.items()}, alone)
        made: List[List[Task]] = []

        def make(rng: random.Random, point: float) -> List[Task]:
            made.append(set_of_load(rng, point))
            return made[-1]

        acceptance(make, laboratory.TESTS, [0.8, 0.7], 2, seed=5)
        rngs = [random.Random("5 0.8"), random.Random("5 0.7")]
        self.assertEqual(made, [set_of_load(rng, point) for rng, point in zip(rngs, [0.8, 0.7]) for _ in range(2)])
        self.assertEqual(laboratory.generator_of(5, 1).random(), laboratory.generator_of(5, 1.0).random())

    def test_wrong_arguments(self) -> None:
        untyped: Any = laboratory
        kinds = untyped.TESTS
        cases: List[Tuple[Callable[[], object], str]] = [
            (lambda: untyped.acceptance(set_of_load, edf_vd, [0.5], 2, 1), "^tests must be a mapping"),
            (lambda: untyped.acceptance(set_of_load, {"a": 1}, [0.5], 2, 1), "^tests must be a mapping from names to functions"),
            (lambda: untyped.acceptance(set_of_load, kinds, 0.5, 2, 1), "^points must be a sequence of numbers, not float"),
            (lambda: untyped.acceptance(set_of_load, kinds, "0.5", 2, 1), "^points must be a sequence of numbers, not str"),
            (lambda: untyped.acceptance(set_of_load, kinds, [0.5, None], 2, 1), "^an element of points must be a number, not NoneType"),
            (lambda: untyped.acceptance(1, kinds, [0.5], 2, 1), "^make must be a function"),
            (lambda: untyped.acceptance(set_of_load, kinds, [0.5], 2.0, 1), "^sets must be a whole number, not float"),
            (lambda: untyped.acceptance(set_of_load, kinds, [0.5], 2, "1"), "^seed must be a whole number, not str"),
            *((lambda call=call: call(7), "^rng must be a random.Random, .* not int$") for call in [
                lambda rng: untyped.uunifast(rng, 2, 0.5), lambda rng: untyped.dirichlet_rescale(rng, 0.5, [0.5, 0.5]),
                lambda rng: untyped.periods(rng, 2), lambda rng: untyped.random_set(rng, 1, 1, 0.1, 0.1, 0.1),
                lambda rng: untyped.set_of_load(rng, 0.5),
            ]),
        ]
        for call, words in cases:
            with self.subTest(words=words), self.assertRaisesRegex(TypeError, words):
                call()

    def test_each_argument_is_named(self) -> None:
        """A value of a wrong type is a TypeError, one that no call can mean a ValueError; both name the argument."""
        untyped: Any = laboratory
        tasks, kinds = CONTROL, laboratory.TESTS
        calls: Dict[str, Callable[[Any], object]] = {
            "count ": lambda value: untyped.uunifast(random.Random(1), value, 0.5),
            "count": lambda value: untyped.periods(random.Random(1), value),
            "total ": lambda value: untyped.uunifast(random.Random(1), 2, value),
            "total": lambda value: untyped.dirichlet_rescale(random.Random(1), value, [0.5, 0.5]),
            "most ": lambda value: untyped.dirichlet_rescale(random.Random(1), 0.5, [0.5, value]),
            "least ": lambda value: untyped.dirichlet_rescale(random.Random(1), 0.5, [0.5, 0.5], [0.1, value]),
            "least": lambda value: untyped.periods(random.Random(1), 2, value, 100),
            "most": lambda value: untyped.periods(random.Random(1), 2, 10, value),
            **{name: random_set_with(name) for name in ("low_tasks", "high_tasks", "low_low", "high_low", "high_high")},
            "load": lambda value: untyped.set_of_load(random.Random(1), value),
            "tasks": lambda value: untyped.set_of_load(random.Random(1), 0.5, value),
            "sets": lambda value: untyped.acceptance(set_of_load, kinds, [0.5], value, 1),
            "point ": lambda value: untyped.generator_of(1, value),
            "points": lambda value: untyped.acceptance(set_of_load, kinds, [value], 1, 1),
            "points ": lambda value: untyped.drawn([0.0, value], {"a": [1.0, 0.0]}),
            "shares": lambda value: untyped.drawn([0.0, 1.0], {"a": [1.0, value]}),
        }
        for name, call in calls.items():
            for value in (None, True, "2", b"2", 1j, [2], {}, object(), int):
                with self.subTest(name=name, value=value), self.assertRaisesRegex(TypeError, rf"\b{name.strip()}\b"):
                    call(value)
            for value in (math.nan, math.inf, -math.inf, 10**400, -10**5000):
                with self.subTest(name=name, bits=value), self.assertRaisesRegex((TypeError, ValueError), rf"\b{name.strip()}\b"):
                    call(value)
        for test in (loads, reservation, three_quarters, edf_vd):
            wrong: Any = test
            for given in (None, 5, "ctl", [None], [5], tasks[0], [Task("a", "low", 1.5, 1)], [Task("a", "middle", 2, 1)]):  # type: ignore
                with self.subTest(test=test, given=given), self.assertRaises((TypeError, ValueError)):
                    wrong(given)
            with self.assertRaises(Refused) as refused:
                test([Task("ctl", "high", 10, 2, 6), Task("a", "low", 0, 1)])
            self.assertEqual((refused.exception.status, refused.exception.task), (Status.ZERO_NUMBER, "a"))
        with self.assertRaisesRegex(ValueError, "^seed is a number of 16610 bits"):
            untyped.generator_of(-10**5000, 0.5)
        pictures: List[Tuple[Any, ...]] = [
            ([0.0, 1.0], 5), ([0.0, 1.0], {1: [0.0, 1.0]}), ([0.0, 1.0], {"a": [0.0, 1.0]}, None), (None, {}), ([0.0, 1.0], {"a": None}),
        ]
        for picture in pictures:
            with self.subTest(picture=picture), self.assertRaisesRegex(TypeError, "^(shares|a name in shares|words|points) must be "):
                untyped.drawn(*picture)

    def test_a_seed_gives_the_shares_again(self) -> None:
        """A seed gives the shares again, and another one other sets."""
        one, again, other = (acceptance(set_of_load, laboratory.TESTS, [0.6, 0.8], 40, seed) for seed in (1, 1, 2))
        self.assertEqual(one, again)
        self.assertNotEqual(one, other)

    def test_picture_by_hand(self) -> None:
        """The axes are 560 and 300 long, from 64 to the right and from 16 downwards. 0.4 has at most ten steps of 0.05."""
        tree = xml.fromstring(drawn([0.5, 0.6, 0.9], {"a < b": [1.0, 0.5, 0.0], "c": [0.0, 0.0, 0.25]}, "load & more"))
        lines = [element.get("points") for element in tree.iter() if element.tag.endswith("polyline")]
        self.assertEqual(lines, ["64.0,16.0 204.0,166.0 624.0,316.0", "64.0,316.0 204.0,316.0 624.0,241.0"])
        texts = [element for element in tree.iter() if element.tag.endswith("text")]
        ticks = ["0.5", "0.55", "0.6", "0.65", "0.7", "0.75", "0.8", "0.85", "0.9"]
        self.assertEqual([element.text for element in texts], [
            "share of admitted sets", "0", "0.2", "0.4", "0.6", "0.8", "1", *ticks, "load & more", "a < b", "c",
        ])
        self.assertEqual([element.get("x") for element in texts[7:16]], [f"{64 + 70 * place:.1f}" for place in range(9)])

    def test_ticks_by_hand(self) -> None:
        """The last point has a tick if it is a multiple of the step. 15 has at most ten steps of 2."""
        cases: List[Tuple[List[float], List[float]]] = [
            ([0.0, 1.0], [0, 0.1, 0.2, 0.3, 0.4, 0.5, 0.6, 0.7, 0.8, 0.9, 1]), ([4.0, 8.0], [4, 4.5, 5, 5.5, 6, 6.5, 7, 7.5, 8]),
            ([0.0, 15.0], [0, 2, 4, 6, 8, 10, 12, 14]), ([-30.0, 70.0], [-30, -20, -10, 0, 10, 20, 30, 40, 50, 60, 70]),
            ([0.97, 2.1], [1, 1.2, 1.4, 1.6, 1.8, 2]),
        ]
        for points, ticks in cases:
            self.assertTrue(near(_round_ticks(*points), ticks), points)

    def test_equal_lines_stay_visible(self) -> None:
        """The first line has no gaps, and each later one has. No two of twelve lines have the same colour and dashes."""
        tree = xml.fromstring(drawn([0.0, 1.0], {str(place): [1.0, 0.5] for place in range(20)}))
        lines = [element for element in tree.iter() if element.tag.endswith("polyline")]
        dashes = [line.get("stroke-dasharray") for line in lines]
        self.assertEqual([place for place, dash in enumerate(dashes) if dash is None], [0])
        looks = [(line.get("stroke"), line.get("stroke-dasharray")) for line in lines[:12]]
        self.assertEqual(len(set(looks)), 12)
        keys = [element.get("stroke-dasharray") for element in tree.iter() if element.get("stroke-width") == "2"]
        self.assertEqual(keys, dashes)

    def test_curves_that_are_none(self) -> None:
        cases: List[Tuple[List[float], Dict[str, List[float]], str]] = [
            ([0.5], {}, "^points has 1 of them, and a curve needs two or more$"), ([], {}, "^points has 0 of them"),
            ([0.5, 0.4], {}, "^points are not in order: 0.4 comes after 0.5$"),
            ([0.5, 0.7, 0.7], {}, "^points are not in order: 0.7 comes after 0.7$"),
            ([-1e308, 1e308], {}, "^points are further apart than floats go$"),
            ([0.5, 0.6], {"a": [1.0, 0.0], "b": [1.0]}, "^shares has 1 shares of 'b' for 2 points$"),
            ([0.5, 0.6], {"b": [1.0, 1.5]}, "^shares: the share of 'b' at point 0.6 is 1.5, which is not from 0 to 1$"),
            ([0.5, 0.6], {"b": [-0.25, 1.0]}, "^shares: the share of 'b' at point 0.5 is -0.25, which is not from 0 to 1$"),
        ]
        for points, shares, words in cases:
            with self.subTest(words=words), self.assertRaisesRegex(ValueError, words):
                drawn(points, shares)

    def run_example(self, *words: str) -> Tuple[int, str]:
        done = subprocess.run(
            [sys.executable, "-B", str(EXAMPLE), *words], capture_output=True, text=True, check=False, timeout=300,
            env={**os.environ, "PYTHONPATH": str(EXAMPLE.parents[1])},
        )
        return done.returncode, done.stdout

    @unittest.skipUnless(EXAMPLE.exists() and PICTURE.exists(), "the package is not in its repository")
    def test_picture_of_the_page(self) -> None:
        """It is drawn by the command that the page shows. EDF-VD admits all sets up to 0.74, the bound exactly these."""
        with tempfile.TemporaryDirectory(prefix="with spaces ") as folder:
            path = Path(folder) / "a picture.svg"
            status, table = self.run_example("200", str(path))
            self.assertEqual((status, path.read_text()), (0, PICTURE.read_text()))
        rows = [list(map(float, line.split())) for line in table.splitlines()[1:]]
        self.assertEqual([row[2] for row in rows], [1.0] * 13 + [0.0] * 13)
        self.assertTrue(all(exact >= bound and exact >= reserved for _, exact, bound, reserved in rows))
        self.assertEqual([exact for _, exact, *_ in rows[:13]], [1.0] * 13)

    @unittest.skipUnless(EXAMPLE.exists(), "the package is not in its repository")
    def test_wrong_words(self) -> None:
        for words in (["x"], ["0"], ["-1"], ["1", "a.png"], ["1", "a.svg", "b"]):
            self.assertEqual(self.run_example(*words), (2, ""))


if __name__ == "__main__":
    unittest.main()
