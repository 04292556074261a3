"""The tests of sets: loads, rule and scale, stretch, processors, random sets, and deadlines below periods."""

import unittest
from fractions import Fraction
from typing import Any, List, Tuple

from edfvd import Demand, DemandVerdict, Rule, Status, Task, Test, accept, ask, check, demand, partition, stretch
from support import CONTROL, CTL, TOO_MUCH, Case


class Check(Case):
    def test_virtual_deadlines(self) -> None:
        """Plain EDF would need 1/2 + 3/5; the scale is (1/5) / (1 - 1/2), and 2/5 * 1/2 + 3/5 is at most 1."""
        self.assertEqual(
            check(CONTROL), Test(Fraction(1, 2), Fraction(1, 5), Fraction(3, 5), Rule.VIRTUAL, Fraction(2, 5))
        )

    def test_plain(self) -> None:
        test = check([Task("a", "low", 4, 1), Task("b", "high", 8, 1, 4)])
        self.assertEqual(test, Test(Fraction(1, 4), Fraction(1, 8), Fraction(1, 2), Rule.PLAIN, None))

    def test_not_admitted(self) -> None:
        self.assertEqual(check(TOO_MUCH), Test(Fraction(9, 10), Fraction(1, 5), Fraction(3, 5), None, None))

    def test_loads_whose_numerators_pass_64_bits(self) -> None:
        """Over the hyperperiod 2^31 * 3^18, which is below 2^60, a load of 23 has a numerator above 2^64."""
        tasks = [
            Task("a", "high", 2**31, 1, 1), Task("b", "high", 3**18, 1, 1), Task("c", "high", 1, 100, 200),
            Task("d", "low", 1, 300),
        ]
        rest = Fraction(1, 2**31) + Fraction(1, 3**18)
        self.assertEqual(check(tasks), Test(Fraction(300), 100 + rest, 200 + rest, None, None))

    def test_order_is_not_needed(self) -> None:
        self.assertEqual(check(iter(reversed(CONTROL))), check(tuple(CONTROL)))

    def test_limits(self) -> None:
        """128 tasks, and numbers of 32 bits, are a set; one more is none."""
        crowd = [Task(f"t{place}", "low", 2**32 - 1, 1) for place in range(128)]
        self.assertEqual(check(crowd).low_low, Fraction(128, 2**32 - 1))
        self.assertEqual(check([Task("a", "high", 1, 1, 2**32 - 1)]).high_high, 2**32 - 1)
        refused = self.refused(lambda: check([*crowd, Task("one", "low", 4, 1)]))
        self.assertEqual((refused.status, refused.task, refused.at), (Status.TOO_MANY, None, 0))

    def test_refused(self) -> None:
        wide = [Task("a", "low", 2**31, 1), Task("b", "low", 3**20, 1)]
        cases: List[Tuple[Any, ...]] = [
            ([], Status.EMPTY, None),
            ([Task("a", "low", 0, 1)], Status.ZERO_NUMBER, "a"),
            ([CTL, Task("log", "low", 10, 0)], Status.ZERO_NUMBER, "log"),
            ([Task("a", "high", 9, 2, 0)], Status.ZERO_NUMBER, "a"),
            ([CTL, Task("b", "high", 9, 3, 2)], Status.BUDGET_ORDER, "b"),
            ([Task("a", "low", 9, 3, 4)], Status.BUDGET_ORDER, "a"),
            (wide, Status.PERIODS, "b"),
        ]
        for tasks, status, task in cases:
            with self.subTest(tasks=tasks):
                refused = self.refused(lambda: check(tasks))
                self.assertEqual((refused.status, refused.task), (status, task))


class OtherTests(Case):
    def test_stretch(self) -> None:
        for tasks, percent in [
            # At most 8 of 10 ticks: floor(6 * 149 / 100) is 8, and floor(6 * 150 / 100) is 9.
            (CONTROL, 149),
            # 199 percent of 1 tick is 1 tick, and 200 percent are more than the period.
            ([Task("a", "high", 1, 1, 1)], 199),
            # 1 percent of a million ticks is more than the period; 0 percent is the low budget.
            ([Task("a", "high", 10, 2, 1_000_000)], 0),
            ([Task("a", "high", 1000, 1, 1)], 1000),
            ([Task("a", "low", 4, 4)], 1000),
            ([Task("a", "low", 2, 3)], None),
        ]:
            with self.subTest(tasks=tasks):
                self.assertEqual(stretch(tasks), percent)
        refused = self.refused(lambda: stretch([CTL, Task("log", "low", 10, 0)]))
        self.assertEqual((refused.status, refused.task), (Status.ZERO_NUMBER, "log"))

    def test_partition(self) -> None:
        both = [*CONTROL, Task("more", "low", 10, 5)]
        self.assertEqual(partition(both, 2), [["ctl", "log"], ["more"]])
        self.assertEqual(partition(both, 5), [["ctl", "log"], ["more"], [], [], []])
        refused = self.refused(lambda: partition(both, 1))
        self.assertEqual((refused.status, refused.task), (Status.NO_PROCESSOR, "more"))
        for processors in (0, 17):
            self.assertIs(self.refused(lambda: partition(both, processors)).status, Status.ARGUMENT)

    def test_accept(self) -> None:
        """The table is the program's, a line for each of eleven percentages."""
        table = accept(3, 200, 9)
        self.assertEqual(list(table), [100, 110, 120, 130, 140, 150, 160, 170, 180, 190, 200])
        self.assertEqual(ask(["accept", "3", "200", "9"])[1].decode(), "".join(f"{k} {v}\n" for k, v in table.items()))
        self.assertEqual(table[100], 200)
        for first, sets, tasks in [(1, 0, 8), (1, 10_001, 8), (1, 1, 1), (1, 1, 33), (2**64 - 1, 1, 8)]:
            with self.subTest(first=first, sets=sets, tasks=tasks):
                self.assertIs(self.refused(lambda: accept(first, sets, tasks)).status, Status.ARGUMENT)


class DemandTest(Case):
    def test_schedulable(self) -> None:
        fits = demand([Demand("sense", 5, 2, 1), Demand("ctl", 10, 6, 3), Demand("log", 20, 10, 5)])
        self.assertEqual(fits, DemandVerdict(True, 20, None, ()))
        self.assertEqual(demand(iter([Demand("a", 4, 2, 1)])), DemandVerdict(True, 4, None, ()))

    def test_not_schedulable(self) -> None:
        """In 3 ticks both jobs have their deadlines, and need 4 ticks: a has the first two, and b is late."""
        late = demand([Demand("a", 4, 2, 2), Demand("b", 6, 3, 2)])
        self.assertEqual((late.schedulable, late.length, late.demand), (False, 3, 4))
        self.assertEqual(
            late.counterexample,
            ("release a 1 at 0", "release b 1 at 0", "tick 0 a 1", "tick 1 a 1", "tick 2 b 1", "late b 1"),
        )

    def test_refused(self) -> None:
        fits = Demand("fits", 10, 6, 3)
        cases: List[Tuple[Any, ...]] = [
            ([], Status.EMPTY, None),
            ([Demand(f"t{place}", 9, 9, 1) for place in range(129)], Status.TOO_MANY, None),
            ([fits, Demand("a", 4, 4, 0)], Status.ZERO_NUMBER, "a"),
            ([fits, Demand("a", 4, 5, 1)], Status.DEADLINE_ORDER, "a"),
            ([fits, Demand("a", 500_001, 5, 1)], Status.PERIODS, "a"),
        ]
        for tasks, status, task in cases:
            with self.subTest(tasks=tasks):
                refused = self.refused(lambda: demand(tasks))
                self.assertEqual((refused.status, refused.task), (status, task))


if __name__ == "__main__":
    unittest.main()
