"""Values go through copies and pickles, and come back equal."""

import copy
import pickle
import unittest
from fractions import Fraction
from typing import Any, Callable, List

from edfvd import (
    Answer, Demand, DemandVerdict, Event, GreatestBudgets, Job, Late, Look, Row, Rule, ScaleRange, Status, Task, TaskFile, Test, Trace,
    Unfit, Verdict, Watch, Why, check_many,
)
from support import CONTROL, TOO_MUCH

VALUES: List[Any] = [
    Task("ctl", "high", 10, 2, 6), Test(Fraction(1, 2), Fraction(1, 5), Fraction(3, 5), Rule.VIRTUAL, Fraction(2, 5)), Row(Event.KEPT, "a", 1),
    Verdict(Why.TOO_SOON, 3, 0, None), Unfit(Why.IDLE_PENDING, 2), Late("a", 1, 4), Watch(1, True, 2, 3, False), Answer(Event.DONE, "a", 1, 2, 3),
    Look(1, 2, True, ("a", 1), None), Job("a", 0, 1), Demand("a", 4, 2, 1), DemandVerdict(False, 3, 4, ("late b 1",)),
    GreatestBudgets("a", 1, None), ScaleRange(Fraction(2, 5), Fraction(4, 5)), TaskFile(CONTROL, Fraction(1, 2)),
    Trace([(Row(Event.IDLE), 7)]), Rule.PLAIN, Event.OVER, Why.WRONG_HOW, Status.FULL,
]


class Carried(unittest.TestCase):
    def test_each_value(self) -> None:
        ways: List[Callable[[Any], Any]] = [
            copy.copy, copy.deepcopy, *(lambda value, form=form: pickle.loads(pickle.dumps(value, form)) for form in range(2, 6)),
        ]
        for value in VALUES:
            for way in ways:
                with self.subTest(value=value):
                    other = way(value)
                    self.assertEqual((type(other), other, repr(other)), (type(value), value, repr(value)))

    def test_many_tests(self) -> None:
        tests = check_many([CONTROL, [], TOO_MUCH])
        other = pickle.loads(pickle.dumps(tests))
        self.assertEqual((other.rules, other.statuses, other[0], other[2]), (tests.rules, tests.statuses, tests[0], tests[2]))


if __name__ == "__main__":
    unittest.main()
