"""The exceptions: what they say, and that they go through copies, pickles and a process pool."""

import copy
import multiprocessing
import pickle
import unittest
from typing import Any, Callable, List

from edfvd import CommandRefused, EdfvdError, Job, Refused, Scheduler, Status, Task, check, run
from support import CONTROL, Case

WAYS: List[Callable[[Any], Any]] = [
    copy.copy, copy.deepcopy, *(lambda error, form=form: pickle.loads(pickle.dumps(error, form)) for form in range(6)),
]


def of_period(period: int) -> object:
    """A call that another process makes."""
    return check([Task("a", "low", period, 1)]).low_low


class Words(Case):
    def test_of_a_task(self) -> None:
        refused = self.refused(lambda: check([CONTROL[0], Task("log", "low", 0, 1)]))
        self.assertEqual((refused.status, refused.task, refused.at), (Status.ZERO_NUMBER, "log", 0))
        self.assertEqual(str(refused), "task log: a period, deadline or budget is 0")

    def test_of_no_task(self) -> None:
        refused = self.refused(lambda: check([]))
        self.assertEqual((refused.status, refused.task, refused.at, str(refused)), (Status.EMPTY, None, 0, "no tasks"))

    def test_each_status_has_words(self) -> None:
        words = [str(Refused(status)) for status in Status]
        self.assertEqual(len(set(words)), len(Status))
        self.assertNotIn("an unknown status", words)

    def test_shown(self) -> None:
        self.assertEqual(repr(Refused(Status.ZERO_NUMBER, "log")), "Refused(Status.ZERO_NUMBER, task='log', at=0)")
        self.assertEqual(repr(CommandRefused(4, "a b")), "CommandRefused(4, 'a b')")

    def test_kinds(self) -> None:
        self.assertTrue(issubclass(Refused, EdfvdError) and issubclass(CommandRefused, EdfvdError))
        self.assertFalse(issubclass(EdfvdError, (ValueError, TypeError)))


class Carried(Case):
    def test_refused(self) -> None:
        with Scheduler(CONTROL, 10) as scheduler:
            scheduler.release("log")
            refused = self.refused(lambda: scheduler.release("log"))
        refused.extra = "a note"  # type: ignore[attr-defined]
        for way in WAYS:
            other = way(refused)
            self.assertIs(type(other), Refused)
            self.assertEqual((other.status, other.task, other.at, str(other)), (Status.TOO_SOON, None, 10, "too soon"))
            self.assertEqual(other.extra, "a note")
        refused = self.refused(lambda: check([Task("a", "low", 0, 1)]))
        for way in WAYS:
            self.assertEqual((way(refused).task, str(way(refused))), ("a", "task a: a period, deadline or budget is 0"))

    def test_command_refused(self) -> None:
        with self.assertRaises(CommandRefused) as caught:
            run(CONTROL, [Job("no", 0, 1)], 4)
        for way in WAYS:
            other = way(caught.exception)
            self.assertIs(type(other), CommandRefused)
            self.assertEqual((other.exit_status, str(other)), (4, "work file line 2: unknown task"))

    def test_a_process_pool(self) -> None:
        """A refused set fails its own call, and the pool goes on."""
        with multiprocessing.get_context("spawn").Pool(1) as pool:
            calls = [pool.apply_async(of_period, (period,)) for period in (4, 0, 5)]
            self.assertEqual(str(calls[0].get(60)), "1/4")
            refused = self.refused(lambda: calls[1].get(60))
            self.assertEqual((refused.status, refused.task), (Status.ZERO_NUMBER, "a"))
            self.assertEqual(str(calls[2].get(60)), "1/5")


if __name__ == "__main__":
    unittest.main()
