"""What the tests of several subjects share: the sets that they judge and schedule, and how a refusal is caught."""

import unittest
from typing import Callable, Tuple

from edfvd import CommandRefused, Refused, Task

CTL = Task("ctl", "high", period=10, low=2, high=6)
LOG = Task("log", "low", period=10, low=5)
# Loads 1/2, 1/5 and 3/5: EDF-VD with the scale 2/5, under which ctl has virtual deadlines 4 ticks after its releases.
CONTROL = [CTL, LOG]
# Loads 9/10, 1/5 and 3/5: the scale would be 2, so the set is not admitted.
TOO_MUCH = [CTL, Task("log", "low", 10, 9)]
# Two tasks that each need every tick: under plain EDF the second one's job is late.
TWICE = [Task("a", "low", 4, 4), Task("b", "low", 4, 4)]


class Case(unittest.TestCase):
    """A test that looks at what a call raises."""

    def refused(self, call: Callable[[], object]) -> Refused:
        """The exception of the library, which the call must raise."""
        with self.assertRaises(Refused) as caught:
            call()
        return caught.exception

    def command_refused(self, call: Callable[[], object]) -> Tuple[int, str]:
        """The exit status and the message of a command, which the call must raise."""
        with self.assertRaises(CommandRefused) as caught:
            call()
        return caught.exception.exit_status, str(caught.exception)
