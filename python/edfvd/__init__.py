"""EDF-VD in Python: the proved library of edfvd, called in this process.

>>> control = [Task("ctl", "high", period=10, low=2, high=6), Task("log", "low", period=10, low=5)]
>>> check(control).scale
Fraction(2, 5)
>>> stretch(control)
149

========================================  ==========================================================================================
call                                      purpose
========================================  ==========================================================================================
check, check_many                         the published test of a set, or of many
stretch, sensitivity, scales, speed       how far the budgets, the scale and the speed of a set may change
partition, demand, accept                 several processors; plain EDF with deadlines below periods; random sets of the program's kind
run, Scheduler                            a schedule from a list of jobs, or event by event
judge, Monitor                            whether rows follow the rules and which job is late: of a whole trace, or row by row
Trace, chart, report, svg                 rows in runs; rows as letters, as counts of each task, and as a picture
read_tasks, read_work, read_trace         files of the program, read
write_tasks, write_trace                  files of the program, written
ask                                       a command of the program, over bytes in memory
laboratory                                random sets, tests to compare, and the curves of papers
========================================  ==========================================================================================

Time is counted in ticks, and task sets, jobs and rows are plain values. A call that the library refuses raises
:class:`Refused`, and one that a command of the program refuses raises :class:`CommandRefused`. Before any call, a value of a
wrong type raises ``TypeError``, and one that cannot be meant raises ``ValueError``: a number out of range, a name that files do
not allow, or a high task without its high budget.

Read on with ``help(edfvd.judge)`` and ``help(edfvd.Event)``.

In the repository, docs/C-AND-PYTHON.md says what is proved, docs/RULES.md states the rules that rows follow, and docs/LABORATORY.md has
a curve of acceptance ratios and a simulator whose rows are judged.

``edfvd.laboratory`` generates random sets, has tests to compare, and draws the curves of papers; ``help(edfvd.laboratory)`` is a page
long.
"""

from . import laboratory
from ._calls import accept, check, demand, judge, partition, stretch
from ._commands import ask, run
from ._errors import CommandRefused, EdfvdError, Refused, Status
from ._files import TaskFile, chart, read_tasks, read_trace, read_work, report, svg, write_tasks, write_trace
from ._many import Tests, check_many
from ._monitor import Monitor
from ._runs import Next, PendingJob
from ._scheduler import Scheduler
from ._sensitivity import GreatestBudgets, ScaleRange, scales, sensitivity, speed
from ._trace import Trace
from ._values import (
    Answer, Demand, DemandVerdict, Event, Job, Late, Look, Row, Rule, Task, Test, Unfit, Verdict, Watch, Why,
)

__version__ = "1.0.0"

__all__ = [
    "Answer", "CommandRefused", "Demand", "DemandVerdict", "EdfvdError", "Event", "GreatestBudgets", "Job", "Late", "Look",
    "Monitor", "Next", "PendingJob", "Refused", "Row", "Rule", "ScaleRange", "Scheduler", "Status", "Task", "TaskFile", "Test",
    "Tests", "Trace", "Unfit", "Verdict", "Watch", "Why", "accept", "ask", "chart", "check", "check_many", "demand", "judge",
    "laboratory", "partition", "read_tasks", "read_trace", "read_work", "report", "run", "scales", "sensitivity", "speed",
    "stretch", "svg", "write_tasks", "write_trace",
]
