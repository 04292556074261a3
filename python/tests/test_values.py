"""Values of wrong types and values that cannot be meant: which exception comes, and what it says."""

import copy
import dataclasses
import enum
import pickle
import random
import re
import unittest
from fractions import Fraction
from typing import Any, Callable, List, Tuple

import edfvd
from edfvd import Event, Status, _library, _values, laboratory
from support import CONTROL, CTL, Case

# The package without its types: wrong ones are what is tried here.
untyped: Any = edfvd
Demand, Job, Row, Task = untyped.Demand, untyped.Job, untyped.Row, untyped.Task
Monitor, Scheduler = untyped.Monitor, untyped.Scheduler
accept, ask, check, demand = untyped.accept, untyped.ask, untyped.check, untyped.demand
judge, partition, run, stretch = untyped.judge, untyped.partition, untyped.run, untyped.stretch

# Each call that takes a task set, as one of it alone.
OF_A_SET: List[Tuple[str, Callable[[Any], object]]] = [
    ("check", check), ("stretch", stretch), ("partition", lambda tasks: partition(tasks, 2)),
    ("judge", lambda tasks: judge(tasks, [])), ("run", lambda tasks: run(tasks, [], 4)),
    ("Scheduler", lambda tasks: Scheduler(tasks, 10)), ("endless", Scheduler.endless), ("Monitor", Monitor),
]


class Numeric(int):
    """A number that says it is in every range."""

    def __le__(self, other: object) -> bool:
        return True

    def __ge__(self, other: object) -> bool:
        return True


class Index:
    """What can stand for a whole number, as numpy's integers can."""

    def __init__(self, value: int) -> None:
        self.value = value

    def __index__(self) -> int:
        return self.value


class Named(str, enum.Enum):
    CTL = "ctl"
    LOG = "log"


class Sets(Case):
    def raises(self, kind: type, words: str, tasks: Any) -> None:
        """Each call raises this for the tasks, with these words in its message."""
        for name, call in OF_A_SET:
            with self.subTest(call=name, words=words):
                with self.assertRaises((TypeError, ValueError)) as caught:
                    call(tasks)
                self.assertIs(type(caught.exception), kind)
                self.assertIn(words, str(caught.exception))

    def test_a_high_task_without_its_high_budget(self) -> None:
        """Taken as a task whose high budget is its low one, this set would be admitted as plain EDF."""
        self.raises(ValueError, "task ctl: a high task needs its high budget", [Task("ctl", "high", 10, 2)])
        self.raises(ValueError, "task b: a high task needs its high budget", [CTL, Task("b", "high", 10, 2, None)])

    def test_a_low_task_with_its_budget_twice(self) -> None:
        self.assertEqual(check([CTL, Task("log", "low", 10, 5, 5)]), check(CONTROL))
        self.assertIs(self.refused(lambda: check([Task("log", "low", 10, 5, 6)])).status, Status.BUDGET_ORDER)
        self.assertIs(self.refused(lambda: check([Task("log", "low", 10, 5, 4)])).status, Status.BUDGET_ORDER)

    def test_names(self) -> None:
        for name in ("", "n" * 33, "n" * 10**6, "a b", "a,b", 'a"', "a\n", "a\0", "a.b", "\u00e9", "\ud800"):
            self.raises(ValueError, "is no name", [Task(name, "low", 4, 1)])
        for wrong in (None, 3, b"a", ["a"]):
            self.raises(TypeError, "a task's name must be a str", [Task(wrong, "low", 4, 1)])
        self.raises(ValueError, "two tasks have the name ctl", [CTL, Task("log", "low", 10, 1), CTL])

    def test_levels(self) -> None:
        for level in ("", "middle", "High", "low\n"):
            self.raises(ValueError, f"task a: the level is {level!r}, and not 'low' or 'high'", [Task("a", level, 4, 1)])
        for wrong in (None, 1, b"low", ["low"], memoryview(b"abcd").cast("I")):
            self.raises(TypeError, "task a: the level must be a str", [Task("a", wrong, 4, 1)])

    def test_numbers(self) -> None:
        fields: List[Tuple[str, Callable[[Any], Any]]] = [
            ("period", lambda wrong: Task("a", "high", wrong, 1, 1)), ("low budget", lambda wrong: Task("a", "high", 9, wrong, 1)),
            ("high budget", lambda wrong: Task("a", "high", 9, 1, wrong)),
        ]
        for field, task in fields:
            for wrong in (-1, 2**32, 2**64, 10**30, -(10**5000), Numeric(2**32 + 1), Index(-1)):
                self.raises(ValueError, f"task a: the {field} is ", [task(wrong)])
            for other in (1.0, True, "1", Fraction(1), [1], float("nan")):
                self.raises(TypeError, f"task a: the {field} must be a whole number", [task(other)])

    def test_known_names_take_bounded_memory(self) -> None:
        """Names that were seen once are forgotten when there are more than 10,000 of them, and stay names."""
        tasks = [Task(f"n{place}", "low", 10, 1) for place in range(20_005)]
        self.assertLessEqual(len(_values._known), 10_001)
        self.assertEqual(check(tasks[:2]).low_low, Fraction(1, 5))

    def test_what_is_no_list_of_tasks(self) -> None:
        self.raises(TypeError, "tasks: 'NoneType' object is not iterable", None)
        self.raises(TypeError, "tasks: 'Task' object is not iterable", CTL)
        self.raises(TypeError, "a task set has Task objects, not str", "ctl")
        self.raises(TypeError, "a task set has Task objects, not tuple", [("ctl", "high", 10, 2, 6)])
        self.raises(TypeError, "is no list of values", memoryview((_library.CTask * 2)()))
        self.raises(TypeError, "a task set has Task objects, not Demand", [Demand("a", 4, 2, 1)])

    def test_numbers_of_numpy(self) -> None:
        """Numbers and arrays as numpy has them are taken, except those with a fraction and those that are true or false."""
        try:
            import numpy
        except ImportError:
            self.skipTest("there is no numpy")
        kinds: List[Any] = [numpy.int8, numpy.uint8, numpy.int32, numpy.uint32, numpy.int64, numpy.uint64]
        for kind in kinds:
            tasks = [Task("ctl", "high", kind(10), kind(2), kind(6)), Task("log", "low", kind(10), kind(5))]
            self.assertEqual(check(tasks), check(CONTROL))
            self.assertEqual(partition(CONTROL, kind(2)), partition(CONTROL, 2))
            self.assertTrue(judge(CONTROL, [Row(kind(1), "ctl", kind(1))]).legal)
        for wrong in (numpy.float64(10), numpy.bool_(True), numpy.array([10, 20]), numpy.nan):
            self.raises(TypeError, "task a: the period must be a whole number", [Task("a", "low", wrong, 1)])
        self.raises(ValueError, "task a: the period is -1", [Task("a", "low", numpy.int64(-1), 1)])
        self.raises(TypeError, "a task set has Task objects", numpy.zeros(3))

    def test_a_task_without_its_fields(self) -> None:
        """What was made without ``__init__`` has no fields, and is named as any other wrong type."""
        self.raises(TypeError, "a Task has no name", [Task.__new__(Task)])
        cases: List[Tuple[Any, Callable[[Any], object]]] = [
            (Row, lambda one: judge(CONTROL, [one])), (Row, lambda one: Monitor(CONTROL).observe(one)),
            (Row, lambda one: untyped.Trace.of([one, one])), (Demand, lambda one: demand([one])),
        ]
        for wrong, call in cases:
            with self.assertRaisesRegex(TypeError, f"a {wrong.__name__} has no "):
                call(wrong.__new__(wrong))

    def test_names_that_were_right_before(self) -> None:
        """Names that were right in one set are looked at again in the next, where a value of another type may be equal to one."""
        class Like(str):
            pass

        self.assertEqual(check([Task("x9", "low", 4, 1)]), check([Task(Like("x9"), "low", 4, 1)]))
        self.assertIs(type(partition([Task(Like("x9"), "low", 4, 1)], 1)[0][0]), str)
        for place in range(300):
            many = [Task(f"n{place}_{number}", "low", 1000, 1) for number in range(100)]
            self.assertIsNotNone(check(many).rule)
        self.raises(ValueError, "is no name", [Task("x9", "low", 4, 1), Task("x 9", "low", 4, 1)])
        self.raises(ValueError, "two tasks have the name x9", [Task("x9", "low", 4, 1), Task("x9", "low", 4, 1)])

    def test_random_sets(self) -> None:
        """Random sets have the loads that fractions give, whether their tasks are new, or were copied, pickled or in a call before."""
        rng = random.Random(3)
        ways: List[Callable[[Any], Any]] = [
            lambda task: task, copy.copy, copy.deepcopy, lambda task: pickle.loads(pickle.dumps(task)),
            lambda task: dataclasses.replace(task, low=1), lambda task: Task(*dataclasses.astuple(task)),
        ]
        taken = [Task(f"x{place}", "low", 1000, 1) for place in range(20)]
        for _ in range(300):
            new = [Task(f"y{place}", rng.choice(["low", "high"]), rng.choice([10, 40, 1000]), rng.randint(1, 9), 9) for place in range(5)]
            new = [dataclasses.replace(task, high=None) if task.level == "low" else task for task in new]
            tasks = [rng.choice(ways)(task) for task in rng.sample(new, rng.randint(0, 5)) + rng.sample(taken, rng.randint(1, 9))]
            rng.shuffle(tasks)
            test = check(tasks)
            self.assertEqual((test.low_low, test.high_low, test.high_high), laboratory.loads(tasks))
            self.assertEqual(sorted(sum(partition(tasks, 16), [])), sorted(task.name for task in tasks))
            taken = rng.sample(taken, 15) + [dataclasses.replace(task, name=f"x{rng.randrange(10**9)}") for task in new]

    def test_what_was_right_before(self) -> None:
        """Tasks that were in a set are looked at again in the next: two names that are equal, other fields, a class of your own."""
        class OfMyOwn(edfvd.Task):
            pass

        check(CONTROL)
        self.raises(ValueError, "two tasks have the name ctl", [CTL, CTL])
        self.raises(TypeError, "a task set has Task objects, not str", [CTL, "log"])
        self.raises(ValueError, "task log: the period is -1", [CTL, dataclasses.replace(CONTROL[1], period=-1)])
        own = OfMyOwn("ctl", "high", 10, 2, 6)
        self.assertEqual(check([own]), check([CTL]))
        own.__dict__["period"] = 20
        self.assertEqual(check([own]), check([Task("ctl", "high", 20, 2, 6)]))
        without = Task.__new__(Task)
        without.__dict__.update(name="ctl", level="high", period=20, low=2, high=6)
        self.assertEqual(check([without]), check([own]))
        self.assertEqual(pickle.dumps(CTL), pickle.dumps(Task("ctl", "high", 10, 2, 6)))

    def test_what_can_stand_for_a_value(self) -> None:
        tasks = [Task(Named.CTL, "high", Index(10), 2, Numeric(6)), Task(Named.LOG, "low", 10, Index(5))]
        for given in (tasks, tuple(tasks), iter(tasks), {task: None for task in CONTROL}):
            self.assertEqual(check(given), check(CONTROL))
        names = partition(tasks, 1)[0]
        self.assertEqual((names, [type(name) for name in names]), (["ctl", "log"], [str, str]))
        self.assertEqual(run(tasks, [Job(Named.LOG, Index(0), 1)], 1), run(CONTROL, [Job("log", 0, 1)], 1))


class Calls(Case):
    def test_wrong_types(self) -> None:
        calls: List[Callable[[], object]] = [
            lambda: partition(CONTROL, 2.0), lambda: partition(CONTROL, True), lambda: partition(CONTROL, "2"),
            lambda: accept(1.0, 50, 8), lambda: accept(1, None, 8), lambda: accept(1, 50, "8"),
            lambda: demand(memoryview((_library.CTask * 2)())), lambda: run(CONTROL, memoryview((_library.CTask * 2)()), 4),
            lambda: ask(memoryview((_library.CTask * 2)())), lambda: demand(5), lambda: demand([CTL]), lambda: demand([Demand("a", 4, 2, 1.0)]),
            lambda: demand([Demand("a", 4, "2", 1)]), lambda: demand([Demand("a", None, 2, 1)]),
            lambda: demand([Demand(5, 4, 2, 1)]),
            lambda: judge(CONTROL, 5), lambda: judge(CONTROL, ["idle"]), lambda: judge(CONTROL, [(Event.IDLE, None, 0)]),
            lambda: judge(CONTROL, [Row("kept", "ctl", 1)]), lambda: judge(CONTROL, [Row(True)]),
            lambda: judge(CONTROL, [Row(9.0)]), lambda: judge(CONTROL, [Row(None)]),
            lambda: judge(CONTROL, [Row(Event.KEPT, 1, 1)]), lambda: judge(CONTROL, [Row(Event.KEPT, ["ctl"], 1)]),
            lambda: judge(CONTROL, [Row(Event.KEPT, "ctl", "1")]), lambda: judge(CONTROL, [Row(Event.KEPT, "ctl", 1.0)]),
            lambda: judge(CONTROL, [Row(Event.KEPT, "ctl", True)]),
            lambda: judge(CONTROL, [], 0.4), lambda: judge(CONTROL, [], "2/5"), lambda: judge(CONTROL, [], True),
            lambda: judge(CONTROL, [], (2, 5)),
            lambda: run(CONTROL, 5, 4), lambda: run(CONTROL, [("ctl", 0, 1)], 4), lambda: run(CONTROL, [Job("ctl", 0.0, 1)], 4),
            lambda: run(CONTROL, [Job("ctl", 0, None)], 4), lambda: run(CONTROL, [Job(None, 0, 1)], 4),
            lambda: run(CONTROL, [], "4"), lambda: run(CONTROL, [], 4.0),
            lambda: ask("check 1"), lambda: ask(b"check"), lambda: ask(None), lambda: ask(["check", 1]), lambda: ask([b"check"]),
            lambda: Scheduler(CONTROL, 1.0), lambda: Scheduler(CONTROL, "10"), lambda: Monitor(CONTROL, 0.4),
        ]
        for place, call in enumerate(calls):
            with self.subTest(place=place, values=call.__code__.co_consts), self.assertRaises(TypeError):
                call()

    def test_wrong_values(self) -> None:
        calls: List[Callable[[], object]] = [
            lambda: partition(CONTROL, -1), lambda: partition(CONTROL, 2**32 + 1),
            lambda: accept(-1, 50, 8), lambda: accept(2**64, 50, 8), lambda: accept(1, 2**32, 8), lambda: accept(1, 50, 2**32 + 8),
            lambda: demand([Demand("a", 2**32 + 4, 2, 1)]), lambda: demand([Demand("a", 4, -1, 1)]),
            lambda: demand([Demand("a", 4, 2, 2**32)]), lambda: demand([Demand("a", 4, 2**32 + 2, 1)]),
            lambda: demand([Demand("a", 4, 2, 1), Demand("a", 4, 2, 1)]),
            lambda: demand([Demand("a b", 4, 2, 1)]), lambda: demand([Demand("a\n", 4, 2, 3)]),
            lambda: judge(CONTROL, [Row(Event.KEPT, "no", 1)]), lambda: judge(CONTROL, [Row(Event.KEPT, "ctl", 2**32 + 1)]),
            lambda: judge(CONTROL, [Row(Event.KEPT, "ctl", -1)]),
            lambda: judge(CONTROL, [], Fraction(0)), lambda: judge(CONTROL, [], Fraction(-2, 5)),
            lambda: judge(CONTROL, [], Fraction(3, 2)), lambda: judge(CONTROL, [], Fraction(1, 2**64)),
            lambda: Monitor(CONTROL, Fraction(0)), lambda: Monitor(CONTROL, Fraction(6, 5)),
            lambda: run(CONTROL, [Job("ctl,0,1\nlog", 0, 1)], 4), lambda: run(CONTROL, [Job("", 0, 1)], 4),
            lambda: run(CONTROL, [Job("ctl", -1, 1)], 4), lambda: run(CONTROL, [Job("ctl", 0, 2**64)], 4),
            lambda: run(CONTROL, [], -1), lambda: run(CONTROL, [], 2**64),
            lambda: ask(["check\0", "1"]), lambda: ask(["\ud800"]),
            lambda: Scheduler(CONTROL, -1), lambda: Scheduler(CONTROL, 2**32),
        ]
        for place, call in enumerate(calls):
            with self.subTest(place=place, values=call.__code__.co_consts), self.assertRaises(ValueError):
                call()

    def test_an_event_that_is_no_event(self) -> None:
        for wrong in ("KEPT", "kept", 1.0, None, True, (1,)):
            for call in (lambda row: judge(CONTROL, [row]), Monitor(CONTROL).observe):
                with self.assertRaises(TypeError) as caught:
                    call(Row(wrong, "ctl", 1))
                words = f"a row's event must be an Event, such as Event.KEPT, not {type(wrong).__name__}"
                self.assertEqual(str(caught.exception), words)

    def test_names_of_numbers(self) -> None:
        """A member is shown by its name in each version of Python, and is a number all the same."""
        for member, name, number in [
            (untyped.Why.WRONG_HOW, "WRONG_HOW", 6), (untyped.Rule.PLAIN, "PLAIN", 1), (Event.IDLE, "IDLE", 9), (Status.BUSY, "BUSY", 42),
        ]:
            self.assertEqual([str(member), f"{member}", "%s" % member, f"{member:>10}"], [name, name, name, name.rjust(10)])
            self.assertEqual([int(member), f"{member:d}", f"{member:03x}", "%d" % member], [number, str(number), f"{number:03x}", str(number)])
            self.assertEqual(repr(member), f"<{type(member).__name__}.{name}: {number}>")

    def test_each_member_is_explained(self) -> None:
        for kind in (untyped.Why, untyped.Rule, Event):
            found = re.findall("^ *- ``([A-Z_]+)``: ", kind.__doc__ or "", flags=re.M)
            self.assertEqual(found, [member.name for member in kind])

    def test_the_calls_are_listed(self) -> None:
        """The table at the head of the package has each call and class that is not a value, and laboratory."""
        table = (edfvd.__doc__ or "").split("=" * 90)[2]
        listed = re.findall("[A-Za-z_]+", " ".join(line[:42] for line in table.splitlines()))
        functions = [name for name in edfvd.__all__ if name[0].islower()]
        self.assertEqual(sorted(listed), sorted([*functions, "Monitor", "Scheduler", "Trace"]))

    def test_events_as_numbers(self) -> None:
        """The number of an event stands for it; one that would wrap to it in 32 bits does not."""
        for number in (2**32 + 1, 9 - 2**32, -1, 0, 10, 2**64 + 1, 10**5000):
            with self.subTest(number=str(number)[:30] if number < 2**99 else "large"):
                with self.assertRaisesRegex(ValueError, "a row's event is .*, which is no event: those are 1 to 9"):
                    judge(CONTROL, [Row(number, "ctl", 1)])
                with Monitor(CONTROL) as monitor, self.assertRaises(ValueError):
                    monitor.observe(Row(number, "ctl", 1))
        self.assertTrue(judge(CONTROL, [Row(1, "ctl", 1)]).legal)

    def test_each_event_of_a_row(self) -> None:
        """The seven events that a trace has are taken, and the two that only a scheduler answers are refused."""
        for event in Event:
            rows = [Row(event) if event is Event.IDLE else Row(event, "ctl", 1)]
            for given in (rows, [Row(int(event), rows[0].task, rows[0].count)]):
                with self.subTest(event=event, kind=type(given[0].event)):
                    if event in (Event.HELD, Event.GIVEN):
                        self.assertIs(self.refused(lambda: judge(CONTROL, given)).status, Status.ARGUMENT)
                    else:
                        self.assertEqual(judge(CONTROL, given).legal, event in (Event.KEPT, Event.IDLE))

    def test_a_refusal_of_no_status(self) -> None:
        for wrong in ("EMPTY", 0, 99, None, -1, 2**64):
            with self.subTest(wrong=wrong), self.assertRaises(ValueError):
                untyped.Refused(wrong)
        self.assertIs(untyped.Refused(1).status, Status.EMPTY)

    def test_a_task_of_a_row_that_is_no_name(self) -> None:
        for wrong in (["ctl"], 1, b"ctl", {}, Index(1)):
            rows = [Row(Event.KEPT, wrong, 1)]
            calls: List[Callable[[], object]] = [
                lambda: judge(CONTROL, rows), lambda: Monitor(CONTROL).observe(rows[0]), lambda: Monitor(CONTROL).observe_all(rows),
            ]
            for call in calls:
                with self.subTest(wrong=wrong), self.assertRaisesRegex(TypeError, "^a task's name must be a str, not "):
                    call()

    def test_a_scale_that_is_a_whole_number(self) -> None:
        self.assertTrue(judge(CONTROL, [], 1).legal)
        with self.assertRaises(ValueError):
            judge(CONTROL, [], 0)

    def test_bytes_of_files(self) -> None:
        """What is no bytes is refused: a number would be that many zeros, and a view of words counts these."""
        text = b"task = [{name='a', level='low', period=4, low=2}]   "
        self.assertEqual((len(text), ask(["check", "1"], text)[0]), (52, 0))
        for wrong in (memoryview(text).cast("I"), memoryview(text), 5, None, "task", [116], object()):
            with self.subTest(wrong=type(wrong)):
                for files in ((wrong,), (b"", wrong)):
                    with self.assertRaises(TypeError):
                        ask(["check", "1"], *files)


class Handles(Case):
    def test_scheduler(self) -> None:
        with Scheduler(CONTROL, 10) as scheduler:
            for wrong, kind in [("no", ValueError), ("", ValueError), (1, TypeError), (None, TypeError), (["ctl"], TypeError)]:
                with self.subTest(wrong=wrong):
                    self.assertRaises(kind, scheduler.release, wrong)
                    self.assertRaises(kind, scheduler.grant, wrong)
                    self.assertRaises(kind, scheduler.outcome, wrong, 1, done=True)
            scheduler.release("ctl")
            scheduler.grant("ctl")
            for wrong in ("no", 1, 0, None, []):
                with self.subTest(done=wrong), self.assertRaises(TypeError):
                    scheduler.outcome("ctl", 1, done=wrong)
            for wrong, kind in [("1", TypeError), (1.0, TypeError), (-1, ValueError), (2**32 + 1, ValueError)]:
                with self.subTest(count=wrong), self.assertRaises(kind):
                    scheduler.outcome("ctl", wrong, done=True)
            for wrong, kind in [("0", TypeError), (None, TypeError), (-1, ValueError), (2**64, ValueError)]:
                with self.subTest(since=wrong):
                    for rows in (scheduler.rows, scheduler.runs, scheduler.row_array):
                        self.assertRaises(kind, rows, wrong)
            self.assertEqual((scheduler.look().out, scheduler.look().rows), (("ctl", 1), 1))

    def test_monitor(self) -> None:
        with Monitor(CONTROL) as monitor:
            for call in (monitor.observe, monitor.would_fit):
                for wrong, kind in [("2", TypeError), (1.0, TypeError), (-1, ValueError), (2**32 + 1, ValueError)]:
                    with self.subTest(times=wrong), self.assertRaises(kind):
                        call(Row(Event.IDLE), wrong)
                for wrong in (None, "idle", Event.IDLE, (Event.IDLE, None, 0)):
                    with self.subTest(row=wrong), self.assertRaises(TypeError):
                        call(wrong)
                with self.assertRaises(ValueError):
                    call(Row(Event.KEPT, "no", 1))
            for wrong, kind in [("0", TypeError), (-1, ValueError), (2**64, ValueError)]:
                with self.subTest(since=wrong), self.assertRaises(kind):
                    monitor.late(wrong)
            self.assertEqual(monitor.look().rows, 0)


if __name__ == "__main__":
    unittest.main()
