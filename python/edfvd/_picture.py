"""The picture of a part of a trace in SVG, with a lane for each task.

An arrow up is a release, and an arrow down a deadline. Each tick that a job has is a box; a box ends with a bar where its job
is done or stopped. Overruns have a colour of their own, high mode is shaded, and a cross is a job that was dropped at its
release or discarded by an overrun. In a browser each box says its job.

This module imports nothing of the package, so that tools/svg.py draws with it where there is no library.
"""

from __future__ import annotations

from typing import Dict, Iterable, Iterator, List, NamedTuple, Optional, Sequence, Tuple

KEPT, DROPPED = RELEASES = ("kept", "dropped")
DONE, STOP, OVER, IDLE = "done", "stop", "over", "idle"


class Lane(NamedTuple):
    """A task, of which each has a lane."""

    name: str
    level: str
    period: int


class Job(NamedTuple):
    """The number of a task and the number of the job among its releases, both from 1."""

    task: int
    count: int  # type: ignore[assignment]


class Run(NamedTuple):
    """Equal rows one after the other: their kind, the tick of the first, their job (None of idle rows), how many they are."""

    kind: str
    tick: int
    job: Optional[Job]
    length: int = 1


def _job(run: Run) -> Job:
    """The job of a run that is not idle."""
    assert run.job is not None
    return run.job


def task_of(tasks: Sequence[Lane], job: Job) -> Lane:
    """The task of a job."""
    return tasks[job.task - 1]


def named(task: Lane, job: Job) -> str:
    """A job by its task's name."""
    return f"{task.name} {job.count}"


# In pixels.
WIDTH, LANE, BOX, TOP, RIGHT = 960, 56, 22, 12, 24
LETTER = 7.6  # the width of one
LEAST_TICK = 6  # of a narrower tick no line is drawn

STYLE = """
text { font: 13px sans-serif; fill: #222 }
.right { text-anchor: end } .middle { text-anchor: middle }
.mode { fill: #fbdcd6 } .grid { stroke: #ccc } .lane { stroke: #777 }
.high { fill: #4477aa } .low { fill: #88aa66 } .over { fill: #ee7733 } .ticks { stroke: #fff; stroke-width: 0.8 }
.done, .stop { stroke: #222; stroke-width: 2.4 } .stop { stroke: #c00 }
.release, .deadline { fill: none; stroke: #222; stroke-width: 1.4 } .deadline { stroke: #777 }
.dropped, .discarded { fill: none; stroke: #c00; stroke-width: 2 }
""".strip()

RELEASE, DEADLINE, DISCARDED, MODE = "release", "deadline", "discarded", "mode"
ARROW_UP, ARROW_DOWN, CROSS, BAR = "v-40m-4 7l4-7l4 7", "m0-40v40m-4-7l4 7l4-7", "m-5-5l10 10m0-10l-10 10", "v-22"


class Mark(NamedTuple):
    """Something of a trace: its kind, the boundaries where it begins and ends, the number of its task, what it says."""
    kind: str
    begin: int
    end: int
    task: int = 0
    words: str = ""


# ---- What a trace has ----

def release_marks(tasks: Sequence[Lane], run: Run) -> List[Mark]:
    """The marks of a release: the release and its deadline, or that it was dropped."""
    task = task_of(tasks, _job(run))
    name, deadline = named(task, _job(run)), run.tick + task.period
    if run.kind == DROPPED:
        return [Mark(RELEASE, run.tick, run.tick, _job(run).task, f"{name}, released at {run.tick}"),
                Mark(DROPPED, run.tick, run.tick, _job(run).task, f"{name}, dropped at {run.tick}")]
    return [Mark(RELEASE, run.tick, run.tick, _job(run).task, f"{name}, released at {run.tick}"),
            Mark(DEADLINE, deadline, deadline, _job(run).task, f"{name}, deadline {deadline}")]


def tick_marks(tasks: Sequence[Lane], run: Run) -> Iterator[Mark]:
    """The marks of ticks of a job: a box for them, and a bar where the job ends."""
    task, end = task_of(tasks, _job(run)), run.tick + run.length
    last = "" if run.length == 1 else f" to {end - 1}"
    words = f"{named(task, _job(run))}, tick {run.tick}{last}, {run.kind}"
    yield Mark(OVER if run.kind == OVER else task.level, run.tick, end, _job(run).task, words)
    if run.kind in (DONE, STOP):
        yield Mark(run.kind, end, end, _job(run).task, words)


def discards(tasks: Sequence[Lane], runs: Iterable[Run]) -> Iterator[Mark]:
    """A mark for each low job that an overrun discards: those that were kept and had not ended."""
    waiting: Dict[Job, int] = {}
    for run in runs:
        if run.kind == KEPT and task_of(tasks, _job(run)).level == "low":
            waiting[_job(run)] = run.tick
        elif run.kind in (DONE, STOP):
            waiting.pop(_job(run), None)
        elif run.kind == OVER:
            at = run.tick + 1
            for job in waiting:
                yield Mark(DISCARDED, at, at, job.task, f"{named(task_of(tasks, job), job)}, discarded at {at}")
            waiting = {}


def high_modes(runs: Iterable[Run], end: int) -> Iterator[Mark]:
    """A mark for each stretch of ticks in high mode: from after an overrun to after an idle tick, or to the end."""
    begin = None
    for run in runs:
        if run.kind == OVER and begin is None:
            begin = run.tick + 1
        if run.kind == IDLE and begin is not None:
            yield Mark(MODE, begin, run.tick + 1, 0, f"high mode, ticks {begin} to {run.tick}")
            begin = None
    if begin is not None and begin < end:
        yield Mark(MODE, begin, end, 0, f"high mode, ticks {begin} to {end - 1}")


def ticks_of(runs: Sequence[Run]) -> int:
    """How many ticks a trace has, idle ones among them."""
    last = runs[-1] if runs else None
    return 0 if last is None else last.tick + (0 if last.kind in RELEASES else last.length)


def marks(tasks: Sequence[Lane], runs: Sequence[Run]) -> Iterator[Mark]:
    """All marks of a trace, those first that others are drawn upon."""
    yield from high_modes(runs, ticks_of(runs))
    for run in runs:
        if run.kind not in (*RELEASES, IDLE):
            yield from tick_marks(tasks, run)
    for run in runs:
        if run.kind in RELEASES:
            yield from release_marks(tasks, run)
    yield from discards(tasks, runs)


# ---- The part of it that is drawn ----

class Window(NamedTuple):
    """The ticks from `begin` up to `end`, drawn from the pixel `left` on, over lanes down to the pixel `bottom`."""
    begin: int
    end: int
    left: float
    bottom: int

    def tick_width(self) -> float:
        return (WIDTH - RIGHT - self.left) / (self.end - self.begin)

    def x(self, boundary: int) -> float:
        """The pixel of a boundary, which is moved to the nearer edge where it lies outside."""
        return self.left + (min(max(boundary, self.begin), self.end) - self.begin) * self.tick_width()

    def shows(self, mark: Mark) -> bool:
        if mark.begin == mark.end:
            return self.begin <= mark.begin <= self.end
        return mark.begin < self.end and mark.end > self.begin


def shown(pixels: float) -> str:
    return f"{pixels:.1f}".removesuffix(".0")


def titled(element: str, words: str) -> str:
    """An element that says these words where the mouse rests on it."""
    name = element.split(" ", 1)[0]
    return f"<{element}><title>{words}</title></{name}>"


def box(window: Window, mark: Mark) -> Iterator[str]:
    """The ticks of a mark: of high mode over all lanes, and of a job in its lane."""
    high = (TOP, window.bottom - TOP) if mark.kind == MODE else (TOP + LANE * mark.task - BOX, BOX)
    left, right = window.x(mark.begin), window.x(mark.end)
    place = f'x="{shown(left)}" y="{high[0]}" width="{shown(max(right - left, 0.5))}" height="{high[1]}"'
    yield titled(f'rect class="{mark.kind}" {place}', mark.words)
    if mark.kind != MODE and window.tick_width() >= LEAST_TICK:
        inner = range(max(mark.begin, window.begin) + 1, min(mark.end, window.end))
        lines = "".join(f"M{shown(window.x(tick))} {high[0]}v{BOX}" for tick in inner)
        yield from [f'<path class="ticks" d="{lines}"/>'] if lines else []


# How each kind of mark without a length is drawn: from where in its lane, in pixels right and up, and along which path.
PATHS: Dict[str, Tuple[float, float, str]] = {
    RELEASE: (1.5, 0, ARROW_UP), DEADLINE: (-1.5, 0, ARROW_DOWN), DONE: (-1.2, 0, BAR), STOP: (-1.2, 0, BAR),
         DROPPED: (0, 11, CROSS), DISCARDED: (0, 11, CROSS)}


def line(window: Window, mark: Mark) -> Iterator[str]:
    right, up, path = PATHS[mark.kind]
    place = f"M{shown(window.x(mark.begin) + right)} {TOP + LANE * mark.task - up}"
    yield titled(f'path class="{mark.kind}" d="{place}{path}"', mark.words)


def step_of(span: int) -> int:
    """How many ticks lie between two numbers of the axis: 1, 2 or 5 times a power of ten, at most 16 numbers."""
    sizes = (digit * int(10 ** power) for power in range(9) for digit in (1, 2, 5))
    return next(size for size in sizes if span <= 16 * size)


def axis(window: Window) -> Iterator[str]:
    """The numbers of some boundaries, with a line through all lanes for each."""
    step = step_of(window.end - window.begin)
    for boundary in range(-(-window.begin // step) * step, window.end + 1, step):
        x = shown(window.x(boundary))
        yield f'<path class="grid" d="M{x} {TOP}V{window.bottom + 4}"/>'
        yield f'<text class="middle" x="{x}" y="{window.bottom + 18}">{boundary}</text>'


def lanes(tasks: Sequence[Lane], window: Window) -> Iterator[str]:
    """The name, the level and the ground line of each task."""
    for number, task in enumerate(tasks, 1):
        ground = TOP + LANE * number
        yield f'<path class="lane" d="M{shown(window.left)} {ground}H{WIDTH - RIGHT}"/>'
        yield f'<text class="right" x="{shown(window.left - 10)}" y="{ground - 8}">{task.name} ({task.level})</text>'


LEGEND = [
    (RELEASE, "release"), (DEADLINE, "deadline"), ("high", "tick of a high task"), ("low", "tick of a low task"),
    (DONE, "job done"), (STOP, "job stopped"), (OVER, "overrun"), (MODE, "high mode"), (DROPPED, "dropped or discarded")]


def legend(top: int) -> Iterator[str]:
    """What each sign means, five to a row."""
    for number, (kind, words) in enumerate(LEGEND):
        x, ground = 30 + number % 5 * 186, top + 26 * (number // 5)
        if kind in PATHS:
            yield f'<path class="{kind}" d="M{x + 8} {ground - PATHS[kind][1] + 5}{PATHS[kind][2].replace("40", "18")}"/>'
        else:
            yield f'<rect class="{kind}" x="{x}" y="{ground - 11}" width="18" height="16"/>'
        yield f'<text x="{x + 26}" y="{ground + 2}">{words}</text>'


def picture(tasks: Sequence[Lane], runs: Sequence[Run], begin: int, end: int) -> Iterator[str]:
    """The lines of the picture of the ticks from `begin` up to `end`."""
    left = 24 + LETTER * max(len(f"{task.name} ({task.level})") for task in tasks)
    window = Window(begin, end, left, TOP + LANE * len(tasks))
    high = window.bottom + 98
    yield f'<svg xmlns="http://www.w3.org/2000/svg" viewBox="0 0 {WIDTH} {high}" width="{WIDTH}" height="{high}" role="img">'
    yield f"<title>Ticks {begin} to {end - 1} of a trace</title>"
    yield f"<style>\n{STYLE}\n</style>"
    yield f'<rect width="{WIDTH}" height="{high}" fill="#fff"/>'
    seen = [mark for mark in marks(tasks, runs) if window.shows(mark)]
    for mark in seen:
        yield from box(window, mark) if mark.kind == MODE else []
    yield from axis(window)
    yield from lanes(tasks, window)
    for mark in seen:
        yield from [] if mark.kind == MODE else (box if mark.begin < mark.end else line)(window, mark)
    yield from legend(window.bottom + 50)
    yield "</svg>"
