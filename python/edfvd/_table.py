"""What may change in a set, and by how much, as a table."""

from __future__ import annotations

from fractions import Fraction
from typing import List, Optional, Sequence

from ._calls import check
from ._sensitivity import scales, sensitivity, speed
from ._values import Rule, Task


def _shown(fraction: Fraction) -> str:
    return f"{fraction.numerator}/{fraction.denominator}"


def _column(values: Sequence[Optional[object]], heading: str, left: bool) -> List[str]:
    words = [heading, *("none" if value is None else str(value) for value in values)]
    width = max(map(len, words))
    return [word.ljust(width) if left else word.rjust(width) for word in words]


def table(tasks: Sequence[Task], own: Optional[Fraction] = None) -> str:
    """The text for a set, which may have a scale of its own: the rule of the published test, the scales that hold, the least
    speed, and the greatest budgets."""
    rule, held, millionths = check(tasks), scales(tasks), speed(tasks) * 1_000_000
    how = "not admitted"
    if rule.rule == Rule.PLAIN:
        how = "plain EDF"
    elif rule.scale is not None:
        how = f"EDF-VD with the scale {_shown(rule.scale)}"
    between = "none" if held is None else f"{_shown(held.least)} to {_shown(held.greatest)}"
    whole, part = divmod(int(millionths), 1_000_000)
    lines = [f"published test: {how}", f"scales that hold: {between}"]
    if own is not None:
        does = "holds" if held is not None and own in held else "does not hold"
        lines.append(f"the set's own scale: {_shown(own)}, which {does}")
    lines += [f"least speed: {whole}.{part:06}", ""]
    greatest = sensitivity(tasks)
    columns = [
        _column([task.name for task in tasks], "task", True),
        _column([task.level for task in tasks], "level", True),
        _column([task.period for task in tasks], "period", False),
        _column([task.low for task in tasks], "low", False),
        _column([most.low for most in greatest], "at most", False),
        _column(["-" if task.level == "low" else task.high for task in tasks], "high", False),
        _column(["-" if task.level == "low" else most.high for task, most in zip(tasks, greatest)], "at most", False),
    ]
    lines += ["  ".join(row).rstrip() for row in zip(*columns)]
    return "\n".join(lines) + "\n"
