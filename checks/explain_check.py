"""Compares the tools with model.py, which shares no line with them, on cases that are made by a seed: the answers of explain.py to
task files and traces of either version, right and wrong ones, the trace that follows a list of work, and random sets.

usage: explain_check.py [CASES [SEED]]
"""

import with_tools
import compare
import explain
import model
import reading
import rules
import walk
import workloads
from cases import Dice
from usage import ends, numbers


def scaled_case(dice):
    return compare.judge_case(dice, compare.with_scale)


# A trace with a record that is none.
def refused_trace_case(dice):
    return compare.refused_trace_case(dice)._replace(command='judge')


# A task file with a fault, with a scale of its own or without.
def refused_set_case(dice):
    case = compare.judge_case(dice, dice.one_of([compare.without_scale, compare.with_scale]))
    spoilt = compare.spoilt_scale if case.tree.get('version') == 2 else compare.spoilt_tree
    return case._replace(tree=spoilt(dice, case.tree))


MAKERS = [compare.judge_case, compare.judge_by_scale_case, scaled_case, refused_trace_case, refused_set_case]


# The status and the first line of explain.py.
def found(case):
    try:
        task_set = reading.set_of(case.tree)
        rule = explain.rule_for(task_set, case.words)
        trace = reading.trace_in(task_set.tasks, case.second.splitlines(keepends=True))
        status, told = explain.explain(task_set.tasks, rule, *trace)
        return status, told[0] + '\n'
    except reading.Refusal as refusal:
        return refusal.status, refusal.line + '\n'


# Whether the trace of some work is the model's.
def follows(case):
    task_set = reading.set_of(case.tree)
    work, end = model.read_work(task_set.tasks, case.second), min(int(case.words[0]), 60)
    runs = walk.follow(walk.Walk(task_set.tasks, rules.rule_of(task_set)), work, end)
    tasks, rule = task_set.tasks, model.admitted(model.read_set(case.tree))
    return model.lines(rules.trace_lines(tasks, runs)) == model.trace_text(tasks, model.follow(tasks, rule, work, end))


# A number of cases of work, and how many of their traces differ.
def followed(dice, count):
    cases = [case for case in (compare.run_case(dice) for _ in range(count)) if is_run(case)]
    return len(cases), sum(not follows(case) for case in cases)


# Whether neither the set nor the work of a case is refused.
def is_run(case):
    try:
        task_set = model.read_set(case.tree)
        return model.admitted(task_set) is not None and model.read_work(task_set.tasks, case.second) is not None
    except model.Refusal:
        return False


# How many of some random sets differ from the model's.
def sets_that_differ(dice, count):
    calls = [(dice.below(2 ** 40), 2 + dice.below(31)) for _ in range(count)]
    return sum(workloads.soak_tasks(seed, tasks) != model.make(seed, tasks, 0)[0] for seed, tasks in calls)


def main(words):
    count, seed = numbers(words, 200, 1)
    dice, failed, illegal = Dice(seed), 0, 0
    for number in range(count):
        case = MAKERS[number % len(MAKERS)](dice)
        wanted = model.answer('judge', case.tree, case.second, case.words)
        illegal += wanted[1].startswith('illegal')
        if found(case) != wanted:
            failed += 1
            print(f'case {number}: {found(case)}, and {wanted} by the model')
    traces, differ = followed(dice, count)
    failed += differ + sets_that_differ(dice, count)
    print(f'explain: {count} cases, {illegal} of them illegal, and {traces} traces of work, {failed} failed')
    return 1 if failed or not illegal or not traces else 0


if __name__ == '__main__':
    ends(main, __doc__)
