"""Runs of one chart together: which of its goals come in one of them at least."""
from collections import defaultdict

from measure.covered import VECTOR
from measure.pairs import has_pair
from measure.parts import KINDS, PAIR, PLURALS


def evaluations_of(noted):
    """The evaluations of each decision, by its number, in a fixed order."""
    found = defaultdict(list)
    for each in noted:
        if each[0] == VECTOR:
            found[each[1]].append(each[2:])
    return {number: sorted(each, key=str) for number, each in found.items()}


def is_met(goal, noted, evaluations):
    """Whether a goal comes in what was noted, whose evaluations are given too."""
    if goal.kind == PAIR:
        return has_pair(goal.key[2], evaluations.get(goal.key[1], []))
    return goal.key in noted


def met_goals(goals, noted):
    """The goals that come, in their order."""
    evaluations = evaluations_of(noted)
    return [goal for goal in goals if is_met(goal, noted, evaluations)]


def counts(goals, met):
    """For each kind that the chart has: how many come, and how many there are."""
    keys = {goal.key for goal in met}
    return {kind: (sum(1 for goal in goals if goal.kind == kind and goal.key in keys),
                   sum(1 for goal in goals if goal.kind == kind))
            for kind in KINDS if any(goal.kind == kind for goal in goals)}


def counts_text(found):
    """Counts in one line."""
    return ', '.join('%d of %d %s' % (came, all_, PLURALS[kind]) for kind, (came, all_) in found.items())
