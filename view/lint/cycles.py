"""Cycles of junctions in which a search goes round until all steps are used: no guard, no event and no destination ends them."""
from collections import defaultdict

import common                                # noqa: F401, which finds the folder checks
from chart_check import Junction, Send
from lint.dead import ANY, leading_to, surely_enabled


def goals_of(junction):
    """Where a search of the junction may lead, up to the first transition that is taken whenever it comes to it; with None where
    it may come to the end of the list, or be cut, as a condition action is that sends."""
    goals = []
    for transition in junction.transitions:
        goals.append(transition.destination)
        if any(isinstance(each, Send) for each in transition.condition):
            goals.append(None)
        if surely_enabled(transition, ANY):
            return goals
    return goals + [None]


def may_end(chart):
    """The junctions of which a search may end or come back: by a state, by an empty junction, or by the end of a list."""
    before, found = defaultdict(list), []
    for junction in chart.junctions:
        goals = goals_of(junction)
        if all(isinstance(goal, Junction) for goal in goals):
            for goal in goals:
                before[goal].append(junction)
        else:
            found.append(junction)
    return leading_to(found, before)


def endless(chart):
    """The junctions from which no search ends but by the fault steps, without those that only lead to a cycle of them."""
    ending = may_end(chart)
    left = [each for each in chart.junctions if each not in ending]
    comes_from = dict.fromkeys(left, 0)
    for junction in left:
        for goal in goals_of(junction):
            comes_from[goal] += 1
    waiting = [each for each in left if comes_from[each] == 0]
    while waiting:
        for goal in goals_of(waiting.pop()):
            comes_from[goal] -= 1
            if comes_from[goal] == 0:
                waiting.append(goal)
    return [each for each in left if comes_from[each]]
