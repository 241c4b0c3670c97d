"""Counts that aren't set back where a state begins to wait for them, and counts that two active states set back."""
from collections import defaultdict

import common                                # noqa: F401, which finds the folder checks
from chart_check import Assign, Between, Literal, Read, State, home_of, reached_transitions
from lint.ranges import MIRRORED, common_parent
from lint.uses import parts_of

UP, DOWN = ('>', '>=', '=='), ('<', '<=', '==')


def step_of(statement):
    """Whether a statement counts a datum: 1 up, -1 down, or 0 where it does neither."""
    if not isinstance(statement, Assign) or not isinstance(statement.value, Between):
        return 0
    value = statement.value
    if value.operator == '+' and isinstance(value.left, Literal):
        value = value._replace(left=value.right, right=value.left)
    if value.left != Read(statement.datum) or not isinstance(value.right, Literal) or value.operator not in ('+', '-'):
        return 0
    return 1 if value.operator == '+' else -1


def blocks_with_states(chart):
    """Each action with the state in which it stands."""
    for state in chart.states:
        lists = [*state.lists.values(), *(junction.transitions for junction in state.junctions)]
        blocks = list(state.blocks.values()) + [block for each in lists for one in each for block in (one.condition, one.action)]
        yield from ((state, block) for block in blocks)


def may_be_together(first, second):
    """Whether two states may be active at once."""
    if first is second or first.is_below(second) or second.is_below(first):
        return True
    return common_parent(first, second).composition == 'and'


class Counts:
    """The counts of a chart: which data are counted, where each is set, and which states wait for which counts."""

    def __init__(self, chart):
        self.chart = chart
        self.steps = defaultdict(set)
        for block in chart.blocks():
            for statement in block:
                if step_of(statement):
                    self.steps[statement.datum].add(step_of(statement))
        self.reached = {state: [each for kind in ('outer', 'inner') for each in reached_transitions(state.lists[kind])]
                        for state in chart.states}
        self.waits = {state: self.waits_of(state) for state in chart.states}
        self.entering = self.transitions_to()

    def waits_of(self, state):
        """The counts for which a state waits, each with the first place where it does."""
        found = {}
        for transition in self.reached[state]:
            for part in parts_of(transition.guard.expression) if transition.guard else ():
                for datum in self.counts_compared(part):
                    found.setdefault(datum, part.at)
        return found

    def counts_compared(self, part):
        """The counts that a comparison compares with something in the direction in which they are counted."""
        if isinstance(part, Between) and part.operator in MIRRORED:
            for side, operator in ((part.left, part.operator), (part.right, MIRRORED[part.operator])):
                if isinstance(side, Read):
                    steps = self.steps.get(side.datum, ())
                    if 1 in steps and operator in UP or -1 in steps and operator in DOWN:
                        yield side.datum

    def transitions_to(self):
        """For each state the transitions of outer and inner lists by which it, or one that it is in, may be entered, with those
        on the way."""
        found = defaultdict(list)
        for state in self.chart.states:
            for kind in ('outer', 'inner'):
                ways = reached_transitions(state.lists[kind])
                for goal in {each.destination for each in ways if isinstance(each.destination, State)}:
                    home = home_of(state, kind, goal)
                    for entered in [*goal.with_all_below(), *goal.ancestors()]:
                        if entered.is_below(home):
                            found[entered] += ways
        return found

    def sets_of(self, block):
        """The counts that an action sets and doesn't count."""
        return {each.datum for each in block if isinstance(each, Assign) and not step_of(each)}

    def set_on_the_way(self, state):
        """What is set as a state is entered, while it is active, or as it is left."""
        blocks = list(state.blocks.values()) + [above.blocks['entry'] for above in state.ancestors()]
        for each in [*self.entering[state], *self.reached[state]]:
            blocks += [each.condition, each.action]
        return set().union(*(self.sets_of(block) for block in blocks))

    def without_reset(self):
        """The states that can be entered again and wait for a count that isn't set by then, each with the count and the place. A
        count that something sets which may be active beside the state has an order of its own, as has one that goes up and down."""
        for state in self.chart.states[1:]:
            if self.waits[state] and self.entering[state]:
                known = self.set_on_the_way(state)
                for datum, at in self.waits[state].items():
                    if datum not in known and len(self.steps[datum]) == 1 and not self.is_set_beside(datum, state):
                        yield state, datum, at

    def is_set_beside(self, datum, state):
        """Whether a count is set in a state that may be active as this one is."""
        return any(datum in self.sets_of(block) and may_be_together(each, state) for each, block in blocks_with_states(self.chart))

    def shared(self):
        """The entry actions that set a count for which another state waits too that is active then, as a pair of both states with
        the statement."""
        for state in self.chart.states[1:]:
            for statement in state.blocks['entry']:
                if isinstance(statement, Assign) and not step_of(statement) and statement.datum in self.waits[state]:
                    other = next((each for each in state.ancestors() if each.parent and statement.datum in self.waits[each]), None)
                    if other:
                        yield state, other, statement
