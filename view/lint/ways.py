"""States that nothing leaves, and junctions from which a search comes back after an action."""
from collections import defaultdict

import common                                # noqa: F401, which finds the folder checks
from chart_check import Assign, Emit, Junction, State, home_of, reached_transitions
from lint.dead import ANY, constant


def left_by(state, kind, goal):
    """The states that a firing of a list leaves for another one, of those that may be active as the list is searched."""
    home = home_of(state, kind, goal)
    active = set(state.with_all_below())
    for above in [state, *state.ancestors()]:
        if above is home:
            break
        active.add(above)
        if above.parent.composition == 'and':
            active.update(each for region in above.parent.children if region is not above for each in region.with_all_below())
    return {each for each in active if each.is_below(home) and each is not goal and not goal.is_below(each)}


def without_way_out(chart, reached, dead):
    """The leaves that are entered and that no transition leaves for another state, though others beside them are left and entered
    again, and in which nothing is done."""
    left, after = set(), defaultdict(set)
    for state, kind, transitions in chart.lists():
        if kind != 'default' and state in reached.states:
            for each in reached_transitions(transitions):
                if each.at not in dead and isinstance(each.destination, State):
                    left |= left_by(state, kind, each.destination)
                    note_ways(after, state, kind, each.destination)
    for state in chart.states[1:]:
        if state in reached.states and state not in left and is_trap(state) and any(
                comes_again(after, each) for each in state.parent.children):
            yield state


def note_ways(after, state, kind, goal):
    """Notes which child of the home a firing may leave, and which it enters."""
    home = home_of(state, kind, goal)
    entered = [each for each in home.children if each is goal or goal.is_below(each)]
    for child in home.children:
        if kind == 'inner' or state is child or state.is_below(child):
            after[child].update(each for each in entered if each is not child)


def comes_again(after, child):
    """Whether a state that was left for one beside it may be entered again from there."""
    seen, waiting = set(), [child]
    while waiting:
        for each in after[waiting.pop()]:
            if each is child:
                return True
            if each not in seen:
                seen.add(each)
                waiting.append(each)
    return False


def is_trap(state):
    """Whether a state has no children, no action while it is active, and states beside it in an OR."""
    works = state.blocks['during'] or state.lists['inner']
    return not state.children and not works and state.parent.composition == 'or' and len(state.parent.children) > 1


def come_back(chart, ends):
    """The transitions whose condition action assigns or emits and from which the search may come back, though not always; each with
    its junction."""
    for each in chart.transitions():
        goal, does = each.destination, any(isinstance(one, (Assign, Emit)) for one in each.condition)
        if does and isinstance(goal, Junction) and goal not in ends.junctions(each.event or ANY):
            if any(one.guard is None or constant(one.guard.expression) is not False for one in goal.transitions):
                yield each, goal
