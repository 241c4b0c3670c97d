"""Which transitions are never taken, since one before them in their list ends each search in which they would be enabled.

A transition that names no event and has no guard, or one that is always true, is taken whenever the search comes to it. Where it
leads to a state, to an empty junction, or to a junction from which no search comes back, the search ends there. One that names an
event does the same under that event, and so ends the search before a later one of the same event. Nor is a transition taken whose
guard is true only where that of an earlier one is, or that stands inside a state which an outer transition always leaves before."""
from collections import defaultdict

import common                                # noqa: F401, which finds the folder checks
from chart_check import Between, Junction, Send, Sign, Truth
from lint.conditions import Conditions
from lint.ranges import implies

ANY = None                  # whatever the current event is


def constant(expression):
    """The flag that an expression of true, false, !, && and || always is, or None."""
    if isinstance(expression, Truth):
        return expression.value
    if isinstance(expression, Sign) and expression.operator == '!':
        inside = constant(expression.operand)
        return None if inside is None else not inside
    if isinstance(expression, Between) and expression.operator in ('&&', '||'):
        left, right = constant(expression.left), constant(expression.right)
        ends = expression.operator == '||'
        if left is ends:
            return ends
        return right if left is not None else None
    return None


def surely_enabled(transition, event):
    """Whether it is enabled whenever that event is the current one, or, for ANY, at every event."""
    fits = transition.event is None or event is not ANY and transition.event is event
    return fits and (transition.guard is None or constant(transition.guard.expression) is True)


def leading_to(found, before):
    """Some junctions, and all before them: those whose searches lead to one of these, by a table of what stands before each."""
    seen, found = set(found), list(found)
    while found:
        for junction in before[found.pop()]:
            if junction not in seen:
                seen.add(junction)
                found.append(junction)
    return seen


class Ends:
    """Which junctions no search comes back from, under each event that stands in the chart, which lead to a condition action, and
    which to an empty junction."""

    def __init__(self, chart):
        self.chart, self.known = chart, {}
        before = defaultdict(list)
        for junction in chart.junctions:
            for transition in junction.transitions:
                if isinstance(transition.destination, Junction):
                    before[transition.destination].append(junction)
        self.with_actions = leading_to([junction for junction in chart.junctions
                                        if any(each.condition for each in junction.transitions)], before)
        self.to_empty = leading_to([each for each in chart.junctions if not each.transitions], before)

    def junctions(self, event):
        """The junctions from which no search comes back under that event."""
        if event not in self.known:
            self.known[event] = self.found(event)
        return self.known[event]

    def found(self, event):
        """These junctions: all but those of which a search may come to the end of the list, since each transition that is surely
        enabled leads to one of which it may too. A search that goes round for ever ends with a fault."""
        left, before, waiting = {}, defaultdict(list), []
        for junction in self.chart.junctions:
            sure = [each.destination for each in junction.transitions if surely_enabled(each, event)]
            left[junction] = len(sure)
            for goal in sure:
                before[goal].append(junction)
            if junction.transitions and not sure:
                waiting.append(junction)
        back = set(waiting)
        while waiting:
            for junction in before[waiting.pop()]:
                left[junction] -= 1
                if left[junction] == 0:
                    back.add(junction)
                    waiting.append(junction)
        return set(self.chart.junctions) - back

    def ends_where_enabled(self, transition, event):
        """Whether the search ends where this transition is enabled under that event."""
        return not isinstance(transition.destination, Junction) or transition.destination in self.junctions(event)

    def may_change(self, transition):
        """Whether the search may come back from this transition after a condition action."""
        event = transition.event or ANY
        return not self.ends_where_enabled(transition, event) and bool(
            transition.condition or transition.destination in self.with_actions)

    def ends(self, transition, event):
        """Whether the search surely ends where it comes to this transition under that event."""
        return surely_enabled(transition, event) and self.ends_where_enabled(transition, event)


def never_taken(chart):
    """The transitions that are never taken, each by its place, with itself and the one that ends the search before it, or with None
    where its own guard is never true."""
    ends, conditions, found = Ends(chart), Conditions(chart), {}
    lists = [transitions for _, _, transitions in chart.lists()] + [junction.transitions for junction in chart.junctions]
    for transitions in lists:
        last, by_event = None, {}
        for each in transitions:
            before = last or by_event.get(each.event) if each.event else last
            if before:
                found[each.at] = each, before
            if last is None and ends.ends(each, ANY):
                last = each
            elif each.event and each.event not in by_event and ends.ends(each, each.event):
                by_event[each.event] = each
        for each, before in covered(ends, conditions, transitions):
            found.setdefault(each.at, (each, before))
    for each in chart.transitions():
        if conditions.never(each):
            found.setdefault(each.at, (each, None))
    for each, before in hidden(chart, ends):
        found.setdefault(each.at, (each, before))
    return found


# ---- guards that hold only where an earlier one holds

MOST_BEFORE = 64            # so many earlier transitions with the same event are looked at


def covered(ends, conditions, transitions):
    """The transitions of a list whose guard is true only where that of an earlier one is, which ends the search then; with that
    one. What comes back from a junction after a condition action may have changed what the earlier one asked."""
    earlier = defaultdict(list)
    for each in transitions:
        cases = conditions.cases(each)
        if cases:
            event = each.event or ANY
            known = earlier[ANY] + (earlier[event] if event is not ANY else [])
            before = next((one for one in known if ends.ends_where_enabled(one, event)
                           and implies(cases, conditions.cases(one))), None)
            if before:
                yield each, before
        if ends.may_change(each):
            earlier.clear()
        elif cases and len(earlier[each.event or ANY]) < MOST_BEFORE:
            earlier[each.event or ANY].append(each)


# ---- outer transitions that leave a state before anything inside it has its turn

def leaving(ends, state):
    """The transitions of the outer list of a state of which one always leaves it, by their events: an event or ANY."""
    found, clear = {}, True
    for each in state.lists['outer']:
        clear = clear and each.destination not in ends.to_empty
        event = each.event or ANY
        if clear and event not in found and ends.ends(each, event):
            found[event] = each
    return found


def sent_inside(chart):
    """The events that are sent to states below another one, as pairs of an event and that one."""
    sends = [each for block in chart.blocks() for each in block if isinstance(each, Send)]
    return {(each.event, above) for each in sends for above in each.to.ancestors()}


def hidden(chart, ends):
    """The transitions inside a state that never have their turn, since an outer one of it leaves it before; with that one."""
    sent = sent_inside(chart)
    for state in chart.states[1:]:
        found = leaving(ends, state)
        for inside in state.with_all_below() if found else ():
            for each in inside.lists['inner'] + (inside.lists['outer'] if inside is not state else []):
                for event in (ANY, each.event):
                    if event in found and (inside is state or not is_sent(sent, event, state)):
                        yield each, found[event]


def is_sent(sent, event, state):
    """Whether an event, or any one, is sent to a state below another one."""
    return any(above is state and event in (ANY, each) for each, above in sent)


def never_run(chart):
    """The states whose during actions never run, each with the outer transition that leaves it, or what it is in, before."""
    ends, sent, found = Ends(chart), sent_inside(chart), {}
    for state in chart.states[1:]:
        before = leaving(ends, state).get(ANY)
        for inside in state.with_all_below() if before else ():
            if inside.blocks['during'] and (inside is state or not is_sent(sent, ANY, state)):
                found.setdefault(inside, before)
    return found
