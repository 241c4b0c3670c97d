"""All warnings about an accepted chart, in the order of the text. docs/WARNINGS.md explains each."""
import common                                # noqa: F401, which finds the folder checks
from chart_check import Junction, reached_transitions
from chart_rules import value_text
from common.places import Message, line_and_column, place_text
from lint.allows import Allowed
from lint.cycles import endless
from lint.conditions import Conditions
from lint.counts import Counts
from lint.dead import Ends, constant, never_run, never_taken
from lint.numbers import coarse, rounded, that_saturate
from lint.quotients import Quotients
from lint.reach import Reached
from lint.uses import Uses
from lint.ways import come_back, without_way_out
from lint.writes import by_two_regions, without_effect

KINDS = ('NeverTaken', 'NeverEntered', 'NeverVisited', 'NeverUsed', 'OnlyWritten', 'NeverSent', 'Saturates', 'CoarseLiteral',
         'DefaultTests', 'NotHeard', 'EndlessCycle', 'NeverTrue', 'AlwaysTrue', 'NeverRun', 'NoWayOut', 'NeverReset',
         'SharedCount', 'TwoWriters', 'RoundsDown', 'ZeroDivisor', 'ComesBack', 'NoEffect')
IDLE = 'AllowsNothing'


def dead_transitions(text, chart, dead):
    """The transitions that are never taken, but for those whose own guard is told."""
    lists = {each.at: (state, kind) for state, kind, transitions in chart.lists() for each in transitions}
    for transition, before in dead.values():
        if before:
            place, other = lists.get(before.at), lists.get(transition.at)
            if place and place[1] == 'outer' and place != other:
                does = 'always leaves %s before it' % place[0].path()
            elif before.guard and constant(before.guard.expression) is None:
                does = 'ends the search before it wherever its guard is true'
            else:
                does = 'always ends the search before it'
            yield Message(transition.at, 'NeverTaken', 'this transition is never taken', (
                'the one at %s %s' % (place_text(text, before.at), does),))


def during_actions(text, chart):
    for state, before in never_run(chart).items():
        yield Message(state.blocks['during'][0].at, 'NeverRun', 'the during action of %s never runs' % state.path(), (
            'the transition at %s always leaves it before' % place_text(text, before.at),))


def conditions_told(text, chart):
    """The conditions that are always the same."""
    conditions = Conditions(chart)
    for at, expression, value, state in conditions.constants():
        kind, said = ('AlwaysTrue', 'always') if value else ('NeverTrue', 'never')
        yield Message(at, kind, 'this condition is %s true' % said, (conditions.reason(expression, state),))


def counts_told(text, chart):
    """The counts that aren't set back, or that two active states set back."""
    counts = Counts(chart)
    for state, datum, at in counts.without_reset():
        said = '%s waits for the count %s, which isn\'t set as it is entered' % (state.path(), datum.name)
        yield Message(at, 'NeverReset', said, ('write: `entry { %s = 0; }` in %s' % (datum.name, state.name),))
    for state, other, statement in counts.shared():
        yield Message(statement.at, 'SharedCount', '%s sets the count %s, for which %s waits too' % (
            state.path(), statement.datum.name, other.path()), ('write: a count of its own for one of them',))


def assignments_told(text, chart):
    """The outputs of two regions, and assignments without an effect."""
    for statement, first, second in by_two_regions(chart):
        yield Message(statement.at, 'TwoWriters', '%s is assigned in %s and in %s, which are active side by side' % (
            statement.datum.name, first.path(), second.path()), ('the one that has its turn later in an event wins',))
    for statement, again in without_effect(chart):
        note = 'it is assigned to itself'
        if again:
            note = 'it is assigned again at %s, before anything reads it' % place_text(text, again.at)
        yield Message(statement.at, 'NoEffect', 'this assignment of %s has no effect' % statement.datum.name, (note,))


def ways_told(text, chart, reached, dead):
    """The states that nothing leaves, and the searches that come back after an action."""
    for state in without_way_out(chart, reached, dead):
        yield Message(state.at, 'NoWayOut', 'no transition leaves %s for another state' % state.path(), ())
    for transition, junction in come_back(chart, Ends(chart)):
        yield Message(transition.at, 'ComesBack', 'the search may come back from the junction %s after this condition action' % (
            junction.name), ('what the action did stays done, and the search goes on with the next transition',))


def quotients_told(text, chart):
    for quotient in Quotients(chart, Ends(chart), Conditions(chart).ranges).may_be_zero():
        yield Message(quotient.at, 'ZeroDivisor', 'the divisor is made of inputs, and may be 0', (
            'a quotient with the divisor 0 ends the run with the fault zero; write a guard that tests it',))


def not_reached(text, chart, reached):
    """The states that are never entered, the topmost ones alone, and the junctions of other states that are never visited, but for
    those that are meant to be so."""
    for state in chart.states:
        if state not in reached.states and state.parent in reached.states:
            yield Message(state.at, 'NeverEntered', 'nothing leads to the state %s' % state.path(), ())
    meant = behind_false(chart)
    for junction in chart.junctions:
        if junction not in reached.junctions and junction.state in reached.states and junction not in meant:
            yield Message(junction.at, 'NeverVisited', 'nothing leads to the junction %s' % junction.name, ())


def behind_false(chart):
    """The empty junctions behind a guard of true and false alone that is false, by which a search that finds nothing goes on, and
    to which none is meant to come."""
    return {each.destination for each in chart.transitions() if isinstance(each.destination, Junction)
            and not each.destination.transitions and each.guard and constant(each.guard.expression) is False}


def not_used(text, chart, uses):
    """The events and data that nothing uses, or that are only written."""
    for event in chart.events:
        if event.kind == 'local' and event in uses.named and event not in uses.sent():
            yield Message(event.at, 'NeverSent', 'transitions name the local event %s, and nothing sends it' % event.name, ())
        elif event not in uses.named and event not in uses.sent() and event not in uses.emitted:
            does = {'input': 'no transition names', 'local': 'nothing sends or names', 'output': 'nothing emits'}[event.kind]
            yield Message(event.at, 'NeverUsed', '%s the event %s' % (does, event.name), ())
    for datum in chart.data:
        if datum not in uses.read and datum.kind == 'input':
            yield Message(datum.at, 'NeverUsed', 'nothing reads the input %s' % datum.name, ())
        elif datum not in uses.read and not uses.written[datum]:
            yield Message(datum.at, 'NeverUsed', 'nothing reads or assigns %s' % datum.name, ())
        elif datum not in uses.read and datum.kind == 'local':
            yield Message(datum.at, 'OnlyWritten', '%s is assigned, and nothing reads it' % datum.name, (
                'write: `output %s` in its declaration, if it is meant for outside' % datum.name,))


def numbers(text, chart):
    for statement, value, end in that_saturate(chart, Conditions(chart).ranges):
        yield Message(statement.at, 'Saturates', '%s %s, which becomes %s' % (
            'what is assigned never fits' if value is None else '%s doesn\'t fit' % value_text(value), statement.datum.name,
            value_text(end)), ())
    for statement, value, got in rounded(text, chart):
        yield Message(statement.at, 'RoundsDown', '%s is no value of %s, which becomes %s' % (
            value_text(value), statement.datum.name, value_text(got)), ())
    for comparison, digits, value, step in coarse(text, chart):
        yield Message(comparison.at, 'CoarseLiteral', '%s is %s here, and the other side has steps of %s' % (
            digits, value_text(value), value_text(step)), ('write: %sq32, which costs nothing' % digits.partition('q')[0],))


def testing_defaults(text, chart):
    """The ORs whose default lists test an event or a guard."""
    for state in chart.states:
        tests = [each for each in reached_transitions(state.lists['default'])
                 if each.event or each.guard and constant(each.guard.expression) is None]
        if tests:
            first = min(tests, key=lambda each: each.at)
            what = 'an event' if first.event else 'a guard'
            yield Message(first.at, 'DefaultTests', 'the default list of %s tests %s' % (state.name, what), (
                'it is tested when %s is entered, at the start with the first values of inputs' % state.name,))


def not_heard(text, chart, uses):
    for send in uses.sends:
        if not uses.hears(send.to, send.event):
            where = 'the chart' if send.to.parent is None else send.to.path()
            yield Message(send.at, 'NotHeard', 'no transition of %s names the event %s' % (where, send.event.name), ())


def cycles(text, chart):
    for junction in endless(chart):
        said = 'a search that comes to the junction %s never ends by itself' % junction.name
        yield Message(junction.at, 'EndlessCycle', said, ('it goes round until the steps of the event are used',))


def all_warnings(text, chart):
    """All warnings, also those that comments silence, in the order of the text."""
    dead, uses = never_taken(chart), Uses(chart)
    reached = Reached(chart, dead)
    found = [*dead_transitions(text, chart, dead), *not_reached(text, chart, reached), *not_used(text, chart, uses),
             *numbers(text, chart), *testing_defaults(text, chart), *not_heard(text, chart, uses), *cycles(text, chart),
             *conditions_told(text, chart), *during_actions(text, chart), *counts_told(text, chart),
             *assignments_told(text, chart), *ways_told(text, chart, reached, dead), *quotients_told(text, chart)]
    return sorted(set(found), key=lambda each: (each.offset, each.kind, each.text))


def warnings(text, chart, allow=()):
    """The warnings that nothing silences, in the order of the text."""
    allowed = Allowed(text)
    left = [each for each in all_warnings(text, chart)
            if not allowed.silences(each.kind, line_and_column(text, each.offset)[0]) and each.kind not in allow]
    for at, word in allowed.idle():
        if IDLE not in allow:
            known = '' if word in KINDS else ', which is no warning'
            left.append(Message(at, IDLE, 'this comment allows %s%s, and silences nothing' % (word, known), ()))
    return sorted(left, key=lambda each: each.offset)
