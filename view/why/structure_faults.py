"""What is said of the faults of structure, 17 to 23 and 26, and of 24, too many pairs."""
import common                                # noqa: F401, which finds the folder checks
from chart_check import MOST_PAIRS, home_of, pair_count, reached_transitions, destination_fault, State
from chart_syntax import KINDS
from common.places import Message, place_text


def structure_messages(text, chart, faults):
    """The messages of faults of structure, in the order of the text. What a default list leads to is told of an OR alone, unless
    it is the first fault of all."""
    unwanted = {each.to_at for state in chart.states if state.composition != 'or' for each in state.lists['default']}
    return [Message(at, KINDS[number], *said(text, chart, at, number)) for at, number in faults
            if (at, number) == faults[0] or number != 21 or at not in unwanted]


def state_at(chart, at):
    return next(each for each in chart.states if each.at == at)


def said(text, chart, at, number):
    """What is said of a fault, and the notes."""
    if number == 17:
        return empty(state_at(chart, at))
    if number == 18:
        state = state_at(chart, at)
        return ('%s has states in it and no default transition' % state.name,
                ('write: `default -> %s;` in it, or `and` after its name, if all are active at once' % state.children[0].name,))
    if number == 19:
        state = next(each for each in chart.states if each.lists['default'] and each.lists['default'][0].at == at)
        return unwanted_default(state)
    if number == 20:
        return open_default(chart, at)
    if number == 24:
        return ('there are %d pairs of a list and a transition' % pair_count(chart),
                ('at most %d are possible: let fewer states share long junctions' % MOST_PAIRS,))
    if number == 26:
        return 'history stands in an OR alone', ('write: history in the OR whose last child shall be entered again',)
    return leaves(text, chart, at, number)


def unwanted_default(state):
    said = '%s takes no default transition: ' % state.name
    if state.composition == 'and':
        return said + 'the regions of an AND are all entered', (
            'write: nothing in its place; the regions have default transitions of their own',)
    return said + 'a state without states has nothing to enter', (
        'write: nothing in its place; for a flow chart of junctions `inner -> @calc;`, or an entry action',)


def empty(state):
    if state.parent is None:
        return 'the chart %s has no state' % state.name, ('write: at least `default -> S; state S { }`',)
    return '%s has no states in it' % state.name, ('write: its name without `%s`' % state.word,)


def open_default(chart, at):
    """What is said of a default list that may find no state."""
    junction = next((each for each in chart.junctions if each.at == at), None)
    if junction:
        return ('the empty junction %s would end a default search' % junction.name,
                ('write: a transition without event and guard in it, `-> S;`',))
    return ('the last transition of a default list, or of a junction that it reaches, has an event or a guard',
            ('write: one more after it without event and guard, `-> S;`, which is taken where nothing else is',))


def leaves(text, chart, at, number):
    """What is said of a destination to which a list may not lead."""
    state, kind, goal = next((state, kind, each.destination) for state, kind, transitions in chart.lists()
                             for each in reached_transitions(transitions)
                             if each.to_at == at and isinstance(each.destination, State)
                             and destination_fault(state, kind, each.destination) == number)
    which = 'the %s list of %s, which begins at %s' % (kind, state.name, place_text(text, state.lists[kind][0].at))
    if number == 21:
        return '%s isn\'t inside %s' % (goal.path(), state.name), (
            '%s, leads there; a default transition leads to states inside its own alone' % which,)
    if number == 22:
        return '%s isn\'t inside %s' % (goal.path(), state.name), (
            '%s, leads there; an inner transition stays inside its state' % which,
            'write: `outer` in place of `inner`, or a destination inside %s' % state.name)
    home = home_of(state, kind, goal)
    source = state.path() if state.parent else state.name
    return 'a transition from %s to %s would cross regions of %s' % (source, goal.path(), home.name), (
        '%s, leads there; all regions of an AND are active side by side' % which,
        'write: a local event that the other region hears, `send E;`' + (
            ', or a transition that leaves %s' % home.name if home.parent else ''))
