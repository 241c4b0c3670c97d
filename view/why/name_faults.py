"""What is said of the faults of names, 9 to 11."""
import re

import common                                # noqa: F401, which finds the folder checks
from chart_check import Datum, Event, Junction, Names
from chart_syntax import KINDS
from common.guesses import listed, meant
from common.places import Message, place_text

FLAGS = {'TRUE': 'true', 'True': 'true', 'FALSE': 'false', 'False': 'false'}


class Told(Names):
    """Looks up every name, and keeps of each fault what was looked for, and where. A name that is declared twice means nothing
    for certain, so that no fault is told that another one may have brought."""

    def __init__(self, written):
        self.wanted, self.details, self.twice, self.twice_inside = None, {}, set(), set()
        super().__init__(written)

    def fault(self, number, at):
        super().fault(number, at)
        self.details[at, number] = self.wanted

    def declare(self, names, thing):
        first = names.get(thing.name)
        if first is not None:
            self.wanted = ('twice', thing, first)
            (self.twice if isinstance(thing, (Datum, Event)) else self.twice_inside).add(thing.name)
        super().declare(names, thing)

    def event(self, name):
        self.wanted = ('event', name)
        return super().event(name)

    def datum(self, name):
        self.wanted = ('datum', name)
        return super().datum(name)

    def declaration(self, name, wanted):
        found = super().declaration(name, wanted)
        return None if name.text in self.twice else found

    def path(self, state, path):
        self.wanted = ('state', state, path)
        return super().path(state, path)

    def junction(self, state, name):
        self.wanted = ('junction', state, name)
        return super().junction(state, name)


def name_messages(text, names):
    """The messages of the faults of names, in the order of the text. Of those that may come of a name that is declared twice only
    the first fault of all is told."""
    messages, first = [], {}
    for at, number in sorted(set(names.faults)):
        if messages and comes_of_twice(names, at, number):
            continue
        wanted = names.details[at, number]
        again = first.get((wanted[0], wanted[1].text)) if wanted[0] in ('event', 'datum') else None
        if again is not None:
            messages[again] = also_at(text, messages[again], at)
            continue
        if wanted[0] in ('event', 'datum'):
            first[wanted[0], wanted[1].text] = len(messages)
        messages.append(Message(at, KINDS[number], *said(text, names, at, number)))
    return messages


def also_at(text, message, at):
    """The message of a name that isn't found in another place either."""
    notes = list(message.notes)
    if notes[-1].startswith('also at '):
        notes[-1] += '; ' + place_text(text, at)
    else:
        notes.append('also at ' + place_text(text, at))
    return message._replace(notes=tuple(notes))


def comes_of_twice(names, at, number):
    """Whether a fault may come of a name that is declared twice."""
    wanted = names.details[at, number]
    if number == 11:
        return wanted[1].text in names.twice
    return wanted[0] == 'state' and any(name.text in names.twice_inside for name in wanted[2])


def said(text, names, at, number):
    """What is said of a fault, and the notes."""
    wanted = names.details[at, number]
    if wanted[0] == 'twice':
        return twice(text, *wanted[1:])
    if wanted[0] == 'state':
        return no_state(text, names.chart, at, *wanted[1:])
    if wanted[0] == 'junction':
        return no_junction(names.chart, *wanted[1:])
    if number == 11:
        return wrong_kind(names, wanted[0], wanted[1].text)
    if wanted[0] == 'event' and any(each.name == wanted[1].text for each in names.chart.states[1:]):
        return state_as_event(names.chart, wanted[1].text, at)
    return no_declaration(text, names.chart, wanted[0], wanted[1])


def twice(text, thing, first):
    declared = isinstance(thing, (Datum, Event))
    alone = 'events and data share one name space' if declared else 'in a state each has a name of its own'
    return '%s is declared a second time' % thing.name, ('the first one is at %s; %s' % (place_text(text, first.at), alone),)


# ---- events and data

def no_declaration(text, chart, what, name):
    """What is said where no event or datum has the name."""
    events, data = [each.name for each in chart.events], [each.name for each in chart.data]
    states = {each.name: each for each in chart.states if each.parent}
    known = events if what == 'event' else data
    note = 'the chart has the %s %s' % ('events' if what == 'event' else 'data', listed(known))
    line = 'no %s is named %s%s' % (what, name.text, meant(name.text, known))
    write = None
    if what == 'datum' and name.text in FLAGS:
        line, write = 'no datum is named %s' % name.text, FLAGS[name.text]
    elif what == 'datum' and name.text in states:
        write = 'in(%s) to ask whether that state is active' % states[name.text].path()
    elif what == 'datum' and name.text == 't':
        write = 'an input or a count of events of your own, since a chart knows no time'
    elif what == 'event' and name.text in ('TICK', 'Tick', 'always', 'wakeup'):
        write = 'no event, which fits at every event, or declare `event input %s;`' % name.text
    elif not known or ';' in line:
        write = None
    if write is None and 'did you mean' not in line:
        write = declaration_of(what, name, text)
    return line, ('write: ' + write, note) if write else (note,)


def declaration_of(what, name, text):
    """How such a name would be declared."""
    if what == 'datum':
        kind = 'bool' if stands_as_flag(text, name) else 'int16'
        return '`local %s : %s;` in the chart, with the type that it shall have, if it is missing' % (name.text, kind)
    before = re.search(r'(send|emit)\s*\Z', text[:name.at])
    kind = {'send': 'local', 'emit': 'output'}[before[1]] if before else 'input'
    return '`event %s %s;` in the chart, if it is missing' % (kind, name.text)


def state_as_event(chart, name, at):
    """What is said where a state stands for an event, as in `outer A -> B` for a transition that leaves A."""
    found = next(((state, kind, each) for state, kind, transitions in chart.lists() for each in transitions
                  if each.event_at == at), None)
    said = 'no event is named %s, but a state is' % name
    if found is None:
        return said, ('write: an event in its place, as `send E to %s;`' % name,)
    state, kind, transition = found
    goal = transition.destination
    arrow = '-> S' if goal is None else '-> @%s' % goal.name if isinstance(goal, Junction) else '-> %s' % goal.name
    place = '' if state.name == name else ' in %s' % name
    return said, ('write: `%s %s;`%s: a transition stands in the state that it leaves, and doesn\'t name it' % (
        kind, arrow, place),)


def stands_as_flag(text, name):
    """Whether a datum that is missing stands where a flag does, as far as the text round it tells."""
    before, after = text[max(0, name.at - 40):name.at], text[name.at + len(name.text):]
    alone = re.search(r'(?:[\[!]|&&|\|\|)\s*\Z', before) and re.match(r'\s*(?:\]|&&|\|\|)', after)
    return bool(alone or re.match(r'\s*=(?!=)[^;]*(?:[=!]=|[<>]|\btrue\b|\bfalse\b|!)', after))


def wrong_kind(names, what, name):
    """What is said where an event stands for a datum, or a datum for an event."""
    if what == 'event':
        datum = names.declared[name]
        test = name if datum.scale is None else '%s != 0' % name
        return '%s is a datum, and an event is wanted' % name, ('write: a condition in brackets, `[%s]`' % test,)
    return '%s is an event, and a datum is wanted' % name, (
        'write: the event in front of the bracket, `outer %s [..] -> S;`; a guard doesn\'t ask for events' % name,)


# ---- states and junctions

def visible(state, what):
    """The children or the junctions that a name in that state may denote."""
    return [each for place in [state, *state.ancestors()] for each in (place.children if what == 'state' else place.junctions)]


def path_to(state, wanted):
    """A path by which a state is named in another one, or None where another state of the name is found first."""
    for place in [state, *state.ancestors()]:
        if wanted.is_below(place):
            names = [wanted.name] + [each.name for each in wanted.ancestors() if each.is_below(place)]
            first = next(each for each in visible(state, 'state') if each.name == names[-1])
            return '/'.join(reversed(names)) if first.parent is place else None
    return None


def no_state(text, chart, at, state, path):
    """What is said where a state of a path isn't found."""
    place = next(index for index, name in enumerate(path) if name.at == at)
    name = path[place].text
    junctions = [each.name for each in visible(state, 'junction')]
    if place:
        above = '/'.join(each.text for each in path[:place])
        children = found_children(state, path[:place])
        return ('no child of %s is named %s%s' % (above, name, meant(name, children)),
                ('the children of %s are %s' % (above, listed(children)),))
    known = list(dict.fromkeys(each.name for each in visible(state, 'state')))
    note = 'from here the states %s are found, and those below them by a path' % listed(known)
    if name in junctions and len(path) == 1:
        return 'no state is named %s, but a junction is' % name, ('write: @%s' % name,)
    if name == chart.root.name:
        return 'the chart has no path', ('write: a state of the chart; a broadcast goes to the whole chart without `to`', note)
    elsewhere = [path_to(state, each) for each in chart.states if each.name == name]
    elsewhere = [each for each in elsewhere if each]
    if elsewhere:
        return 'no state is named %s here' % name, ('write: %s' % ' or '.join(elsewhere), note)
    if name == 'H':
        return 'no state is named H', ('write: -> S and `history;` in S: who leads to S then comes to its last child', note)
    said_of = meant(name, known)
    write = () if said_of else ('write: `state %s { }` in the chart, if it is missing' % name,)
    return 'no state is named %s here%s' % (name, said_of), (*write, note)


def found_children(state, path):
    """The names of the children of the state to which a path leads."""
    found = next(each for each in visible(state, 'state') if each.name == path[0].text)
    for name in path[1:]:
        found = next(each for each in found.children if each.name == name.text)
    return [each.name for each in found.children]


def no_junction(chart, state, name):
    """What is said where a junction isn't found."""
    known = [each.name for each in visible(state, 'junction')]
    note = 'from here the junctions %s are found' % listed(known) if known else 'from here no junction is found'
    if any(each.name == name.text for each in visible(state, 'state')):
        return 'no junction is named %s, but a state is' % name.text, ('write: -> %s, without @' % name.text, note)
    if any(each.name == name.text for each in chart.junctions):
        return 'no junction is named %s here' % name.text, (
            'write: the junction beside the state in which the name stands, or further out; it stands elsewhere', note)
    said_of = meant(name.text, known)
    write = () if said_of else ('write: `junction %s { }` beside the state, if it is missing' % name.text,)
    return 'no junction is named %s here%s' % (name.text, said_of), (*write, note)
