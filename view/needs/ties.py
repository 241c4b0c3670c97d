"""Which requirements a chart text ties to its parts.

`// @req NAME NAME ..` ties each name to the part to which the comment belongs, as layout/comments.py says. Behind a closing brace
it ties what the brace closes, and before one, at the end of the text, or in an empty block it ties nothing. A name has letters,
digits, `_`, `-`, `.` and `/`, begins with a letter or a digit and has a digit; commas may stand between names, and a colon ends
them: what stands behind it is for readers alone."""
import re
from typing import NamedTuple

import common                                # noqa: F401, which finds the folder checks
from chart_syntax import BLOCKS
from common.places import Message
from layout.comments import END, Belonging
from layout.parts import HEAD, ITEM, TAIL, keys_of, placed
from picture.chart_model import ChartModel

COMMENT = re.compile(r'//\s*@req\b')
NAME = re.compile(r'(?=[A-Za-z_./-]*[0-9])[A-Za-z0-9][A-Za-z0-9_./-]*')
TIED = ('state', 'transition', 'event', 'datum')         # what shall have a requirement


class Part(NamedTuple):
    """A part of a chart: what it is, its name in words, its text where it has one, from where to where it goes, the words by which
    functions of the C are told, and the thing of the chart that it is."""
    kind: str
    name: str
    text: str
    first: int
    end: int
    functions: tuple
    thing: object


class Ties(NamedTuple):
    """The parts of a chart in the order of the text, the requirements of each by its first byte, and what is wrong with ties."""
    model: ChartModel
    parts: list
    names: dict
    wrong: list

    def requirements(self):
        """The parts of each requirement, in the order in which these come first."""
        found = {}
        for part in self.parts:
            for name in self.names.get(part.first, []):
                found.setdefault(name, []).append(part)
        return found

    def without(self):
        """The parts that shall have a requirement and have none."""
        return [part for part in self.parts if part.kind in TIED and not self.names.get(part.first)]


def ties_of(text):
    """The ties of an accepted chart text."""
    return ties_of_model(ChartModel(text))


def ties_of_model(model):
    """The ties of a chart."""
    tree, places = placed(model.text)
    parts, names, wrong = parts_of(model, places), {}, []
    by_first, lines = {part.first: part for part in parts}, set(keys_of(tree))
    belonging = Belonging(model.text, places)
    for key in [*belonging.keys, END]:
        for comment in belonging.of(key):
            closes = key[0] == TAIL and comment is belonging.behind.get(key)
            first = places[(HEAD, key[1]) if closes else key].first if key in lines else None
            if COMMENT.match(comment.text):
                tie(comment, by_first.get(first), names, wrong)
    return Ties(model, parts, names, sorted(wrong))


def tie(comment, part, names, wrong):
    """Ties the names of a comment to a part, if any, and notes what is wrong with it."""
    start = COMMENT.match(comment.text).end()
    listed = comment.text[start:].partition(':')[0]
    words = list(re.finditer(r'[^\s,]+', listed))
    if part is None:
        wrong.append(Message(comment.offset, 'TiesNothing', 'nothing comes behind this comment to which it could belong', (
            'write: it before what it ties, or behind it in the same line',), comment.offset + len(comment.text)))
    if not words:
        wrong.append(Message(comment.offset, 'NoName', 'no requirement is named', (), comment.offset + len(comment.text)))
    for word in words:
        if not NAME.fullmatch(word[0]):
            at = comment.offset + start + word.start()
            wrong.append(Message(at, 'BadName', '%s is no name of a requirement' % word[0], (
                'a name has letters, digits, `_`, `-`, `.` and `/`, and a digit at least; a colon ends the names',),
                at + len(word[0])))
        elif part is not None and word[0] not in names.setdefault(part.first, []):
            names[part.first].append(word[0])


# ---- the parts of a chart

def parts_of(model, places):
    """All parts to which something may be tied, in the order of the text."""
    chart, found = model.chart, []
    for event in chart.events:
        found.append(Part('event', event.name, 'event %s' % event.kind, *places[ITEM, event.at],
                          (' where the event is %s' % event.name,), event))
    for datum in chart.data:
        found.append(Part('datum', datum.name, datum.kind, *places[ITEM, datum.at], (), datum))
    for state in chart.states:
        found += state_parts(model, places, state)
    for junction in chart.junctions:
        found.append(Part('junction', junction_name(junction), '', *places[HEAD, junction.at],
                          ('search of junction %d from ' % number_of(chart, junction),), junction))
    found += [transition_part(model, places, each) for each in model.transitions]
    return sorted(found, key=lambda part: part.first)


def state_parts(model, places, state):
    """The part that is a state or the chart, and its blocks and history."""
    path = model.paths[state] or 'the chart'
    does = ('processing', 'entering', 'leaving', 'arriving in', 'taking a firing in', 'leaving the children of',
            'entering a child of')
    yield Part('state' if state.parent else 'chart', path if state.parent else model.name, '', *places[HEAD, state.at],
               tuple('%s %s' % (what, path) for what in does), state)
    for kind in BLOCKS:
        if (kind, state.at) in places:
            yield Part(kind + ' action', path, '', *places[kind, state.at], ('%s action of %s' % (kind, path),), state)
    if state.history_at is not None:
        yield Part('history', path, '', *places[ITEM, state.history_at], (), state)


def transition_part(model, places, each):
    owner = each.owner
    if each.kind == 'junction':
        number = number_of(model.chart, owner)
        words = ('transition %d of junction %d' % (each.place, number), 'search of junction %d from ' % number)
        name = '%s, transition %d' % (junction_name(owner), each.place)
    else:
        path = model.paths[owner] or 'the chart'
        words = ('transition %d of the %s list of %s' % (each.place, each.kind, path),
                 'search of the %s list of %s' % (each.kind, path))
        name = '%s, %s %d' % (path, each.kind, each.place)
    return Part('transition', name, each.text, *places[ITEM, each.resolved.at], words, each.resolved)


def junction_name(junction):
    return ('%s/@%s' % (junction.state.path(), junction.name)) if junction.state.parent else '@' + junction.name


def number_of(chart, junction):
    """The number of a junction in the words of the C: from 1 on in the order of the text."""
    return 1 + sum(each.at < junction.at for each in chart.junctions)
