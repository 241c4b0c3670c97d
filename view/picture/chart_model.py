"""A chart with an id for each state, junction and transition, and with the texts that a drawing and a page show of it.

The chart is read and checked by the reference in checks/, so what is drawn is a valid chart. Its texts are taken from the
tree before names are looked up, which has the same order."""
import hashlib

import chart_syntax as syntax
from chart_check import LISTS, Assign, Junction, check_chart, read_chart
from chart_rules import value_text

from common.chart_sum import sum_of
from picture import labels


class Transition:
    """A transition of the chart. Its list is default, inner, outer or junction, and its place there begins with 1. `lists`
    are the lists of states, as a kind and a state, from whose search it can be reached."""

    def __init__(self, number, kind, place, of, owner, written, resolved):
        self.number, self.id, self.kind, self.place, self.of = number, 't%d' % number, kind, place, of
        self.owner, self.written, self.resolved, self.destination = owner, written, resolved, resolved.destination
        self.event = resolved.event
        self.lines = labels.label_lines(written)
        self.text = syntax.transition_text(written)
        self.destination_text = syntax.destination_text(written.destination)
        self.lists = set()

    def has_number(self):
        """Whether a drawing writes its place: of outer ones always, of others where the list has several."""
        return self.of > 1 or self.kind == 'outer'


class ChartModel:
    """All of a chart that is shown."""

    def __init__(self, text):
        self.text, written, self.chart = text, read_chart(text), check_chart(text)
        self.name = written.root.name.text
        self.sum = sum_of(written)
        self.sha256 = hashlib.sha256(syntax.canonical_text(written).encode('latin-1')).hexdigest()
        self.written = dict(zip(self.chart.states, all_states(written.root)))
        self.state_ids = {state: 's%d' % number for number, state in enumerate(self.chart.states)}
        self.junction_ids = {junction: 'j%d' % number for number, junction in enumerate(self.chart.junctions)}
        self.paths = {state: state.path() if state.parent else '' for state in self.chart.states}
        self.transitions = []
        for state in self.chart.states:
            for kind in LISTS:
                self.add_list(kind, state, self.written[state].transitions[kind], state.lists[kind])
            for junction, each in zip(state.junctions, self.written[state].junctions):
                self.add_list('junction', junction, each.transitions, junction.transitions)
        self.find_lists()
        assigned = {each.datum for block in self.chart.blocks() for each in block if isinstance(each, Assign)}
        self.constants = [each for each in self.chart.data if each.kind != 'input' and each not in assigned]

    def declarations(self):
        """The declarations of the chart, as a text each; of data that nothing assigns and that are no inputs it says so."""
        for each in self.chart.events:
            yield 'event %s %s' % (each.kind, each.name)
        for each in self.chart.data:
            text = '%s %s : %s' % (each.kind, each.name, syntax.scale_text(each.scale) if each.scale else 'bool')
            text += ' ' + each.mode if each.scale and each.mode != 'saturate' else ''
            first = each.first()
            text += ' = ' + value_text(first) if first or each in self.constants else ''
            yield text + (', a constant' if each in self.constants else '')

    def add_list(self, kind, owner, written, resolved):
        for place, (each, found) in enumerate(zip(written, resolved), 1):
            self.transitions.append(Transition(len(self.transitions), kind, place, len(written), owner, each, found))

    def find_lists(self):
        """Notes for each transition the lists from whose search it can be reached."""
        of_junction = {}
        for each in self.transitions:
            if each.kind == 'junction':
                of_junction.setdefault(each.owner, []).append(each)
        for first in self.transitions:
            found = first.kind, first.owner
            waiting = [first] if first.kind != 'junction' else []
            while waiting:
                each = waiting.pop()
                if found not in each.lists:
                    each.lists.add(found)
                    waiting += of_junction.get(each.destination, [])

    def below(self, state):
        """How many states are below a state."""
        return sum(1 for _ in state.with_all_below()) - 1

    def owner_path(self, transition):
        """The name of what a transition belongs to, as the texts of a page have it."""
        if isinstance(transition.owner, Junction):
            return '@' + transition.owner.name
        return self.paths[transition.owner] or self.name

    def id_of(self, thing):
        """The id of a state or of a junction."""
        return (self.junction_ids if isinstance(thing, Junction) else self.state_ids)[thing]

    def destination_id(self, transition):
        return self.id_of(transition.destination)


def all_states(written):
    """The states of a tree before names are looked up, in the order of the text."""
    yield written
    for each in written.states:
        yield from all_states(each)
