"""Runs of a chart by the reference in checks/.

The reference tells more than a trace: which transitions ran in each event, in their order, and which states were entered,
those too that were left again before the event ended."""
from functools import lru_cache

from chart_check import State
from chart_rules import run_events

from measure.covered import Covered
from measure.parts import Parts
from picture.traces import NotATrace, Trace


class Watched(Covered):
    """The rules, which note for the start and for each event the ways that were gone and the states that were entered."""

    def __init__(self, parts, depth, steps):
        super().__init__(parts, depth, steps)
        self.ways, self.told = [], []

    def ran(self, transition):
        """Ways are told from their end, which is a state or an empty junction."""
        super().ran(transition)
        if isinstance(transition.destination, State) or not transition.destination.transitions:
            self.ways.append([])
        self.ways[-1].append(transition)

    def with_states(self, work):
        result = super().with_states(work)
        self.told.append((self.ways, list(self.marked)))
        self.ways = []
        return result


@lru_cache(maxsize=1)
def parts_of(model, depth, steps):
    """What there is to cover in a chart, which is the same for several runs."""
    return Parts(model, depth, steps)


def run_chart(model, data, depth, steps):
    """The lines of the run over an event file, the line that `rules` writes on standard error, which is empty where the run ended
    with its file, and the rules, which noted what came."""
    rules = Watched(parts_of(model, depth, steps), depth, steps)
    ended = run_events(rules, data)
    reader = Trace(model)
    ids = {id(each.resolved): each.id for each in model.transitions}
    lines = []
    for text, (ways, entered) in zip(ended.out.split('\n'), rules.told):
        fired, gone = [], []
        for way in ways:
            (fired if isinstance(way[0].destination, State) else gone).extend(ids[id(each)] for each in way[::-1])
        lines.append(reader.line(text, len(lines), fired, gone, [model.state_ids[state] for state in entered]))
    return lines, ended.error.rstrip('\n'), rules


def demand_same(lines, trace, program):
    """Refuses where the trace of a program isn't that of the reference."""
    ours, theirs = [line.text for line in lines], trace.split('\n')[:-1]
    for number in range(max(len(ours), len(theirs))):
        here, there = (each[number] if number < len(each) else 'no line' for each in (ours, theirs))
        if here != there:
            words = 'line %d of the trace of %s differs from the reference: %s; %s'
            raise NotATrace(words % (number + 1, program, there, here))
