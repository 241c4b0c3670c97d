"""Which thing of a chart each name denotes."""
from typing import NamedTuple

import common                                # noqa: F401, which finds the folder checks
from chart_check import Datum, Event, Junction, Names, State, first_named


class Use(NamedTuple):
    """A name at a place, and the event, datum, state or junction that it denotes."""
    at: int
    thing: object
    declares: bool

    def end(self):
        return self.at + len(self.thing.name)


class Index(Names):
    """Looks up every name of a tree, and keeps what was found. Faults of names leave out what they are of."""

    def __init__(self, tree):
        self.uses = {}
        super().__init__(tree)
        self.note(self.chart.root.at, self.chart.root, True)

    def note(self, at, thing, declares=False):
        self.uses[at] = Use(at, thing, declares)

    def declare(self, names, thing):
        super().declare(names, thing)
        self.note(thing.at, thing, True)

    def declaration(self, name, wanted):
        if name.text in self.declared:
            self.note(name.at, self.declared[name.text])
        return super().declaration(name, wanted)

    def path(self, state, path):
        for name, found in zip(path, states_of(state, [each.text for each in path])):
            self.note(name.at, found)
        return super().path(state, path)

    def junction(self, state, name):
        found = super().junction(state, name)
        if found:
            self.note(name.at, found)
        return found

    def at(self, offset):
        """The use of a name at a place or just behind its last byte, or None."""
        return next((each for each in self.uses.values() if each.at <= offset < each.end()), None) or next(
            (each for each in self.uses.values() if each.end() == offset), None)

    def uses_of(self, thing):
        """All uses of a thing, in the order of the text."""
        return sorted((each for each in self.uses.values() if each.thing is thing), key=lambda use: use.at)

    def meaning(self):
        """What a new name may not change: for each name in the order of the text which of these names declares what it denotes."""
        order = {at: number for number, at in enumerate(sorted(self.uses))}
        return [order[self.uses[at].thing.at] for at in sorted(self.uses)]


def states_of(state, names):
    """The states that the names of a path denote in a state, up to the first that isn't found."""
    found = next((each for place in [state, *state.ancestors()] for each in place.children if each.name == names[0]), None)
    for name in names[1:]:
        if found is None:
            return
        yield found
        found = first_named(found.children, name)
    if found is not None:
        yield found


def kind_of(thing):
    """What a thing is, in a word."""
    if isinstance(thing, State):
        return 'state' if thing.parent else 'chart'
    return {Event: 'event', Datum: 'datum', Junction: 'junction'}[type(thing)]
