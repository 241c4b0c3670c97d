"""Where the parts of a chart text stand, each of which is one line of the canonical text.

A part is a declaration, a block, `history`, a transition, the head of a state, of a junction or of the chart up to its opening
brace, or the closing brace of one of these. Each token of a text belongs to just one part."""
from typing import NamedTuple

import common                                # noqa: F401, which finds the folder checks
from chart_syntax import BLOCKS, Reader

HEAD, TAIL, ITEM = 'head', 'tail', 'item'


class Part(NamedTuple):
    """From the first byte of a part to behind its last one."""
    first: int
    end: int


class Placing(Reader):
    """A reader that notes where each part stands. The key of a part is its kind and a place: of a head and a tail that of the
    name; of a block, whose kind is its word, that of the name of its state; of a declaration that of its name; and of another
    item that of its first token."""

    def __init__(self, text):
        self.parts = {}
        self.end = 0                         # behind the last token that was taken
        self.opening, self.heads = [], {}    # the first tokens of heads whose brace is still to come, and where the others end
        super().__init__(text)

    def take(self, *kinds):
        token = self.token
        text = super().take(*kinds)
        self.end = token.end
        if token.kind == '{' and self.opening:
            self.heads[self.opening.pop()] = token.end
        return text

    def braced(self, read, *given):
        """Reads what has a head and a tail, and gives it with its name."""
        first = self.token.offset
        self.opening.append(first)
        found = read(*given)
        return found, first

    def note_braced(self, name, first):
        self.parts[HEAD, name.at] = Part(first, self.heads[first])
        self.parts[TAIL, name.at] = Part(self.end - 1, self.end)

    def chart(self):
        found, first = self.braced(super().chart)
        self.note_braced(found.root.name, first)
        return found

    def state(self, depth):
        found, first = self.braced(super().state, depth)
        self.note_braced(found.name, first)
        return found

    def junction(self):
        found, first = self.braced(super().junction)
        self.note_braced(found.name, first)
        return found

    def event(self):
        return self.declaration(super().event)

    def datum(self):
        return self.declaration(super().datum)

    def declaration(self, read):
        first = self.token.offset
        found = read()
        self.parts[ITEM, found.name.at] = Part(first, self.end)
        return found

    def item(self, state, depth):
        first, kind = self.token.offset, self.token.kind
        super().item(state, depth)
        if kind in BLOCKS:
            self.parts[kind, state.name.at] = Part(first, self.end)
        elif kind == 'history':
            self.parts[ITEM, first] = Part(first, self.end)

    def transition(self, at):
        found = super().transition(at)
        self.parts[ITEM, at] = Part(at, self.end)
        return found


def placed(text):
    """The tree of a text, and its parts by their keys. Fault where the text has one."""
    reader = Placing(text)
    return reader.chart(), reader.parts


def keys_of(chart):
    """The keys of the parts in the order of the lines of the canonical text."""
    declarations = [(ITEM, each.name.at) for each in [*chart.events, *chart.data]]
    return list(keys_of_state(chart.root, declarations))


def keys_of_state(state, declarations):
    yield HEAD, state.name.at
    yield from declarations
    for kind in BLOCKS:
        if state.blocks.get(kind):
            yield kind, state.name.at
    if state.history is not None:
        yield ITEM, state.history
    for kind in ('default', 'inner', 'outer'):
        for each in state.transitions[kind]:
            yield ITEM, each.at
    for junction in state.junctions:
        yield HEAD, junction.name.at
        for each in junction.transitions:
            yield ITEM, each.at
        yield TAIL, junction.name.at
    for each in state.states:
        yield from keys_of_state(each, [])
    yield TAIL, state.name.at
