"""The drawings of a chart: one of the whole chart, or, where that is too large, one for each state that a smaller one leaves
closed, with links between them."""
from html import escape

from chart_check import Junction

from picture import labels
from picture.curves import number
from picture.pictures import SCREEN
from picture.places import Placed
from picture.sheet import ALL_LEVELS, Sheet
from picture.small_texts import SmallTexts
from picture.svg import MARGIN, Writer
from picture.svg_style import style_alone

MOST_STATES = 300                                            # of a chart that is drawn whole
MOST_WIDTH = 8000                                            # in pixels, where nothing else is said
LEVEL_STATES = 100                                           # of a drawing of several levels that isn't of the whole chart
SPREADS = 1.0, 1.35, 1.8
CRUMBS = 26                                                  # the height of the line that leads to a drawing


class Drawn:
    """A drawing with its places and its small texts. Where labels don't find room, all is set farther apart; where that
    doesn't help, the transitions that they belong to are listed."""

    def __init__(self, model, state, levels, shape, all_listed=False):
        listed = set()
        while True:
            for spread in SPREADS:
                self.sheet = Sheet(model, state, levels, listed, all_listed)
                self.placed = Placed(self.sheet, spread, shape)
                self.texts = SmallTexts(self.placed)
                clashes = {edge.id for edge in self.texts.clashes()}
                if not clashes:
                    break
            if not clashes:
                break
            listed |= clashes
        self.state = state
        self.width, self.height = self.placed.size.width + 2 * MARGIN, self.placed.size.height + 2 * MARGIN


def depth(state):
    """How many levels of states are below a state."""
    return max((1 + depth(each) for each in state.children), default=0)


class Sheets:
    """The drawings of a chart, that of the chart first. With a state, those of that state and of what is in it alone."""

    def __init__(self, model, width=MOST_WIDTH, shape=SCREEN, state=None):
        self.model, self.most_width, self.shape = model, width, shape
        first = state or model.chart.root
        self.all = []
        if 1 + model.below(first) <= MOST_STATES:
            whole = Drawn(model, first, ALL_LEVELS, shape)
            self.all = [whole] if whole.width <= width else []
        if not self.all:
            self.draw_by_levels(first)
        self.opened = {drawn.state: drawn for drawn in self.all}
        self.shows = {}
        for drawn in self.all[::-1]:
            for box in drawn.sheet.boxes:
                if box is not drawn.sheet.root:
                    self.shows[box.state] = drawn
            for junction in drawn.sheet.node_of:
                self.shows[junction] = drawn

    def draw_by_levels(self, first):
        waiting = [first]
        while waiting:
            drawn = self.one(waiting.pop(0))
            self.all.append(drawn)
            waiting += [box.state for box in drawn.sheet.boxes if box.closed]

    def one(self, state):
        """The drawing of one state, with as many levels as there is room for, and at least one."""
        levels = [each for each in range(depth(state), 1, -1) if self.states_within(state, each) <= LEVEL_STATES] + [1]
        for each in levels:
            drawn = Drawn(self.model, state, each, self.shape)
            if drawn.width <= self.most_width:
                return drawn
        return Drawn(self.model, state, 1, self.shape, all_listed=True)

    def states_within(self, state, levels):
        return 1 + sum(self.states_within(each, levels - 1) for each in state.children) if levels else 1

    # -- links

    def name_of(self, drawn):
        return 'sheet-' + self.model.state_ids[drawn.state]

    def link_from(self, drawn):
        """Gives for a closed state the drawing in which it is open, and else the one that shows a state or a junction, as an
        address; or nothing where that is the drawing at hand."""
        def link(thing, inside):
            found = self.opened.get(thing) if inside else self.shows.get(thing)
            if found is None or found is drawn or isinstance(thing, Junction) and not thing.transitions:
                return None
            return '#' + self.name_of(found)

        return link

    def crumbs(self, drawn):
        """The states that a drawing stands in, from the chart on, each with the drawing in which it is open, if any, and
        itself."""
        ways = [drawn.state, *drawn.state.ancestors()][::-1]
        return [(each.name, self.opened.get(each)) for each in ways]

    def body(self, drawn, never=(), why=()):
        return '\n'.join(Writer(drawn, dict(never), dict(why), self.link_from(drawn)).body())

    # -- the file

    def svg(self, theme='auto', never=(), why=()):
        """All drawings as one file, below each other, each but a single one under a line with links to those above it."""
        several = len(self.all) > 1
        above = CRUMBS if several else 0
        width, height = max(each.width for each in self.all), sum(each.height + above for each in self.all)
        lines = ['<svg xmlns="http://www.w3.org/2000/svg" class="flowview" viewBox="%s %s %s %s" width="%s" height="%s" '
                 'role="group" aria-label="Chart %s" data-chart-sha256="%s">'
                 % (-MARGIN, -MARGIN, *map(number, (width, height) * 2), self.model.name, self.model.sha256),
                 '<style>%s</style>' % style_alone(theme, width > height)]
        if several:
            lines.append('<rect class="ground" x="%d" y="%d" width="%s" height="%s"/>' % (-MARGIN, -MARGIN, number(width), number(height)))
        top = 0
        for drawn in self.all:
            if several:
                lines.append('<g id="%s" transform="translate(0 %s)">' % (self.name_of(drawn), number(top)))
                lines += self.crumb_line(drawn) + ['<g transform="translate(0 %d)">' % CRUMBS]
            lines.append(self.body(drawn, never, why))
            lines += ['</g></g>'] if several else []
            top += drawn.height + above
        return '\n'.join(lines + ['</svg>']) + '\n'

    def crumb_line(self, drawn):
        lines, x = [], 0
        for name, found in self.crumbs(drawn):
            text = '<text class="crumb" x="%s" y="16">%s</text>' % (number(x), escape(name))
            lines.append('<a href="#%s">%s</a>' % (self.name_of(found), text) if found and found is not drawn else text)
            x += labels.name_width(name) + 8
            if found is not drawn:
                lines.append('<text class="crumb" x="%s" y="16">/</text>' % number(x))
                x += 14
        return lines
