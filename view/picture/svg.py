"""Writes placed drawings as SVG."""
from html import escape

from picture import labels
from picture.curves import arrow_text, far, number, path_text
from picture.sizes import JUNCTION, closed_line, header_lines, listed_rows

MARGIN = 4
ARROW = '\u2192'


class Writer:
    """Writes one drawing. `never` has a sentence for each id that is drawn in grey, and `why` for each id whose title should
    have one. `link` gives the address of the drawing in which a state or junction is shown, or nothing where that is this
    one."""

    def __init__(self, drawn, never, why, link):
        self.drawn, self.placed, self.texts = drawn, drawn.placed, drawn.texts
        self.sheet, self.root = drawn.sheet, drawn.sheet.root
        self.never, self.why, self.link = never, why, link
        self.grey_dots = {edge.tail for edge in self.sheet.edges if edge.id in never}
        self.lines = []

    def put(self, text, *values):
        """A line of the drawing. Numbers are written with at most one digit after the point."""
        self.lines.append(text % tuple(number(each) if isinstance(each, (int, float)) else each for each in values))

    def text(self, x, y, words, text, anchor='start'):
        end = '' if anchor == 'start' else ' text-anchor="%s"' % anchor
        self.put('<text class="%s" x="%s" y="%s"%s>%s</text>', words, x, y, end, escape(text, False))

    def begin(self, thing, words, title, more=''):
        """Begins the group of a thing, with its classes and its title."""
        if thing.shown in self.why:
            title += '\n' + self.why[thing.shown]
        more += ' data-id="%s"' % thing.shown if thing.shown != thing.id else ''
        words = words + ['never'] if thing.shown in self.never else words
        self.put('<g id="%s" class="%s"%s><title>%s</title>', thing.id, ' '.join(words), more, escape(title, False))

    def body(self):
        """The lines of the drawing without what is round them."""
        for box in self.sheet.boxes:
            self.box(box)
        for node, (x, y, size) in self.placed.nodes.items():
            if node.kind == 'start':
                grey = ' never' if node in self.grey_dots else ''
                self.put('<circle id="%s" class="start-dot%s" cx="%s" cy="%s" r="4"/>', node.id, grey, x + 4, y + 4)
            elif node.kind == 'junction':
                self.junction(node, x, y, size)
        for edge in self.placed.paths:
            self.edge(edge)
        return self.lines

    # -- boxes

    def box(self, box):
        x, y, size = self.placed.boxes[box]
        words = ['state', box.composition, 'level%d' % (len(list(box.homes())) % 2)] if box.path else ['chart']
        words += (['region'] if box.order else []) + (['composite'] if box.boxes else []) + (['shut'] if box.closed else [])
        title = 'Chart ' + self.sheet.model.name if not box.path else ('Region ' if box.order else 'State ') + box.path
        address = self.link(box.state, True) if box.closed else None
        if address:
            self.put('<a href="%s">', escape(address))
        self.begin(box, words, title, ' data-path="%s"' % escape(box.path))
        self.put('<rect class="frame" x="%s" y="%s" width="%s" height="%s" rx="%s"/>', x, y, size.width, size.height,
                 9 if box.path else 3)
        self.title_line(box, x, y, size)
        row = y + 8 + labels.NAME_LINE + 8
        for kind, line in box.actions:
            word = '<tspan class="keyword">%s</tspan> ' % kind if kind else '  '
            self.put('<text x="%s" y="%s">%s%s</text>', x + 10, row, word, escape(line, False))
            row += labels.CODE_LINE
        row = self.listed(box, x + 10, row)
        if box.closed:
            self.text(x + 10, row, 'closed', closed_line(box))
        self.lines.append('</g></a>' if address else '</g>')

    def title_line(self, box, x, y, size):
        """The name of a state, the mark of its history, and its number among regions."""
        if box.inside() or header_lines(box):
            self.text(x + 10, y + 19, 'name', box.name)
        else:
            self.text(x + size.width / 2, y + size.height / 2 + 5, 'name', box.name, 'middle')
        if box.history:
            middle = x + 10 + labels.name_width(box.name) + 14
            self.put('<g class="history"><title>History of %s</title>', box.name)
            self.put('<circle cx="%s" cy="%s" r="8"/>', middle, y + 15)
            self.put('<text x="%s" y="%s">H</text></g>', middle, y + 18.5)
        if box.order:
            self.text(x + size.width - 8, y + 17, 'region-order', str(box.order), 'end')

    def listed(self, thing, x, row):
        """The transitions that are listed in a thing. One that leads out of this drawing is a link."""
        for edge in thing.listed:
            transition = edge.transition
            to = ' data-to="%s"' % self.sheet.model.destination_id(transition)
            self.begin(edge, ['listed', edge.kind], transition.text, to)
            address = self.link(transition.destination, False)
            for line in listed_rows(edge):
                before, arrow, after = line.partition(ARROW)
                to = '<tspan class="to">%s</tspan>' % escape(arrow + after, False) if arrow else ''
                if address and to:
                    to = '<a href="%s">%s</a>' % (escape(address), to)
                grey = ' class="never"' if edge.id in self.never else ''
                self.put('<text%s x="%s" y="%s">%s%s</text>', grey, x, row, escape(before, False), to)
                row += labels.CODE_LINE
            self.lines.append('</g>')
        return row

    # -- junctions and edges

    def junction(self, node, x, y, size):
        self.begin(node, ['junction'], 'Junction ' + node.name)
        if node.listed:
            self.put('<rect class="frame" x="%s" y="%s" width="%s" height="%s" rx="9"/>', x, y, size.width, size.height)
            x, y = x + 7, y + 7
        middle = JUNCTION / 2
        self.put('<circle cx="%s" cy="%s" r="7"/>', x + middle, y + middle)
        if node.listed:
            self.text(x + 21, y + 11, 'name-of', node.name)
            self.listed(node, x + 1, y + 29)
        else:
            at = self.texts.names[node]
            self.text(at[0], at[1] + 9.5, 'name-of', node.name)
        self.lines.append('</g>')

    def edge(self, edge):
        path, tip = self.placed.paths[edge], self.placed.arrows[edge]
        self.begin(edge, ['transition', edge.kind], edge.kind + ' ' + edge.transition.text)
        last = path[-1]
        base = last[-1] if far(last[-1], tip) > 0.5 else last[-3]
        self.put('<path d="%s"/><path class="head" d="%s"/>', path_text(path), arrow_text(base, tip))
        if edge in self.texts.leaders:
            (x, y), (to_x, to_y) = self.texts.leaders[edge]
            self.put('<path class="leader" d="M%s %s L%s %s"/>', x, y, to_x, to_y)
        self.lines.append('<g class="label">')
        if edge in self.texts.numbers:
            x, y, width, height = self.texts.numbers[edge]
            self.text(x + width / 2, y + height - 1.5, 'order', str(edge.transition.place), 'middle')
        if edge in self.texts.labels:
            x, y = self.texts.labels[edge][:2]
            for at, line in enumerate(edge.lines):
                self.text(x, y + 10.5 + labels.CODE_LINE * at, 'code', line)
        self.lines.append('</g></g>')
