"""How large the things of a drawing are, by their texts."""
from collections import namedtuple

from picture import labels

Size = namedtuple('Size', 'width height')

JUNCTION = 14                                                # across
DOT = 8


def closed_line(box):
    """What stands in a closed box in place of its states."""
    return '\u25b8 %d state%s inside' % (box.closed, '' if box.closed == 1 else 's')


def listed_rows(edge):
    """The lines of a transition that is listed."""
    transition = edge.transition
    word = '' if edge.kind in ('outer', 'junction') else edge.kind + ' '
    number = '%d ' % transition.place if transition.has_number() else ''
    lines = transition.lines
    parts = lines[:-1] + [(lines[-1] + ' ' if lines else '') + '\u2192 ' + transition.destination_text]
    return [(word + number if at == 0 else '   ') + part for at, part in enumerate(parts)]


def header_lines(box):
    """The lines below the name of a state: its actions, its listed transitions, and what says that it is closed."""
    lines = [kind + ' ' + text if kind else '  ' + text for kind, text in box.actions]
    lines += [row for edge in box.listed for row in listed_rows(edge)]
    return lines + ([closed_line(box)] if box.closed else [])


def header_of(box):
    """The size of a state's name and of the lines below it."""
    title = labels.name_width(box.name) + (26 if box.history else 0) + (24 if box.order else 0)
    lines = header_lines(box)
    width = max([title] + [labels.code_width(line) for line in lines])
    return Size(width, labels.NAME_LINE + labels.CODE_LINE * len(lines))


def junction_name_width(node):
    """How wide the small name beside a junction is."""
    return labels.code_width(node.name, labels.SMALL_SIZE) * 0.9


def least_width(box):
    """How wide a box is at least within its margins: for its texts, and for the names of the junctions in it."""
    names = [junction_name_width(node) for node in box.nodes if node.kind == 'junction' and not node.listed]
    return max([header_of(box).width, *names])


def leaf_size(box):
    header = header_of(box)
    return Size(max(54, header.width + 20), max(32, header.height + 14))


def node_size(node):
    """The size of a junction, a dot, or a place on a border."""
    if node.kind != 'junction':
        return Size(DOT, DOT) if node.kind == 'start' else Size(1, 1)
    if not node.listed:
        return Size(JUNCTION, JUNCTION)
    rows = [row for edge in node.listed for row in listed_rows(edge)]
    width = max([labels.code_width(row) for row in rows] + [labels.code_width(node.name) + 24])
    return Size(width + 16, 30 + labels.CODE_LINE * len(rows))


def text_size(edge):
    """The size of a label's text."""
    return Size(max(labels.code_width(line) for line in edge.lines), labels.CODE_LINE * len(edge.lines))


def label_size(edge):
    """The room that dot leaves for a label."""
    size = text_size(edge)
    return Size(size.width + 14, size.height + 4)
