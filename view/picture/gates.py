"""Where edges cross the border of a box, and what dot is told of it."""
from picture.pictures import ACROSS, DOWN

COMPASS = {(DOWN, 'first'): 'n', (DOWN, 'last'): 's', (ACROSS, 'first'): 'w', (ACROSS, 'last'): 'e'}
TABLE = '<TABLE BORDER="0" CELLBORDER="0" CELLSPACING="0" CELLPADDING="0"%s>%s</TABLE>'
BOW = 26                                                     # how far a loop at a gate reaches along the border


def side_of(edge, side):
    """Where an edge comes into a box or goes out of it: first or last in the direction of the drawing."""
    return 'first' if (side == 'in') != edge.backwards else 'last'


def is_loop_at_gate(edge, start, end):
    """Whether a part of an edge leads from a box to itself and meets a gate of it. dot draws these far from the gate."""
    return start is end and not (start is edge.tail and end is edge.head)


def labelled_step(edge):
    """The part of an edge at which its label stands: the first one, but for a short loop."""
    return edge.steps[1] if len(edge.steps) > 1 and is_loop_at_gate(edge, *edge.steps[0][1:]) else edge.steps[0]


def cell(direction, length, port=''):
    width, height = (length, 4) if direction == DOWN else (4, length)
    return '<TD WIDTH="%d" HEIGHT="%d" FIXEDSIZE="TRUE"%s></TD>' % (width, height, port)


def gate_row(gates, direction, side, along):
    """The cells of one side of a box: an empty one up to each gate, and one whose middle is the gate."""
    places = sorted((place, edge.number, edge.id) for edge, (where, place) in gates.items() if where == side)
    cells, at = [], 0
    for place, _, port in places + [(along, 0, None)]:
        until = max(int(round(place)) - (2 if port else 0), at + 1)
        cells.append(cell(direction, until - at))
        at = until
        if port:
            cells.append(cell(direction, 4, ' PORT="%s"' % port))
            at += 4
    rows = ''.join(cells) if direction == DOWN else '</TR><TR>'.join(cells)
    return '<TD>%s</TD>' % (TABLE % ('', '<TR>%s</TR>' % rows))


def gated_label(size, direction, gates):
    """A label for dot that is a box with gates."""
    along = size.width if direction == DOWN else size.height
    before, after = (gate_row(gates, direction, side, along) for side in ('first', 'last'))
    if direction == DOWN:
        middle = '<TD WIDTH="%d" HEIGHT="%d"></TD>' % (size.width, max(1, size.height - 8))
        rows = '<TR>%s</TR><TR>%s</TR><TR>%s</TR>' % (before, middle, after)
    else:
        middle = '<TD WIDTH="%d" HEIGHT="%d"></TD>' % (max(1, size.width - 8), size.height)
        rows = '<TR>%s%s%s</TR>' % (before, middle, after)
    return '<%s>' % (TABLE % (' FIXEDSIZE="TRUE" WIDTH="%d" HEIGHT="%d"' % (size.width, size.height), rows))


def known_pairs(gates, edges, known):
    """Pairs of gates that follow each other at one box that was laid out before."""
    groups = {}
    for edge in edges:
        if 'g' + edge.id in gates and edge in known:
            box, place = known[edge]
            groups.setdefault(box, []).append((place, edge.number))
    for group in groups.values():
        names = ['gt%d' % number for _, number in sorted(group)]
        yield from zip(names, names[1:])


def border_point(picture, where, place):
    """The point of a gate on the border of a picture."""
    if picture.direction == DOWN:
        return place, 0.0 if where == 'first' else picture.size.height
    return 0.0 if where == 'first' else picture.size.width, place


def draw_loop(picture, edge, thing):
    """Draws an edge between the border of a box and a gate of it as a small bow outside."""
    x, y = picture.places[thing]
    size = picture.sizes[thing]
    where, place = picture.pictures[thing].gates[edge]
    out = -16 if where == 'first' else 16
    if picture.direction == DOWN:
        gate = x + place, y + (0 if where == 'first' else size.height)
        far = gate[0] + (BOW if place + 40 < size.width else -BOW), gate[1]
        points = [gate, (gate[0], gate[1] + out), (far[0], far[1] + out), far]
    else:
        gate = x + (0 if where == 'first' else size.width), y + place
        far = gate[0], gate[1] + (BOW if place + 40 < size.height else -BOW)
        points = [gate, (gate[0] + out, gate[1]), (far[0] + out, far[1]), far]
    if edge.head is thing:
        picture.arrows[edge] = far
    else:
        points.reverse()
    picture.curves.setdefault(edge, []).append(points)
