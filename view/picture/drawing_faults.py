"""What is wrong with a drawing, for checks.

A drawing is right where each box stands in its parent and beside its siblings, each transition is drawn once or listed once,
begins at its source and ends at its destination from the right side, its parts meet at borders, and no label stands on
another label, on a state, a junction or a name, or in the state that its outer transition leaves. `dot` promises none of the last.
Regions stand in their order, names of junctions within their box and over no frame, and ways between the same two junctions close
to each other."""
from picture.curves import far, samples
from picture.graph import between_two_junctions
from picture.room import overlap
from picture.sizes import header_of, text_size

NEAR = 2.5                                                   # from a border, in pixels
BROKEN = 6                                                   # between two parts of an edge
WAY = 20                                                     # the room for one of several ways between the same two junctions


def rectangle(place):
    x, y, size = place
    return x, y, size.width, size.height


def holds(outer, inner):
    return (outer[0] <= inner[0] and outer[1] <= inner[1] and inner[0] + inner[2] <= outer[0] + outer[2] + 0.01
            and inner[1] + inner[3] <= outer[1] + outer[3] + 0.01)


def from_border(place, point):
    """How far a point is from the border of a rectangle."""
    x, y, width, height = place
    nearest = min(max(point[0], x), x + width), min(max(point[1], y), y + height)
    return far(nearest, point) or min(point[0] - x, x + width - point[0], point[1] - y, y + height - point[1])


def called(thing):
    return getattr(thing, 'path', '') or thing.name or thing.id


def place_of(placed, thing):
    """Where a thing stands; an inner transition begins and ends at the border of its state."""
    if thing.kind in ('inside', 'back'):
        thing = thing.home
    return rectangle(placed.boxes[thing] if thing in placed.boxes else placed.nodes[thing])


def box_faults(drawn):
    placed = drawn.placed
    for box in drawn.sheet.boxes:
        own = rectangle(placed.boxes[box])
        header = header_of(box)
        if header.width + 10 > own[2] or header.height > own[3]:
            yield 'the texts of %s are larger than it' % called(box)
        things = [(each, rectangle(placed.boxes[each] if each in placed.boxes else placed.nodes[each])) for each in box.inside()]
        for at, (one, first) in enumerate(things):
            if not holds(own, first):
                yield '%s stands out of %s' % (called(one), called(box))
            if overlap(first, (own[0] + 10, own[1] + 6, header.width, header.height - 4), 1):
                yield '%s stands on the texts of %s' % (called(one), called(box))
            for other, second in things[at + 1:]:
                if overlap(first, second, 0.5):
                    yield '%s and %s overlap' % (called(one), called(other))


def edge_faults(drawn):
    placed = drawn.placed
    for edge in drawn.sheet.edges:
        text = edge.transition.text
        if edge.listed:
            if edge.owner.listed.count(edge) != 1 or edge in placed.paths:
                yield '%s is listed %d times' % (text, edge.owner.listed.count(edge))
            continue
        parts, tip = placed.paths[edge], placed.arrows.get(edge)
        if len(parts) != len(edge.steps):
            yield '%s has %d parts of %d' % (text, len(parts), len(edge.steps))
        if tip is None:
            yield '%s has no head' % text
            continue
        for thing, point in ((edge.tail, parts[0][0]), (edge.head, tip)):
            distance = from_border(place_of(placed, thing), point)
            if distance > NEAR:
                yield '%s is %.1f from the border of %s' % (text, distance, called(thing))
        for one, other in zip(parts, parts[1:]):
            if far(one[-1], other[0]) > BROKEN:
                yield '%s is broken at a border, by %.0f' % (text, far(one[-1], other[0]))


def label_faults(drawn):
    texts = drawn.texts
    labels = list(texts.labels.items())
    for at, (edge, place) in enumerate(labels):
        for other, second in labels[at + 1:]:
            if overlap(place, second, 0.5):
                yield 'the labels of %s and %s overlap' % (edge.transition.text, other.transition.text)
        if any(overlap(place, other, 0.5) for other in texts.solid):
            yield 'the label of %s stands on a state, a junction or a name' % edge.transition.text
        if not holds(rectangle((0, 0, drawn.placed.size)), place):
            yield 'the label of %s stands out of the drawing' % edge.transition.text
        if edge.kind == 'outer' and edge.tail not in edge.head.homes() and overlap(place, place_of(drawn.placed, edge.tail), 0.5):
            yield 'the label of %s stands in the state that it leaves' % edge.transition.text
    drawable = {edge for edge in drawn.sheet.drawn_edges() if edge.lines}
    if drawable != set(texts.labels):
        yield '%d labels are drawn of %d' % (len(texts.labels), len(drawable))


def name_faults(drawn):
    """Names of junctions that are cut off, or that stand over a frame."""
    for node, place in drawn.texts.names.items():
        if not holds(rectangle(drawn.placed.boxes[node.home]), place):
            yield 'the name of the junction %s stands out of %s' % (node.name, called(node.home))
        for box in drawn.sheet.boxes:
            if box.home is node.home and overlap(place, rectangle(drawn.placed.boxes[box]), 0.5):
                yield 'the name of the junction %s stands over the frame of %s' % (node.name, called(box))


def region_faults(drawn):
    """Regions that stand in another order than that of the text, from the left to the right and then from above to below."""
    for box in drawn.sheet.boxes:
        if box.composition == 'and':
            places = [rectangle(drawn.placed.boxes[each]) for each in box.boxes]
            for at, (one, other) in enumerate(zip(places, places[1:])):
                if not (other[0] >= one[0] + one[2] - NEAR or other[1] >= one[1] + one[3] - NEAR):
                    yield 'the regions %s and %s stand in another order' % (called(box.boxes[at]), called(box.boxes[at + 1]))


def way_faults(drawn):
    """Ways between the same two junctions, side by side, that take more height than their labels and the room for each ask for."""
    placed = drawn.placed
    for box in drawn.sheet.boxes:
        edges = [edge for edge in drawn.sheet.drawn_edges() if edge.tail.home is box]
        ways = {}
        for edge in between_two_junctions(edges):
            ways.setdefault(frozenset((edge.tail, edge.head)), []).append(edge)
        for (one, other), group in ((tuple(pair), group) for pair, group in ways.items()):
            (x, y, _), (to_x, to_y, _) = placed.nodes[one], placed.nodes[other]
            heights = [point[1] for edge in group for point in samples(placed.paths[edge], 4)]
            most = abs(y - to_y) + sum(text_size(edge).height for edge in group if edge.lines) + WAY * len(group)
            if abs(x - to_x) > abs(y - to_y) and max(heights) - min(heights) > most:
                yield 'the ways between %s and %s take %.0f in height' % (one.name, other.name, max(heights) - min(heights))


def faults_of(sheets):
    """All that is wrong with the drawings of a chart."""
    model = sheets.model
    for drawn in sheets.all:
        for faults in (box_faults, edge_faults, label_faults, name_faults, region_faults, way_faults):
            yield from faults(drawn)
    edges = [edge.transition for drawn in sheets.all for edge in drawn.sheet.edges]
    states = [box.state for drawn in sheets.all for box in drawn.sheet.boxes if box is not drawn.sheet.root]
    if sheets.all[0].state is model.chart.root:
        if sorted(each.number for each in edges) != list(range(len(model.transitions))):
            yield '%d transitions are drawn or listed of %d' % (len(edges), len(model.transitions))
        if len(states) != len(set(states)) or set(states) != set(model.chart.states[1:]):
            yield '%d states are drawn of %d' % (len(states), len(model.chart.states) - 1)


def small_faults(drawn):
    """How many numbers and names of junctions stand on a label, a state or each other: these aren't promised."""
    small = list(drawn.texts.numbers.values()) + list(drawn.texts.names.values())
    others = list(drawn.texts.labels.values()) + drawn.texts.solid
    return (sum(any(overlap(each, other, 1) for other in others) for each in small)
            + sum(overlap(one, other, 1) for at, one in enumerate(small) for other in small[at + 1:]))


def lines_over(drawn):
    """How many lines run through a state that isn't theirs, and how many over a label: dot promises neither."""
    through = over = 0
    for edge, path in drawn.placed.paths.items():
        points = samples(path, 4)
        for box in drawn.sheet.boxes:
            if not box.inside() and box is not edge.tail and box is not edge.head:
                x, y, width, height = rectangle(drawn.placed.boxes[box])
                through += any(x + 2 < px < x + width - 2 and y + 2 < py < y + height - 2 for px, py in points)
        for x, y, width, height in drawn.texts.labels.values():
            over += any(x + 1 < px < x + width - 1 and y + 3 < py < y + height - 3 for px, py in points)
    return through, over
