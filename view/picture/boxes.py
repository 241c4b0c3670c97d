"""Lays out boxes from the inside out, and takes the places that dot finds."""
from picture.curves import samples
from picture.gates import border_point, draw_loop, side_of
from picture.graph import Graph
from picture.pictures import ACROSS, DOWN, PAD, leaf
from picture.rows import in_rows
from picture.sizes import Size, least_width, text_size


def pictures_of(box, work):
    """The two pictures of a box, by direction."""
    inner = {each: pictures_of(each, work) for each in box.boxes}
    if not box.inside():
        return {direction: leaf(box, direction) for direction in (DOWN, ACROSS)}
    if not work.edges[box]:
        picture = in_rows(box, inner, work)
        return {DOWN: picture, ACROSS: picture}
    pictures = {direction: by_dot(box, direction, inner, work) for direction in (DOWN, ACROSS)}
    for direction, picture in pictures.items():
        for edge, (_, place) in picture.gates.items():
            work.known[direction].setdefault(edge, (box, place))
    return pictures


def by_dot(box, direction, inner, work):
    """The picture of a box in a direction."""
    graph = Graph(box, direction, inner, work)
    picture = graph.picture
    Answer(graph, work.dot.answer(graph.text())).take()
    for edge, thing in graph.loops:
        draw_loop(picture, edge, thing)
    picture.crossed = crossings(picture) + sum(each.crossed for each in picture.pictures.values())
    return picture


class Answer:
    """What dot found of a box, with the origin moved to the top left corner of the box."""

    def __init__(self, graph, found):
        self.graph, self.found, self.picture = graph, found, graph.picture
        _, _, width, self.height = map(float, found['bb'].split(','))
        self.top = PAD if graph.has_header else graph.header.height + 14
        whole = max(width, least_width(graph.box)) + 2 * PAD
        self.left = (whole - width) / 2
        self.picture.size = Size(whole, self.height + self.top + PAD)
        self.gates = {}

    def point(self, text):
        x, y = text.split(',')[-2:]
        return float(x) + self.left, self.height - float(y) + self.top

    def take(self):
        names = {each.id: each for each in self.graph.box.inside()}
        for each in self.found.get('objects', []):
            if 'pos' in each:
                self.take_node(each['name'], names.get(each['name']), self.point(each['pos']))
        edges = {edge.id: edge for edge in self.graph.work.edges[self.graph.box]}
        for each in self.found.get('edges', []):
            if each.get('id') in edges:
                self.take_edge(edges[each['id']], each)

    def take_node(self, name, thing, place):
        x, y = place
        if thing:
            size = self.picture.sizes[thing]
            self.picture.places[thing] = x - size.width / 2, y - size.height / 2
        elif name.startswith('g'):
            self.gates[name[1:]] = place

    def take_edge(self, edge, found):
        points, tip = [], None
        for piece in found['pos'].split(';')[0].split(' '):
            if piece[:2] in ('e,', 's,'):
                tip = self.point(piece)
            else:
                points.append(self.point(piece))
        if edge.backwards:
            points.reverse()
        if edge.id in self.gates:
            points = self.to_gate(edge, points)
        points, tip = self.to_own_border(edge, points, tip)
        self.picture.curves.setdefault(edge, []).append(points)
        if tip:
            self.picture.arrows[edge] = tip
        if 'lp' in found:
            self.picture.texts[edge] = self.point(found['lp'])

    def to_gate(self, edge, points):
        """Leads a part of an edge to the border that it crosses."""
        step = next(step for step in edge.steps if step[0] is self.graph.box)
        side = 'in' if step[1] == 'in' else 'out'
        where = side_of(edge, side)
        x, y = gate = self.gates[edge.id]
        self.picture.gates[edge] = where, x if self.graph.direction == DOWN else y
        border = border_point(self.picture, *self.picture.gates[edge])
        if side == 'in':
            return [border, border, gate, gate] + points[1:]
        return points + [points[-1], border, border]

    def to_own_border(self, edge, points, tip):
        """Leads an inner transition from the border itself, and back to it."""
        for node, where in ((edge.tail, 'first'), (edge.head, 'last')):
            if node.kind in ('inside', 'back') and node.home is self.graph.box:
                x, y = self.picture.places[node]
                border = border_point(self.picture, where, x if self.graph.direction == DOWN else y)
                if where == 'last':
                    points, tip = points + [points[-1], border, border], border
                else:
                    points = [border, border, points[0]] + points
        return points, tip


def crossings(picture):
    """How many points of lines, one each 12 pixels, stand in labels."""
    count = 0
    points = [each for parts in picture.curves.values() for each in samples(parts, 12)]
    for edge, (x, y) in picture.texts.items():
        size = text_size(edge)
        width, height = size.width / 2, (size.height - 2) / 2
        count += sum(1 for px, py in points if abs(px - x) < width and abs(py - y) < height)
    return count
