"""A drawing with all places counted from its own top left corner."""
from picture.boxes import pictures_of
from picture.pictures import ACROSS, SCREEN, Work


class Placed:
    """Where each box, node, edge and label of a drawing stands. `spread` says how far things stand apart, 1 being usual."""

    def __init__(self, sheet, spread=1.0, shape=SCREEN):
        self.sheet = sheet
        self.boxes, self.nodes, self.curves, self.arrows, self.texts = {}, {}, {}, {}, {}
        work = Work(sheet, spread, shape)
        try:
            picture = work.best(pictures_of(sheet.root, work))
        finally:
            work.end()
        self.size = picture.size
        self.take(picture, 0, 0, picture.size)
        self.paths = {edge: self.path(edge) for edge in sheet.drawn_edges()}

    def take(self, picture, x, y, size):
        """Takes the places of a picture that stands at x and y and was stretched to that size: what is in it then stands in
        the middle at the top."""
        self.boxes[picture.box] = x, y, size
        dx, dy = x + (size.width - picture.size.width) / 2, y
        for edge, parts in picture.curves.items():
            for part in parts:
                points = [(px + dx, py + dy) for px, py in part]
                self.move_ends(picture, edge, points, (x, y, size))
                self.curves.setdefault(edge, []).append((picture.box, points))
        for own, theirs in ((picture.arrows, self.arrows), (picture.texts, self.texts)):
            for key, (px, py) in own.items():
                theirs[key] = px + dx, py + dy
        for edge in picture.arrows:
            if edge.head.kind == 'back' and edge.head.home is picture.box:
                self.arrows[edge] = self.curves[edge][-1][1][-1]
        for thing, (px, py) in picture.places.items():
            if thing in picture.pictures:
                self.take(picture.pictures[thing], px + dx, py + dy, picture.sizes[thing])
            else:
                self.nodes[thing] = px + dx, py + dy, picture.sizes[thing]

    def move_ends(self, picture, edge, points, place):
        """A border that was moved outwards by stretching is still where an inner transition begins and ends."""
        x, y, size = place
        across = picture.direction == ACROSS
        if edge.tail.kind == 'inside' and edge.tail.home is picture.box:
            points[0] = points[1] = (x, points[0][1]) if across else (points[0][0], y)
        if edge.head.kind == 'back' and edge.head.home is picture.box:
            points[-1] = points[-2] = (x + size.width, points[-1][1]) if across else (points[-1][0], y + size.height)

    def path(self, edge):
        """The points of an edge from its tail to its head, as Bezier curves one after the other."""
        order = [step[0] for step in edge.steps]
        parts = sorted(self.curves[edge], key=lambda part: order.index(part[0]))
        return [points for _, points in parts]
