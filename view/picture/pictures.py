"""Gives each box, node, edge and label a place.

Each box is laid out on its own by Graphviz' `dot`, from the inside out, once from above to below and once from left to right.
In the picture of a box, each box in it is a node of fixed size. An edge that crosses a border does so at a place, its gate,
which the picture inside finds and the picture outside is told. So borders nest by construction, an edge meets a border where
it should, and `dot` never sees a cluster. Regions without edges between them stand in rows, and so do the states of a box
whose transitions are listed; these need no `dot`."""
from picture.dot import Dot
from picture.sizes import leaf_size

PAD = 14                                                     # between a border and what stands in it
DOWN, ACROSS = 'TB', 'LR'
SCREEN = 1.55                                                # the width of a screen by its height


class Picture:
    """A box as it is laid out in one direction, with places relative to its top left corner."""

    def __init__(self, box, direction):
        self.box, self.direction = box, direction
        self.size = None
        self.places = {}                                     # of each thing in it: x and y of its top left corner
        self.pictures = {}                                   # of each box in it
        self.sizes = {}
        self.curves = {}                                     # of each edge: its points here, in turn for Bezier curves
        self.arrows = {}                                     # of each edge that ends here: the tip
        self.texts = {}                                      # of each edge whose label stands here: the middle
        # Of each edge that crosses its border the side, first or last in the direction, and the place on it.
        self.gates = {}
        self.crossed = 0                                     # how much lines run over labels


class Work:
    """What the layout of all boxes has in common: the process of dot, the drawn edges that run through each box, how far
    things stand apart, and the shape that is wanted. `known` has, by direction, of an edge its gate at a box that was laid
    out before, so that edges between two boxes have their gates in the same order at both."""

    def __init__(self, sheet, spread=1.0, shape=SCREEN):
        self.spread, self.shape = spread, shape
        self.edges = {box: [] for box in sheet.boxes}
        for edge in sheet.drawn_edges():
            for step in edge.steps:
                self.edges[step[0]].append(edge)
        self.known = {DOWN: {}, ACROSS: {}}
        self.dot = Dot() if any(self.edges.values()) else None

    def end(self):
        if self.dot:
            self.dot.end()

    def cost(self, picture):
        return max(picture.size.width, picture.size.height * self.shape) * (1 + 0.02 * picture.crossed)

    def best(self, pictures):
        """The best of the pictures of a box."""
        return min(pictures.values(), key=self.cost)

    def chosen(self, pictures, direction):
        """The picture inside that fits one outside: with gates it must have the same direction."""
        return pictures[direction] if pictures[direction].gates else self.best(pictures)


def leaf(box, direction):
    """The picture of a box with nothing in it."""
    picture = Picture(box, direction)
    picture.size = leaf_size(box)
    return picture
