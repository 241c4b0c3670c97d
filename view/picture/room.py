"""Which places in a drawing are free: of lines, of texts, and of states and other small things."""

CELL = 32                                                    # lines and rectangles are kept by squares of this size
TAKEN = 200                                                  # what it costs to stand on a text or on a state


def overlap(one, other, spare=0.0):
    """Whether two rectangles, each as x, y, width and height, have a common part of more than that."""
    return (one[0] + spare < other[0] + other[2] and other[0] + spare < one[0] + one[2]
            and one[1] + spare < other[1] + other[3] and other[1] + spare < one[1] + one[3])


class Room:
    """Points of lines, each with the edge that it belongs to, and rectangles of what no text should stand on."""

    def __init__(self):
        self.points, self.rectangles = {}, {}

    def add_line(self, points, edge=None):
        for x, y in points:
            self.points.setdefault((int(x // CELL), int(y // CELL)), []).append((x, y, edge))

    def add(self, rectangle):
        for key in cells(rectangle):
            self.rectangles.setdefault(key, []).append(rectangle)

    def remove(self, rectangle):
        for key in cells(rectangle):
            self.rectangles[key].remove(rectangle)

    def taken(self, rectangle):
        """How many rectangles a rectangle would stand on."""
        return len({other for key in cells(rectangle) for other in self.rectangles.get(key, ()) if overlap(rectangle, other)})

    def lines_in(self, rectangle):
        """The points of lines in a rectangle, each as the edge that it belongs to."""
        x, y, width, height = rectangle
        return [edge for key in cells(rectangle) for px, py, edge in self.points.get(key, ())
                if x <= px <= x + width and y <= py <= y + height]

    def cost(self, rectangle):
        return len(self.lines_in(rectangle)) + TAKEN * self.taken(rectangle)

    def best(self, places):
        """The first of the rectangles that costs least, which is then taken."""
        found = min(places, key=self.cost)
        self.add(found)
        return found


def cells(rectangle):
    x, y, width, height = rectangle
    return [(column, row) for column in range(int(x // CELL), int((x + width) // CELL) + 1)
            for row in range(int(y // CELL), int((y + height) // CELL) + 1)]


def grown(rectangle, by):
    x, y, width, height = rectangle
    return x - by, y - by, width + 2 * by, height + 2 * by
