"""Finds places for the labels of transitions, their numbers, and the names of junctions."""
from math import inf, sqrt

from picture.curves import on_path, samples
from picture.room import TAKEN, Room, grown, overlap
from picture.sizes import JUNCTION, header_of, junction_name_width, text_size

NUMBER = 8, 10                                               # the size of a number at a tail
NAME_HEIGHT = 12
CLEAR = 5                                                    # nearer to a label than this a foreign line takes it for its own
LEADER = 20                                                  # a label that is farther from its line is joined to it


class SmallTexts:
    """The rectangles of the labels and numbers of edges and of the names of junctions, and a line to its edge for each label
    that stands far from it."""

    def __init__(self, placed):
        self.placed, self.sheet = placed, placed.sheet
        self.labels, self.numbers, self.names, self.leaders = {}, {}, {}, {}
        self.points = {edge: samples(path, 6) for edge, path in placed.paths.items()}
        self.solid = []                                      # what no label may stand on
        self.room = Room()
        self.fill_room()
        self.place_labels()
        for edge in placed.paths:
            if edge.transition.has_number():
                self.place_number(edge)
        for node, (x, y, _) in placed.nodes.items():
            if node.kind == 'junction' and not node.listed:
                self.place_name(node, x + JUNCTION / 2, y + JUNCTION / 2)

    def fill_room(self):
        for edge, points in self.points.items():
            self.room.add_line(points, edge)
        for node, (x, y, size) in self.placed.nodes.items():
            self.solid.append((x, y, size.width, size.height))
        for box, (x, y, size) in self.placed.boxes.items():
            self.room.add_line([(x + size.width * k / 60, y + end * size.height) for k in range(61) for end in (0, 1)])
            self.room.add_line([(x + end * size.width, y + size.height * k / 40) for k in range(41) for end in (0, 1)])
            if box.inside():
                header = header_of(box)
                self.solid.append((x + 8, y + 6, header.width + 4, header.height))
            else:
                self.solid.append((x, y, size.width, size.height))
        for each in self.solid:
            self.room.add(each)

    # -- labels

    def place_labels(self):
        """Leaves labels where dot has them, but for those that stand on something or over which lines run: these go to
        another place beside their edge where there is a better one."""
        for edge, (x, y) in self.placed.texts.items():
            width, height = text_size(edge)
            self.labels[edge] = x - width / 2, y - height / 2, width, height
        for each in self.labels.values():
            self.room.add(each)
        moved = []
        for edge, place in self.labels.items():
            self.room.remove(place)
            if self.is_good(edge, place):
                self.room.add(place)
            else:
                moved.append(edge)
        for edge in sorted(moved, key=lambda edge: -self.labels[edge][2] * self.labels[edge][3]):
            self.labels[edge] = self.best_label(edge)
            self.room.add(self.labels[edge])
        for edge, place in self.labels.items():
            near, point = nearest(place, self.points[edge])
            if near > LEADER:
                self.leaders[edge] = closest_in(place, point), point

    def beside(self, edge, place):
        """The points of foreign lines that are so near to a label that it could be theirs."""
        return [each for each in self.room.lines_in(grown(place, CLEAR)) if each not in (edge, None)]

    def is_good(self, edge, place):
        """Whether a label stands on nothing, has no line over it, is near its own line, and isn't nearer to a foreign one."""
        own = nearest(place, self.points[edge])[0]
        return (not self.room.taken(place) and not self.room.lines_in(grown(place, 2)) and own <= LEADER
                and not (own > CLEAR and self.beside(edge, place)) and not self.is_in_source(edge, place))

    def is_in_source(self, edge, place):
        """Whether the label of an outer transition stands in the state that it leaves, where inner ones stand."""
        if edge.kind != 'outer' or edge.tail in edge.head.homes():
            return False
        x, y, size = self.placed.boxes[edge.tail]
        return overlap(place, (x, y, size.width, size.height), 0.5)

    def best_label(self, edge):
        """The first of the places for a label that costs least. What is quickly told is asked first."""
        best, least = None, inf
        for place in self.label_places(edge):
            cost = TAKEN * (self.room.taken(place) + self.is_in_source(edge, place))
            for more in (self.line_cost, self.distance_cost):
                cost += more(edge, place) if cost < least else 0
            if cost < least:
                best, least = place, cost
        return best

    def line_cost(self, edge, place):
        return len(self.room.lines_in(grown(place, 2))) + 0.3 * len(self.beside(edge, place))

    def distance_cost(self, edge, place):
        return 0.1 * max(0, nearest(place, self.points[edge])[0] - CLEAR)

    def label_places(self, edge):
        """Places for a label: where dot has it, near that, and on both sides along its edge, then farther off."""
        x, y, width, height = first = self.labels[edge]
        places = [first] + [(x + dx, y + dy, width, height) for dx in (-12, -6, 0, 6, 12) for dy in (-8, -4, 4, 8)]
        points = samples(self.placed.paths[edge][:2], 14)
        for px, py in points[1:max(2, int(len(points) * 0.85))]:
            for off in (7, 22, 40):
                for dx in (off, -off - width):
                    places += [(px + dx, py + dy, width, height) for dy in (-height / 2, -height, 0)]
                places += [(px - width / 2, py + dy, width, height) for dy in (off - 1, 1 - off - height)]
        whole = self.placed.size
        return [first] + [each for each in places[1:] if each[0] > 6 and each[1] > 6 and each[0] + width < whole.width - 6
                          and each[1] + height < whole.height - 6]

    def clashes(self):
        """The edges whose labels stand on another label, on a state, a junction or the name of a state, or in the state that they
        leave."""
        found, seen = [], []
        for edge, place in self.labels.items():
            if any(overlap(place, other, 0.5) for other in seen + self.solid) or self.is_in_source(edge, place):
                found.append(edge)
            else:
                seen.append(place)
        return found

    # -- numbers and names

    def place_number(self, edge):
        width, height = NUMBER
        places = []
        for distance in (11, 15, 20, 26, 34, 44):
            (x, y), (dx, dy) = on_path(self.placed.paths[edge], distance)
            for side in (1, -1):
                places += [(x - side * off * dy - width / 2, y + side * off * dx - height / 2, width, height)
                           for off in (7, 9)]
        self.numbers[edge] = self.room.best(places)

    def place_name(self, node, x, y):
        width = junction_name_width(node)
        right, left = (9, 6, 12, 18), (-9, -6, -12, -18)
        offsets = [(9, -6), (-9 - width, -6), (6, -18), (-6 - width, -18), (6, 7), (-6 - width, 7), (-width / 2, -20),
                   (-width / 2, 9)]
        offsets += [(dx, dy) for dx in right for dy in (-13, 2, -6)]
        offsets += [(dx - width, dy) for dx in left for dy in (-13, 2, -6)]
        offsets += [(-width / 2, -30), (-width / 2, 19), (26, -6), (-26 - width, -6)]
        places = [(x + dx, y + dy, width, NAME_HEIGHT) for dx, dy in offsets]
        self.names[node] = self.room.best(self.within(node, places))

    def within(self, node, places):
        """The places for the name of a junction, moved into the box in which it stands, without those over the frame of another
        box, where any is left."""
        left, top, right, bottom = inner_frame(self.placed.boxes[node.home])
        moved = [(max(left, min(x, right - width)), y, width, height) for x, y, width, height in places]
        moved = [each for each in moved if top <= each[1] and each[1] + each[3] <= bottom] or moved
        frames = [(x, y, size.width, size.height) for box, (x, y, size) in self.placed.boxes.items() if box in node.home.boxes]
        return [each for each in moved if not any(overlap(each, frame) for frame in frames)] or moved


def inner_frame(place):
    """The ends of a box within its frame: left, top, right and bottom."""
    x, y, size = place
    return x + 3, y + 3, x + size.width - 3, y + size.height - 3


def closest_in(rectangle, point):
    """The point of a rectangle that is nearest to a point."""
    x, y, width, height = rectangle
    return min(max(point[0], x), x + width), min(max(point[1], y), y + height)


def nearest(rectangle, points):
    """How near a line comes to a rectangle, and the point of the line that does."""
    left, top, width, height = rectangle
    right, bottom = left + width, top + height
    best, least = None, inf
    for point in points:
        x, y = point
        dx = left - x if x < left else x - right if x > right else 0
        dy = top - y if y < top else y - bottom if y > bottom else 0
        if dx * dx + dy * dy < least:
            best, least = point, dx * dx + dy * dy
    return sqrt(least), best
