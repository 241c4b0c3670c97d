"""One drawing: a state, or the chart itself, with so many levels below it, and the transitions whose source stands there.

Each transition belongs to one drawing: an outer one to that of the parent, the others to that in which their state is
open."""
from chart_check import Junction

from picture.things import Box, Edge, Thing, turn_edges

# In a box with more edges than this, and more than 1.5 for each thing, transitions are listed instead of drawn; so they are
# in a box with more edges than the second number.
MOST_EDGES, MOST_EVER = 60, 200
ALL_LEVELS = 99


class Sheet:
    """The boxes, small things and edges of a drawing. `listed` has the ids of transitions that are to be listed, and with
    `all_listed` no transition is drawn."""

    def __init__(self, model, state, levels=ALL_LEVELS, listed=(), all_listed=False):
        self.model, self.all_listed, self.listed_ids = model, all_listed, set(listed)
        self.boxes, self.box_of, self.node_of, self.copies = [], {}, {}, {}
        self.root = self.box(state, None, levels)
        self.edges = []
        for each in model.transitions:
            owner = self.source_of(each)
            if owner:
                self.edges.append(Edge(each, owner))
        for edge in self.edges:
            self.join(edge)
        self.list_where_dense()
        self.drop_unused_junctions()
        self.turn()

    # -- boxes and junctions

    def box(self, state, home, levels):
        closed = self.model.below(state) if levels == 0 else 0
        box = Box(self.model, state, home, closed)
        self.boxes.append(box)
        self.box_of[state] = box
        if closed:
            return box
        for junction in state.junctions:
            node = Thing('junction', self.model.junction_ids[junction], box, junction.name)
            self.node_of[junction] = node
            box.nodes.append(node)
        box.boxes = [self.box(child, box, levels - 1) for child in state.children]
        return box

    def source_of(self, transition):
        """What a transition belongs to in this drawing, if it stands here."""
        if transition.kind == 'junction':
            return self.node_of.get(transition.owner)
        box = self.box_of.get(transition.owner)
        if box is None or transition.kind == 'outer' and box is self.root or transition.kind != 'outer' and box.closed:
            return None
        return box

    def closed_around(self, state):
        """The closed box that hides a state, or None where the state isn't in this drawing."""
        around = [self.box_of[each] for each in [state, *state.ancestors()] if each in self.box_of]
        return next((box for box in around if box.closed), None)

    # -- edges

    def join(self, edge):
        """Finds where an edge begins and ends. One that leaves the drawing is listed."""
        small = {'default': 'start', 'inner': 'inside'}.get(edge.kind)
        edge.tail = self.small(small, edge.owner, edge) if small else edge.owner
        edge.head = self.head_of(edge)
        if edge.head is None:
            edge.listed = True
            return
        if edge.head.kind == 'state' and edge.head.closed and edge.head.state is not edge.transition.destination:
            edge.lines = edge.lines + ['\u2192 ' + edge.transition.destination_text]
        edge.find_steps()

    def small(self, kind, box, edge):
        node = Thing(kind, {'start': 'd', 'inside': 'i', 'back': 'b'}[kind] + str(edge.number), box)
        box.nodes.append(node)
        return node

    def head_of(self, edge):
        destination = edge.transition.destination
        if isinstance(destination, Junction):
            return self.junction_head(edge, destination)
        box = self.box_of.get(destination)
        if box is None:
            return self.closed_around(destination)
        lists = edge.transition.lists
        if lists and edge.tail.home is box and all(each == ('inner', destination) for each in lists):
            return self.small('back', box, edge)
        return None if box is self.root else box

    def junction_head(self, edge, junction):
        """The node of a junction. An empty one ends the search wherever it stands, so it is drawn in each box that uses
        it."""
        box = edge.tail.home
        if junction.transitions or junction.state is box.state:
            return self.node_of.get(junction) or self.closed_around(junction.state)
        if (junction, box) not in self.copies:
            name_id = self.model.junction_ids[junction]
            self.copies[junction, box] = Thing('junction', name_id + '_' + box.shown, box, junction.name, name_id)
            box.nodes.append(self.copies[junction, box])
        return self.copies[junction, box]

    def list_where_dense(self):
        """Marks the edges that are written as a line and not drawn, most of them because a box would have too many."""
        edges_in = {}
        for edge in self.edges:
            for box, _, _ in edge.steps:
                edges_in.setdefault(box, []).append(edge)
        dense = {box for box, edges in edges_in.items() if self.all_listed or is_dense(box, edges)}
        for edge in self.edges:
            edge.listed = edge.listed or edge.id in self.listed_ids or any(box in dense for box, _, _ in edge.steps)
            if edge.listed:
                edge.owner.listed.append(edge)
                for node in (edge.tail, edge.head):
                    if node and node.kind in ('start', 'inside', 'back'):
                        node.home.nodes.remove(node)

    def drawn_edges(self):
        return [edge for edge in self.edges if not edge.listed]

    def drop_unused_junctions(self):
        """Drops copies of junctions to which no drawn edge leads, and junctions of which only the copies are drawn."""
        used = {edge.head for edge in self.drawn_edges()}
        copies = set(self.copies.values())
        copied = {self.node_of.get(junction) for (junction, _), copy in self.copies.items() if copy in used}
        for box in self.boxes:
            box.nodes = [node for node in box.nodes if node in used or node not in copies and node not in copied]

    def turn(self):
        """Finds the edges that run backwards."""
        through = {box: [] for box in self.boxes}
        for edge in self.drawn_edges():
            for box, start, end in edge.steps:
                if isinstance(start, Thing) and isinstance(end, Thing):
                    through[box].append((edge, start, end))
        for box, edges in through.items():
            turn_edges(box, edges)


def is_dense(box, edges):
    return len(edges) > MOST_EDGES and len(edges) > 1.5 * len(box.inside()) or len(edges) > MOST_EVER
