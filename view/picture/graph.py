"""What dot is told of one box: its things as nodes, the parts of edges that run through it, and the gates on its border."""
from picture.gates import COMPASS, gated_label, is_loop_at_gate, known_pairs, labelled_step, side_of
from picture.pictures import ACROSS, DOWN, Picture
from picture.sizes import Size, header_of, label_size, node_size

SPACE = ('<<TABLE BORDER="0" CELLBORDER="0" CELLSPACING="0" CELLPADDING="0" FIXEDSIZE="TRUE" WIDTH="%d" HEIGHT="%d"><TR><TD>'
         '</TD></TR></TABLE>>')
NODE_APART = 0.32                                            # in inches, as all that dot is told
RANK_APART = {DOWN: 0.30, ACROSS: 0.34}
GATES_APART = 0.14
CLOSE = 15                                                   # ways between the same two junctions stand so much closer, in pixels


class Graph:
    """The text for dot of a box in a direction. `first` and `last` have the names that stand in the first and in the last
    rank, and `loops` the edges that dot isn't told of."""

    def __init__(self, box, direction, inner, work):
        self.box, self.direction, self.work = box, direction, work
        self.picture = Picture(box, direction)
        self.header = header_of(box)
        self.nodes, self.lines, self.first, self.last, self.loops = [], [], [], [], []
        # In the direction across dot begins a rank from below. Regions are told in the order in which they should stand.
        for each in box.boxes[::-1] if direction == ACROSS and box.composition == 'and' else box.boxes:
            self.add_box(each, work.chosen(inner[each], direction))
        for each in box.nodes:
            self.add_node(each)
        self.pairs = between_two_junctions(work.edges[box])
        for edge in work.edges[box]:
            for _, start, end in [step for step in edge.steps if step[0] is box]:
                self.add_edge(edge, start, end)
        self.has_header = direction == DOWN and bool(self.first)
        self.order_ranks()
        self.order_regions()

    def node(self, name, size, **more):
        attributes = {'width': inches(size.width), 'height': inches(size.height), 'label': '""', 'fixedsize': 'true', **more}
        self.nodes.append('%s [%s];' % (name, ' '.join('%s=%s' % each for each in attributes.items())))

    def add_box(self, box, picture):
        self.picture.pictures[box] = picture
        self.picture.sizes[box] = picture.size
        if picture.gates:
            label = gated_label(picture.size, self.direction, picture.gates)
            self.node(box.id, picture.size, shape='plaintext', margin=0, label=label)
        else:
            self.node(box.id, picture.size, shape='box')

    def add_node(self, node):
        self.picture.sizes[node] = node_size(node)
        shape = {'junction': 'box' if node.listed else 'circle', 'start': 'circle'}.get(node.kind, 'point')
        self.node(node.id, node_size(node), shape=shape)
        if node.kind == 'inside':
            self.first.append(node.id)
        elif node.kind == 'back':
            self.last.append(node.id)

    def add_edge(self, edge, start, end):
        """Tells dot a part of an edge. One that runs backwards is told reversed."""
        if is_loop_at_gate(edge, start, end):
            self.loops.append((edge, start))
            return
        names = [self.end_name(edge, thing, side) for side, thing in (('in', start), ('out', end))]
        more = ['id="%s"' % edge.id]
        if edge.backwards:
            names.reverse()
        if end is not edge.head:
            more.append('dir=none')
        elif edge.backwards:
            more.append('dir=back')
        if edge.lines and self.box is labelled_step(edge)[0]:
            size = label_size(edge)
            height = size.height - (CLOSE if self.direction == ACROSS and edge in self.pairs else 0)
            more.append('label=' + SPACE % (size.width + 1, height + 1))
        if edge.kind == 'default':
            more.append('weight=3')
        self.lines.append('%s -> %s [%s];' % (names[0], names[1], ' '.join(more)))

    def end_name(self, edge, thing, side):
        """The name of what a part of an edge begins or ends at: a gate of the box, a thing in it, or a gate of a box in
        it."""
        if thing == side:
            gate = 'g' + edge.id
            self.node(gate, Size(1, 1), shape='point')
            (self.first if side_of(edge, side) == 'first' else self.last).append(gate)
            return gate
        if thing is (edge.tail if side == 'in' else edge.head):
            return thing.id
        where = self.picture.pictures[thing].gates[edge][0]
        return '%s:%s:%s' % (thing.id, edge.id, COMPASS[self.direction, where])

    def order_ranks(self):
        """Tells which names stand in the first and the last rank, and in which order gates stand that are known from
        before."""
        if self.has_header:
            self.node('header', Size(self.header.width + 10, self.header.height + 8), shape='box')
            self.first.insert(0, 'header')
        for names, rank in ((self.first, 'source'), (self.last, 'sink')):
            if names:
                self.nodes.append('{ rank=%s; %s }' % (rank, ' '.join(each + ';' for each in names)))
        if self.has_header:
            self.nodes += ['header -> %s [style=invis];' % each for each in self.first[1:]]
        for gates in (self.first, self.last):
            for one, other in known_pairs(gates, self.work.edges[self.box], self.work.known[self.direction]):
                # In the direction across dot counts the things of a rank from below.
                pair = (one, other) if self.direction == DOWN else (other, one)
                self.nodes.append('%s -> %s [style=invis];' % pair)

    def order_regions(self):
        """Tells that regions stand beside each other in their order."""
        regions = [each.id for each in self.box.boxes] if self.box.composition == 'and' else []
        if len(regions) > 1:
            self.nodes.append('{ rank=same; %s [style=invis]; }' % ' -> '.join(regions))

    def text(self):
        apart = RANK_APART[self.direction]
        if any(picture.gates for picture in self.picture.pictures.values()):
            apart += GATES_APART
        head = ('digraph { rankdir=%s; nodesep=%.3f; ranksep=%.3f; splines=true; node [fontsize=10]; edge [fontsize=10 arrowsize=0.7];'
                % (self.direction, NODE_APART * self.work.spread, apart * self.work.spread))
        return '\n'.join([head] + self.nodes + self.lines) + '\n}\n'


def between_two_junctions(edges):
    """The edges between two junctions that aren't the only ones between them."""
    ways = {}
    for edge in edges:
        if edge.tail.kind == edge.head.kind == 'junction' and edge.tail is not edge.head:
            ways.setdefault(frozenset((edge.tail, edge.head)), []).append(edge)
    return {edge for each in ways.values() if len(each) > 1 for edge in each}


def inches(pixels):
    return '%.4f' % (pixels / 72)
