"""What stands in a drawing: boxes in boxes, small things, and the edges between them."""
from picture import labels


class Thing:
    """What has a place in a drawing. The kind is state, junction, start (the dot of a default transition), inside (where an
    inner transition leaves the border) or back (where it comes back to it). `home` is the box that it stands in, and `shown`
    the id of what it shows, which is another than its own where it isn't the first that shows it."""

    def __init__(self, kind, name_id, home, name='', shown=None):
        self.kind, self.id, self.home, self.name, self.shown = kind, name_id, home, name, shown or name_id
        self.listed = []                                     # edges that are written into it and not drawn

    def homes(self):
        """The boxes that it stands in, from its own up to the root of the drawing."""
        home = self.home
        while home is not None:
            yield home
            home = home.home


class Box(Thing):
    """A state, or the chart itself. Of a closed one nothing inside is drawn; `closed` says how many states that are."""

    def __init__(self, model, state, home, closed):
        name_id = model.state_ids[state]
        super().__init__('state', name_id if home or not state.parent else name_id + '_open', home, state.name, name_id)
        self.state, self.closed = state, closed
        self.composition = 'leaf' if closed else state.composition
        self.path = model.paths[state]
        self.history = state.history_at is not None
        self.actions = labels.action_lines(model.written[state].blocks)
        self.boxes, self.nodes = [], []                      # child states, and junctions and the like
        parent = state.parent
        self.order = parent.children.index(state) + 1 if parent and parent.composition == 'and' else None

    def inside(self):
        return self.boxes + self.nodes


class Edge:
    """A transition in a drawing. `steps` has a box, a from and a to for each box that it runs through; where it comes into a
    box or goes out of it these are `in` and `out`."""

    def __init__(self, transition, owner):
        self.transition, self.owner = transition, owner
        self.shown = transition.id
        self.id, self.number, self.kind = transition.id, transition.number, transition.kind
        self.lines = transition.lines
        self.tail = self.head = None
        self.steps = []
        self.listed = False
        self.backwards = False                               # it runs against the direction of the drawing

    def find_steps(self):
        """Finds the boxes that it runs through: up to the lowest one that both ends stand in, and down from there."""
        homes = list(self.head.homes())
        up = [self.tail.home]
        while up[-1] not in homes:
            up.append(up[-1].home)
        down = homes[:homes.index(up[-1])][::-1]
        here = self.tail
        for box in up[:-1]:
            self.steps.append((box, here, 'out'))
            here = box
        for box, following in zip([up[-1]] + down, down + [self.head]):
            self.steps.append((box, here, following))
            here = 'in'


def turn_edges(box, edges):
    """Finds the edges of a box that run backwards: from a thing to one that a search in depth is in the midst of. Of those
    that cross a border the gates are then on the other sides, so that such an edge needn't run round a box."""
    following = {each: [] for each in box.inside()}
    for edge, start, end in edges:
        following[start].append((edge, end))
    state = {}

    def visit(thing):
        state[thing] = 'open'
        for edge, head in following[thing]:
            if state.get(head) == 'open' and head is not thing:
                edge.backwards = True
            elif head not in state:
                visit(head)
        state[thing] = 'done'

    for each in sorted(following, key=lambda each: each.kind != 'start'):
        if each not in state:
            visit(each)
