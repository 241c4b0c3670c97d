"""Which states can be entered and which junctions visited, as far as the lists of the chart tell."""
import common                                # noqa: F401, which finds the folder checks
from chart_check import State, home_of


class Reached:
    """The states that may become active, and the junctions that may be visited. A transition that is never taken leads nowhere.
    Events and guards aren't asked."""

    def __init__(self, chart, dead):
        self.chart, self.dead = chart, dead
        self.states, self.junctions = set(), set()
        self.done, self.ways, self.waiting, self.remembering = set(), set(), [], set()
        self.enter(chart.root, chart.root)
        while self.waiting:
            self.follow(*self.waiting.pop())

    def follow(self, state, kind):
        """Follows a list of a state with all junctions that it reaches."""
        seen, transitions = set(), list(state.lists[kind])
        while transitions:
            transition = transitions.pop()
            if transition.at in self.dead:
                continue
            goal = transition.destination
            if isinstance(goal, State):
                self.take(state, kind, goal)
            elif goal not in seen:
                seen.add(goal)
                self.junctions.add(goal)
                transitions += goal.transitions

    def take(self, state, kind, goal):
        home = home_of(state, kind, goal)
        if goal is home:
            self.defaults(home)
        else:
            self.enter(self.towards(home, goal), goal)

    def towards(self, state, goal):
        return next(child for child in state.children if child is goal or goal.is_below(child))

    def list_at(self, state, kind):
        """Puts a list by, to be followed once."""
        if (state, kind) not in self.done:
            self.done.add((state, kind))
            self.waiting.append((state, kind))

    def defaults(self, state):
        """Enters a child of an OR: with history any that may have been entered before, too."""
        if state.composition == 'or':
            self.list_at(state, 'default')
            if state.history_at is not None:
                self.remembering.add(state)
                for child in state.children:
                    if child in self.states:
                        self.enter(child, child)

    def enter(self, state, goal):
        """Enters a state on the way to a goal, which is that state or one below it."""
        if (state, goal) in self.ways:
            return
        self.ways.add((state, goal))
        self.states.add(state)
        self.list_at(state, 'inner')
        if state.parent:
            self.list_at(state, 'outer')
        if state.composition == 'and':
            for child in state.children:
                self.enter(child, goal if child is goal or goal.is_below(child) else child)
        elif goal is state:
            self.defaults(state)
        else:
            self.enter(self.towards(state, goal), goal)
        if state.parent in self.remembering:
            self.enter(state, state)
