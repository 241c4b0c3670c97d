"""What a search has found, and what is missing. A search gives each node that it comes to, which is kept where it has something
new."""
import time
from collections import defaultdict, deque

from measure.covered import VECTOR
from measure.parts import CLIP, FAULT, OUTCOME, PAIR, VALUE
from measure.suite import evaluations_of, is_met

MOST_KEPT = 4000            # so many nodes are kept to go on from
MOST_RECENT = 12            # so many runs to a decision that isn't covered are kept


class Finder:
    """The goals, the shortest run to each key that was noted, and nodes to go on from."""

    def __init__(self, parts, machine, longest, until):
        self.parts, self.machine, self.longest, self.until = parts, machine, longest, until
        self.goals, self.missing = parts.goals, list(parts.goals)
        self.by_key, self.kept, self.near = {}, [], {}
        self.signatures, self.shapes = set(), set()
        self.recent, self.undecided = defaultdict(lambda: deque(maxlen=MOST_RECENT)), set()
        self.last_gain = time.process_time()
        self.excluded = set()
        self.start = machine.first
        self.want()
        self.give(self.start)

    def is_over(self):
        return not self.open_goals() or time.process_time() > self.until

    def open_goals(self):
        """The goals that are missing and not known to be out of reach."""
        return [goal for goal in self.missing if goal.key not in self.excluded]

    def give(self, node):
        """Is given a node that a search came to, and says whether it had something new."""
        new = [key for key in node.noted if key not in self.by_key]
        for key in node.noted:
            if key not in self.by_key or node.length < self.by_key[key].length:
                self.by_key[key] = node
        for key in self.machine.rules.nearer:
            self.near[key] = node
        for number in {key[1] for key in node.noted if key[0] == VECTOR} & self.undecided:
            self.recent[number].append(node)
        if new:
            self.last_gain = time.process_time()
            self.update()
        signature = node.before and node.before.active, node.event, node.noted
        is_new = bool(new) or signature not in self.signatures
        self.signatures.add(signature)
        if node.result == 'ok' and (is_new or node.active not in self.shapes):
            self.shapes.add(node.active)
            self.kept.append(node)
            if len(self.kept) > MOST_KEPT:
                del self.kept[:MOST_KEPT // 4]
        return is_new

    def update(self):
        """Finds the goals that are missing still."""
        evaluations = evaluations_of(self.by_key)
        self.missing = [goal for goal in self.missing if not is_met(goal, self.by_key, evaluations)]
        self.want()

    def want(self):
        """Tells the rules what is missing, so that they measure how near they come."""
        self.undecided = self.open_decisions()
        rules = self.machine.rules
        wanted = set()
        for goal in self.missing:
            if goal.kind in (CLIP, FAULT, VALUE):
                wanted.add(goal.key)
            elif goal.kind == OUTCOME and len(self.parts.decisions[goal.key[1]].conditions) == 1:
                wanted.add((VALUE, goal.key[1], 0, goal.key[2]))
        rules.nearest = {key: rules.nearest.get(key) for key in wanted}
        self.near = {key: node for key, node in self.near.items() if key in wanted}

    def open_decisions(self):
        """The numbers of the decisions of which an outcome, a value or a pair is missing."""
        return {goal.key[1] for goal in self.open_goals() if goal.kind in (OUTCOME, VALUE, PAIR)}

    def evaluated(self):
        """For each decision that isn't covered nodes whose lines evaluated it: the first ones in each way, and recent ones."""
        found = {number: list(self.recent[number]) for number in self.undecided}
        for key, node in self.by_key.items():
            if key[0] == VECTOR and key[1] in found:
                found[key[1]].append(node)
        return found
