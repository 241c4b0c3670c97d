"""The rules of the folder checks, which note what a run covers. What they note are keys of goals, and for each evaluation of a
decision `('vector', decision, values, outcome)`, in which the value of a condition that isn't evaluated is None."""
from chart_rules import DEFAULT_DEPTH, DEFAULT_STEPS, RunFault, Rules

from measure.parts import CLIP, ENABLED, FAULT, OUTCOME, STATE, TRANSITION, VALUE

VECTOR = 'vector'
SIDES = {'block: saturate, at the lower end': 'lower', 'block: saturate, at the upper end': 'upper', 'block: wrap': 'wrap'}
FAULTS = {'fault depth': 'depth', **{'fault steps at ' + what: 'steps' for what in
                                     ('a junction', 'a send', 'an emit', 'a transition action')}}


class Role:
    """What an expression is for: a decision, a condition of one as its number and a place, what an assignment assigns, a
    quotient."""
    __slots__ = 'decision', 'condition', 'assignment', 'quotient'

    def __init__(self):
        self.decision = self.condition = self.assignment = self.quotient = None


def roles_of(parts):
    """The roles of the expressions of a chart. Two expressions that are written alike are two."""
    roles = {}

    def role(expression):
        return roles.setdefault(id(expression), Role())
    for decision in parts.decisions:
        role(decision.expression).decision = decision
        for place, condition in enumerate(decision.conditions):
            role(condition).condition = decision.number, place
    for each in parts.assignments:
        role(each.part.value).assignment = each.number
    for each in parts.quotients:
        role(each.part).quotient = each.number
    return roles


class Covered(Rules):
    """A run that notes what it covers."""

    def __init__(self, parts, depth=DEFAULT_DEPTH, steps=DEFAULT_STEPS):
        super().__init__(parts.chart, depth, steps)
        self.parts, self.roles = parts, roles_of(parts)
        self.noted = set()
        self.vector, self.assigned, self.is_blamed = [], None, False

    def value(self, expression):
        role = self.roles.get(id(expression))
        if role is None:
            return super().value(expression)
        if role.decision is not None:
            self.vector = [None] * len(role.decision.conditions)
        try:
            found = super().value(expression)
        except RunFault:
            self.blame(role)
            raise
        if role.condition is not None:
            self.vector[role.condition[1]] = self.truth(found, role)
        if role.decision is not None:
            self.decided(role.decision, tuple(self.vector), bool(found))
        self.assigned = role.assignment
        return found

    def truth(self, found, role):
        """The value of a condition."""
        return bool(found)

    def blame(self, role):
        """Notes the innermost quotient whose divisor is 0."""
        if role.quotient is not None and not self.is_blamed:
            self.noted.add((FAULT, 'zero', role.quotient))
            self.is_blamed = True

    def decided(self, decision, vector, outcome):
        """Is told of each evaluation of a decision."""
        self.noted.add((VECTOR, decision.number, vector, outcome))
        if decision.is_guard:
            self.noted.add((OUTCOME, decision.number, outcome))
        if len(vector) > 1:
            self.noted.update((VALUE, decision.number, place, value) for place, value in enumerate(vector) if value is not None)

    def met(self, case):
        if case in SIDES:
            self.noted.add((CLIP, self.assigned, SIDES[case]))
        elif case == 'block: overflow':
            self.noted.add((FAULT, 'overflow', self.assigned))
        elif case in FAULTS:
            self.noted.add((FAULT, FAULTS[case]))

    def is_enabled(self, transition):
        found = super().is_enabled(transition)
        if found:
            self.noted.add((ENABLED, self.parts.transition_ids[id(transition)]))
        return found

    def ran(self, transition):
        self.noted.add((TRANSITION, self.parts.transition_ids[id(transition)]))

    def start(self):
        return self.with_states(super().start)

    def react(self, event, inputs):
        return self.with_states(lambda: super(Covered, self).react(event, inputs))

    def with_states(self, work):
        """Does the work of the start or of an event, and notes the states that were entered in it."""
        self.marked.clear()
        result = work()
        self.noted.update((STATE, self.parts.state_numbers[state]) for state in self.marked)
        return result
