"""Asks z3 whether a decision can be so at all, whatever its data are within their types and whatever states are active. The terms
of the conditions are those that the rules make of them."""
from chart_check import Active, Between, Sign, ends_of
from chart_rules import RunFault, Rules
from measure.parts import LOGIC, OUTCOME, VALUE

from suites.numbers import Flag, Number, Path, term_of
from suites.z3_found import z3

LONGEST_QUESTION = 300     # milliseconds


class AnyWorld(Rules):
    """The rules in a world of which nothing is known but the types of its data."""

    def __init__(self, chart, name):
        super().__init__(chart)
        self.path, self.name, self.ranges = Path(), name, []
        self.values = {datum: self.unknown(datum) for datum in chart.data}

    def unknown(self, datum):
        name = '%s.%s' % (self.name, datum.name)
        if datum.scale is None:
            return self.flag(name)
        term = z3.Int(name)
        least, greatest = ends_of(datum.scale)
        self.ranges += [term >= least, term <= greatest]
        return Number(self.path, datum.first(), term, datum.scale.fraction)

    def flag(self, name):
        term = z3.Bool(name)
        return Flag(self.path, False, lambda: term)

    def value(self, expression):
        if isinstance(expression, Active):
            return self.flag('%s.in %s' % (self.name, expression.state.path()))
        return super().value(expression)

    def number(self, mantissa, fraction):
        if isinstance(mantissa, Number):
            return Number(self.path, mantissa.concrete / 2 ** fraction, mantissa.term, fraction)
        return super().number(mantissa, fraction)


class Evaluation:
    """An evaluation of a decision in any world: the terms of its conditions, when each is evaluated, and the outcome."""

    def __init__(self, chart, decision, name):
        self.world = AnyWorld(chart, name)
        self.places = {id(each): place for place, each in enumerate(decision.conditions)}
        self.terms, self.when = [None] * len(self.places), [None] * len(self.places)
        self.outcome = self.term(decision.expression, z3.BoolVal(True))
        # A flag that was asked on the way, as whether a divisor is 0, would tell of some worlds alone.
        self.is_whole = not self.world.path.asked

    def term(self, expression, when):
        """The term of an expression that is evaluated where `when` holds."""
        if isinstance(expression, Between) and expression.operator in LOGIC:
            left = self.term(expression.left, when)
            both = expression.operator == '&&'
            right = self.term(expression.right, z3.And(when, left if both else z3.Not(left)))
            return z3.And(left, right) if both else z3.Or(left, right)
        if isinstance(expression, Sign) and expression.operator == '!':
            return z3.Not(self.term(expression.operand, when))
        term = term_of(self.world.value(expression))
        if id(expression) in self.places:
            place = self.places[id(expression)]
            self.terms[place], self.when[place] = term, when
        return term


def impossible(parts, goal):
    """Whether z3 finds that no values of the data give an outcome, a value or a pair."""
    decision = parts.decisions[goal.key[1]]
    try:
        one, other = (Evaluation(parts.chart, decision, name) for name in ('one', 'other'))
    except RunFault:
        return False
    if not one.is_whole:
        return False
    wanted = one.world.ranges + other.world.ranges
    if goal.kind == OUTCOME:
        wanted.append(one.outcome == goal.key[2])
    elif goal.kind == VALUE:
        wanted += [one.when[goal.key[2]], one.terms[goal.key[2]] == goal.key[3]]
    else:
        wanted += pair_terms(one, other, goal.key[2])
    solver = z3.Solver()
    solver.set('timeout', LONGEST_QUESTION)
    solver.add(*wanted)
    return solver.check() == z3.unsat


def pair_terms(one, other, place):
    """That two evaluations are a pair for the condition at a place, as pairs.py says."""
    terms = [one.outcome != other.outcome, one.when[place], other.when[place], one.terms[place] != other.terms[place]]
    for at, _ in enumerate(one.terms):
        if at != place:
            terms.append(z3.Or(z3.Not(one.when[at]), z3.Not(other.when[at]), one.terms[at] == other.terms[at]))
    return terms
