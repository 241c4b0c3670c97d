"""What there is to cover in a chart.

A decision is a guard, or what is assigned to a flag where it has `&&` or `||`. Its conditions are its operands under `&&`, `||` and
`!` that read a datum or ask for a state; `true`, `false` and comparisons of literals are none. A flag that is compared with `==` or
`!=` is a part of that one condition.

The goals of a chart are

    state        each state but the chart, entered
    transition   each transition, on a way that ends at a state or at an empty junction; of one from which every search comes back,
                 as it does where only `[false]` goes on, that it is enabled, so that its condition action runs
    outcome      each guard, true and false
    value        each condition of a decision that has several, true and false
    pair         each condition of a decision: two evaluations in which it differs, the decision differs, and each other condition
                 has one value or isn't evaluated in one of the two, which is MC/DC by unique cause
    clip         each assignment of a number that may not fit its datum: the lower and the upper end of `saturate`, `wrap`
    fault        each quotient whose divisor may be 0, each assignment with `error` that may not fit; and `depth` and `steps` where
                 the chart has no bounds within those of the run

Which assignments may not fit, and which divisors may be 0, is told by the ranges of the types alone."""
from collections import namedtuple

from bounds import bounds_of
from chart_check import Active, Assign, Between, Junction, Read, Sign, check_chart
from chart_rules import DEFAULT_DEPTH, DEFAULT_STEPS
from chart_syntax import BLOCKS, expression_text, statement_text
from lint.dead import constant

from measure.ranges import may_be_zero, sides_out_of_range

STATE, TRANSITION, OUTCOME, VALUE, PAIR, CLIP, FAULT = KINDS = 'state transition outcome value pair clip fault'.split()
PLURALS = {STATE: 'states', TRANSITION: 'transitions', OUTCOME: 'outcomes of guards', VALUE: 'values of conditions',
           PAIR: 'conditions by MC/DC', CLIP: 'clips', FAULT: 'faults'}
LOGIC = '&&', '||'
ENABLED = 'enabled'

# A goal has a key by which a run notes it, the place of its part in the chart, that part in words, and what is to come of it. The
# owner is the state or the transition in whose drawing it is.
Goal = namedtuple('Goal', 'kind key at where what owner')

# A decision has the expression, the conditions as expressions and as texts, and whether it is a guard.
Decision = namedtuple('Decision', 'number expression conditions texts text is_guard at where owner')

# What stands at a place of the chart: an assignment with its text, or a quotient with the text of its divisor.
Written = namedtuple('Written', 'number part text at where owner')


def conditions_of(expression, written):
    """The operands under `&&`, `||` and `!`, each with the tree it was read as, from left to right."""
    if isinstance(expression, Between) and expression.operator in LOGIC:
        return conditions_of(expression.left, written.left) + conditions_of(expression.right, written.right)
    if isinstance(expression, Sign) and expression.operator == '!':
        return conditions_of(expression.operand, written.operand)
    return [(expression, written)]


def reads(expression):
    """Whether the value hangs on the world."""
    if isinstance(expression, Between):
        return reads(expression.left) or reads(expression.right)
    if isinstance(expression, Sign):
        return reads(expression.operand)
    return isinstance(expression, (Read, Active))


def quotients_of(expression, written):
    """The quotients of an expression, each with the tree it was read as."""
    if isinstance(expression, Between):
        yield from quotients_of(expression.left, written.left)
        yield from quotients_of(expression.right, written.right)
        if expression.operator == '/':
            yield expression, written
    elif isinstance(expression, Sign):
        yield from quotients_of(expression.operand, written.operand)


def is_shut(transition):
    """Whether the guard is false whatever the world is."""
    return transition.guard is not None and constant(transition.guard.expression) is False


def ending_junctions(chart):
    """The junctions from which some way leads to a state or to an empty junction."""
    found = {junction for junction in chart.junctions if not junction.transitions}
    count = -1
    while len(found) > count:
        count = len(found)
        found |= {junction for junction in chart.junctions for each in junction.transitions if not comes_back(each, found)}
    return found


def comes_back(transition, ending):
    """Whether every search that goes this transition comes back."""
    return is_shut(transition) or isinstance(transition.destination, Junction) and transition.destination not in ending


def place_of(model, transition):
    """Where a transition stands, in words."""
    if transition.kind == 'junction':
        return 'junction %s, transition %d' % (transition.owner.name, transition.place)
    return '%s, %s %d' % (model.paths[transition.owner] or 'chart', transition.kind, transition.place)


class Parts:
    """The decisions, assignments and quotients of a chart, and its goals."""

    def __init__(self, model, depth=DEFAULT_DEPTH, steps=DEFAULT_STEPS):
        self.model, self.chart = model, model.chart
        self.decisions, self.assignments, self.quotients = [], [], []
        self.transition_ids = {id(each.resolved): each.number for each in model.transitions}
        self.state_numbers = {state: number for number, state in enumerate(self.chart.states)}
        for state in self.chart.states:
            for kind in BLOCKS:
                where = '%s, %s' % (model.paths[state] or 'chart', kind)
                self.block(state.blocks[kind], model.written[state].blocks.get(kind, []), where, model.state_ids[state])
        for each in model.transitions:
            self.transition(each)
        self.goals = list(self.all_goals(depth, steps))
        self.never = dict(self.constants())

    def transition(self, each):
        """The decisions, assignments and quotients of a transition."""
        found, written, where = each.resolved, each.written, place_of(self.model, each)
        if found.guard:
            self.decision(found.guard.expression, written.guard.expression, True, found.guard.at, where, each.id)
        self.block(found.condition, written.condition, where, each.id)
        self.block(found.action, written.action, where, each.id)

    def block(self, statements, written, where, owner):
        for found, each in zip(statements, written):
            if not isinstance(found, Assign):
                continue
            if found.datum.scale:
                self.assignments.append(Written(len(self.assignments), found, statement_text(each), found.at, where, owner))
                self.add_quotients(found.value, each.value, where, owner)
            elif isinstance(found.value, (Between, Sign)) and len(conditions_of(found.value, each.value)) > 1:
                self.decision(found.value, each.value, False, found.at, where, owner)
            else:
                self.add_quotients(found.value, each.value, where, owner)

    def decision(self, expression, written, is_guard, at, where, owner):
        conditions = [pair for pair in conditions_of(expression, written) if reads(pair[0])]
        self.decisions.append(Decision(
            len(self.decisions), expression, [found for found, _ in conditions], [expression_text(each) for _, each in conditions],
            expression_text(written), is_guard, at, where, owner))
        self.add_quotients(expression, written, where, owner)

    def add_quotients(self, expression, written, where, owner):
        for found, each in quotients_of(expression, written):
            self.quotients.append(Written(len(self.quotients), found, expression_text(each), found.at, where, owner))

    def constants(self):
        """The goals that never come since a guard is always true or always false, by their keys, with why."""
        for decision in self.decisions:
            value = constant(decision.expression)
            if value is not None:
                why = 'it is always %s' % word(value)
                yield (OUTCOME, decision.number, not value), why
                yield from (((PAIR, decision.number, place), why) for place in range(len(decision.conditions)))
        for each in self.model.transitions:
            if is_shut(each.resolved):
                yield from (((kind, each.number), 'its guard is always false') for kind in (ENABLED, TRANSITION))

    # -- goals

    def all_goals(self, depth, steps):
        """The goals by their kinds, each kind in the order of the text."""
        model = self.model
        for state in self.chart.states[1:]:
            yield Goal(STATE, (STATE, self.state_numbers[state]), state.at, 'state ' + model.paths[state], 'entered',
                       model.state_ids[state])
        ending = ending_junctions(self.chart)
        for each in model.transitions:
            key, what = ((ENABLED, each.number), 'enabled') if comes_back(each.resolved, ending) else (
                (TRANSITION, each.number), 'ran')
            yield Goal(TRANSITION, key, each.resolved.at, '%s `%s`' % (place_of(model, each), each.text), what, each.id)
        for kind in (OUTCOME, VALUE, PAIR):
            for each in self.decisions:
                yield from decision_goals(kind, each)
        yield from self.clips()
        yield from self.faults(depth, steps)

    def clips(self):
        for each in self.assignments:
            datum = each.part.datum
            if datum.mode == 'error':
                continue
            sides = sides_out_of_range(each.part)
            for side in ([side for side in ('lower', 'upper') if side in sides] if datum.mode == 'saturate' else
                         ['wrap'] if sides else []):
                words = 'wraps' if side == 'wrap' else 'saturates at the %s end' % side
                yield Goal(CLIP, (CLIP, each.number, side), each.at, '%s `%s`' % (each.where, each.text), words, each.owner)

    def faults(self, depth, steps):
        for each in self.assignments:
            if each.part.datum.mode == 'error' and sides_out_of_range(each.part):
                yield Goal(FAULT, (FAULT, 'overflow', each.number), each.at, '%s `%s`' % (each.where, each.text),
                           'ends with overflow %s' % each.part.datum.name, each.owner)
        for each in self.quotients:
            if may_be_zero(each.part.right):
                yield Goal(FAULT, (FAULT, 'zero', each.number), each.at, '%s `%s`' % (each.where, each.text), 'ends with zero',
                           each.owner)
        bounds = bounds_of(without_shut(self.model))
        for word, most, place in (('depth', depth, 0), ('steps', steps, 1)):
            if bounds is None or bounds[place] > most:
                yield Goal(FAULT, (FAULT, word), self.chart.root.at, 'chart', 'ends with %s' % word, 's0')


def without_shut(model):
    """The chart without the transitions whose guards are always false, which the bounds would count."""
    chart = check_chart(model.text)
    for holder in [state.lists for state in chart.states] + [vars(junction) for junction in chart.junctions]:
        for name, each in holder.items():
            if isinstance(each, list):
                holder[name] = [transition for transition in each if not is_shut(transition)]
    return chart


def decision_goals(kind, decision):
    """The goals of that kind of a decision."""
    text = '%s `%s`' % (decision.where, decision.text)
    if kind == OUTCOME and decision.is_guard:
        for value in (True, False):
            yield Goal(OUTCOME, (OUTCOME, decision.number, value), decision.at, text, 'is %s' % word(value), decision.owner)
    for place, condition in enumerate(decision.texts):
        if kind == VALUE and len(decision.texts) > 1:
            for value in (True, False):
                yield Goal(VALUE, (VALUE, decision.number, place, value), decision.at, text,
                           '`%s` is %s' % (condition, word(value)), decision.owner)
        if kind == PAIR:
            yield Goal(PAIR, (PAIR, decision.number, place), decision.at, text, '`%s` decides' % condition, decision.owner)


def word(value):
    return 'true' if value else 'false'
