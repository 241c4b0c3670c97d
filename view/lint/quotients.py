"""Quotients whose divisor is made of inputs, and may be 0 where nothing has tested it."""
import common                                # noqa: F401, which finds the folder checks
from chart_check import Assign, Between, Read, Sign
from lint.dead import ANY
from lint.ranges import ALL, TooMany, all_of, few, shape
from lint.uses import parts_of


class Quotients:
    """What is known of inputs where a quotient is evaluated. Within an event they don't change, so that all tests hold that were
    passed on the way."""

    def __init__(self, chart, ends, ranges):
        self.chart, self.ends, self.ranges = chart, ends, ranges
        self.known, self.before, self.leading = {}, {}, {}
        lists = [(each, None) for _, _, each in chart.lists()] + [(each.transitions, each) for each in chart.junctions]
        for transitions, owner in lists:
            for place, each in enumerate(transitions):
                self.before[each.at] = transitions[:place], owner
                self.leading.setdefault(each.destination, []).append(each)

    def may_be_zero(self):
        """The quotients whose divisor reads an input and may be 0."""
        for transition in self.chart.transitions():
            yield from self.of_transition(transition)
        for state in self.chart.states:
            for kind, block in state.blocks.items():
                if has_quotients(block):
                    known = self.safely(lambda state=state, kind=kind: self.at_entry(state) if kind == 'entry' else [ALL])
                    yield from self.of_block(block, known)

    def of_transition(self, transition):
        """Those of the guard and the actions of a transition."""
        if transition.guard:
            known = self.safely(lambda: self.ahead(transition))
            yield from self.inside(transition.guard.expression, known)
        if has_quotients(transition.condition + transition.action):
            known = self.safely(lambda: self.after(transition))
            yield from self.of_block(transition.condition + transition.action, known)

    def of_block(self, block, known):
        """Those of an action."""
        for statement in block:
            if isinstance(statement, Assign):
                yield from self.inside(statement.value, known)

    def inside(self, expression, known):
        """Those of an expression. The right side of `&&` and `||` is evaluated only where the left one asks for it."""
        if isinstance(expression, Between) and expression.operator in ('&&', '||') and known is not None:
            yield from self.inside(expression.left, known)
            wanted = expression.operator == '&&'
            further = self.safely(lambda: all_of(known, self.ranges.cases(expression.left, wanted)))
            yield from self.inside(expression.right, further)
        elif isinstance(expression, Sign):
            yield from self.inside(expression.operand, known)
        elif isinstance(expression, Between):
            yield from self.inside(expression.left, known)
            yield from self.inside(expression.right, known)
            if expression.operator == '/' and self.is_open(expression, known):
                yield expression

    @staticmethod
    def safely(work):
        """The cases that are found, or None where there are too many."""
        try:
            return work()
        except TooMany:
            return None

    def is_open(self, quotient, known):
        """Whether a divisor is made of inputs and may be 0 in one of the cases that are known."""
        divisor = quotient.right
        if known is None or not any(isinstance(each, Read) and each.datum.kind == 'input' for each in parts_of(divisor)):
            return False
        not_zero = ('==', shape(divisor), 0), False
        for case in known:
            ends = self.ranges.interval(divisor, case)
            if not_zero not in case.others and (ends is None or ends[0] <= 0 <= ends[1]):
                return True
        return False

    def ahead(self, transition):
        """The cases in which a transition is tried: the guards of those before it that would have ended the search are false."""
        before, junction = self.before[transition.at]
        known = self.visited(junction) if junction else [ALL]
        for each in before:
            fits = each.event is None or each.event is transition.event
            if fits and each.guard and self.ends.ends_where_enabled(each, transition.event or ANY):
                known = all_of(known, self.ranges.cases(each.guard.expression, False))
        return known

    def after(self, transition):
        """The cases in which a transition is taken."""
        known = self.ahead(transition)
        return all_of(known, self.ranges.cases(transition.guard.expression)) if transition.guard else known

    def visited(self, junction):
        """The cases in which a junction is visited. A way that comes round to it again adds nothing."""
        if junction not in self.known:
            self.known[junction] = []
            self.known[junction] = few([case for each in self.leading.get(junction, ()) for case in self.after(each)])
        return self.known[junction]

    def at_entry(self, state):
        """The cases in which the entry action of a state runs."""
        if state.parent is None or state.parent.composition == 'and' or state.parent.history_at is not None:
            return [ALL]
        goals = [each for each in state.with_all_below() if each in self.leading]
        return few([case for goal in goals for each in self.leading[goal] for case in self.after(each)])


def has_quotients(block):
    """Whether an action has a quotient."""
    return any(isinstance(each, Between) and each.operator == '/' for statement in block if isinstance(statement, Assign)
               for each in parts_of(statement.value))
