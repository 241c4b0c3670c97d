#!/usr/bin/env python3
r"""Answers a table of chart texts as the command `check` does, from the rules of the language alone.

    python3 checks/reference/chart_check.py < checks/tables/check_table.txt | diff - checks/tables/check_answers.txt

The form of a table is in tables.py. A row is one text, written as for chart_texts.py. Its answer is one line: `ok S states J
junctions T transitions P pairs`, in which the chart counts as a state, or the refusal `chart L:C: N Kind`, or `not a text`. With
the word `--without-history` the older form of the language is meant, without `history` and with at most 512 data and 512 events.

The first fault is told. Faults 1 to 8 are those of chart_syntax.py and come before all others. The others are looked for
in four passes: the names (9 to 11), the types (12 to 16), the structure (17 to 23 and 26), the pairs (24). A fault of an
earlier pass comes before one of a later pass. In one pass the fault that stands earlier in the text comes first, and at
one place the one of the lower number.

Names
    Events and data share one name space, and their declarations may stand behind their uses. The child states of a state
    have a name space of their own, and so have its junctions. Where a name is declared twice, it means its first
    declaration. The first name of a path is looked for among the children of the state in which the path stands, then
    among the children of its parent, and so on up to the children of the chart. The first match is taken, also where the
    rest of the path isn't found there. Each further name is a child of the state before it. A junction is looked for in
    the state in which its name stands, then in its parent, and so on up to the chart. What stands in a junction stands in
    the state that declares the junction, and a transition of a state stands in that state, an outer one too.
 9 NameTwice         An event or a datum, a state, or a junction has a name that an earlier event or datum, an earlier
                     child of the same state, or an earlier junction of the same state has. The place is the later name.
10 UnknownName       There is no such datum or event, no such state, no such junction. The place is the name that isn't
                     found, in a path the first of its names that isn't.
11 WrongKind         A datum where an event is wanted, or an event where a datum is wanted. The place is the name.

Types
    An expression is a flag or a number, or it has no type because there is a fault in it, and then there is no further
    fault of the expressions round it, nor of the guard or the assignment because of it.
    A number expression has a fraction F and a size m, both told before any run:
        literal          its own fraction; the least m with a mantissa of at most 2^m
        signed datum     its fraction; its width less 1
        unsigned datum   its fraction; its width
        -a               as a
        a + b, a - b     F, the greater of Fa and Fb; 1 + the greater of ma + F - Fa and mb + F - Fb
        a * b            Fa + Fb; ma + mb
        a / b            F, the greater of Fa and Fb; ma + F - Fa + Fb
12 TypeClash         `||`, `&&` or `!` with a number, `<`, `<=`, `>`, `>=`, `+`, `-`, `*` or `/` with a flag, `==` or `!=`
                     with a flag and a number: at the operator, where all its operands have a type. A guard that is a
                     number: at its bracket. An assigned value of the other sort than the datum: at the datum's name. A
                     first value of the other sort: at the first token of that value.
13 TooWide           A number expression with a size over 100 or a fraction over 64, or a comparison of numbers in which
                     the greater of ma + F - Fa and mb + F - Fb is over 100: at the operator. An assignment of a number to
                     a datum of fraction T where ma and what T is greater than Fa are over 100 together: at the datum's
                     name.
14 AssignsInput      An assignment to an input: at the datum's name.
15 EventKind         A transition's event that is an output event, a sent event that isn't local, an emitted one that
                     isn't an output event: at the event's name.
16 InitRange         A first value that is a number but no value of the datum's scale: at the first token of that value.
                     The number is the mantissa times 2^-F of the literal, also with a q.

Structure
    A state with children and no word is an OR; one with no children and no word is a leaf; the word decides otherwise. A
    state or junction is reached from a list where a transition of the list, or of a junction that is reached from it,
    leads to it, whatever its event and guard.
    The home of an outer list of s with destination d is the lowest state of which both are strictly below; that of an
    inner list of s is s.
17 EmptyComposition  A composition word without child states, or a chart without states: at the name of the state or
                     chart.
18 DefaultMissing    An OR with child states and no default transition: at the name of the state or chart.
19 DefaultUnwanted   Default transitions in an AND or a leaf: at the first word `default`.
20 DefaultOpen       The last transition of a default list, or of a junction reached from one, has an event or a guard: at
                     that transition, which begins with its word `default`, in a junction with its first token. Or an
                     empty junction is reached from a default list: at the name that the junction is declared with.
21 DefaultLeaves     A state that isn't strictly below s is reached from a default list of s: at the destination.
22 InnerLeaves       A state that is neither s nor below s is reached from an inner list of s: at the destination.
23 CrossesRegions    A state is reached from an outer or inner list, without fault 22 of that list, and the home is no OR:
                     at the destination.
26 HistoryUnwanted   `history` in an AND or a leaf: at the word.

Pairs
24 TooManyPairs      There are over 32,768 pairs of a list of a state and a transition that stands in the list or in a
                     junction reached from it: at the chart's name."""
from collections import namedtuple
from fractions import Fraction
from math import floor

import chart_syntax as syntax
from chart_syntax import WITH_HISTORY, Fault, answer_rows, read_chart

MOST_PAIRS = 32768
MOST_SIZE = 100
MOST_FRACTION = 64
LISTS = ('default', 'inner', 'outer')


# ---- the chart with its names looked up

Literal = namedtuple('Literal', 'mantissa fraction')
Truth = namedtuple('Truth', 'value')
Read = namedtuple('Read', 'datum')
Active = namedtuple('Active', 'state')
Sign = namedtuple('Sign', 'operator operand at')
Between = namedtuple('Between', 'operator left right at')
Assign = namedtuple('Assign', 'datum value at')
Send = namedtuple('Send', 'event at to')                     # to is a state, and the chart where no path is written
Emit = namedtuple('Emit', 'event at')
Guard = namedtuple('Guard', 'expression at')
# A transition's destination is a State or a Junction; `to_at` is the place of the destination.
Transition = namedtuple('Transition', 'at event event_at guard condition action destination to_at')
NumberType = namedtuple('NumberType', 'fraction size')
FLAG = 'flag'


class Named:
    """What has a name. Two of these are equal only where they are one."""

    def __init__(self, name):
        self.name, self.at = name.text, name.at

    def __repr__(self):
        return self.name


class Event(Named):
    """An event of a chart."""

    def __init__(self, written):
        super().__init__(written.name)
        self.kind = written.kind


class Datum(Named):
    """A datum of a chart. A flag has no scale."""

    def __init__(self, written):
        super().__init__(written.name)
        self.kind, self.mode = written.kind, written.mode or 'saturate'
        self.scale = None if written.sort == 'bool' else written.sort
        self.written_first = written.first

    def first(self):
        """The value before the start."""
        if self.written_first is None:
            return Fraction(0) if self.scale else False
        return first_value(self.written_first)


class Junction(Named):
    """A junction, and the state in which it is declared."""

    def __init__(self, written, state):
        super().__init__(written.name)
        self.state, self.transitions = state, []


class State(Named):
    """A state with its names looked up, or the chart itself."""

    def __init__(self, written, parent):
        super().__init__(written.name)
        self.parent = parent
        self.word, self.composition = written.word, written.composition()
        self.history_at = written.history
        self.children = [State(each, self) for each in written.states]
        self.junctions = [Junction(each, self) for each in written.junctions]
        self.blocks = {}
        self.lists = {}

    def with_all_below(self):
        """This state and all states below it, in the order of the text."""
        yield self
        for each in self.children:
            yield from each.with_all_below()

    def ancestors(self):
        """The states that it is strictly below, from its parent up to the chart."""
        state = self.parent
        while state is not None:
            yield state
            state = state.parent

    def is_below(self, other):
        return other in self.ancestors()

    def path(self):
        """The names on the way from the chart, which isn't named, to it."""
        return '/'.join([each.name for each in self.ancestors() if each.parent][::-1] + [self.name])


class Chart:
    """The whole chart: its root, data and events, and what the passes ask for all together."""

    def __init__(self, written):
        self.root = State(written.root, None)
        self.data = [Datum(each) for each in written.data]
        self.events = [Event(each) for each in written.events]
        self.states = list(self.root.with_all_below())
        self.junctions = [junction for state in self.states for junction in state.junctions]

    def lists(self):
        """Each list of each state, as the state, the kind and the transitions."""
        for state in self.states:
            for kind in LISTS:
                yield state, kind, state.lists[kind]

    def transitions(self):
        for _, _, transitions in self.lists():
            yield from transitions
        for junction in self.junctions:
            yield from junction.transitions

    def blocks(self):
        for state in self.states:
            yield from state.blocks.values()
        for transition in self.transitions():
            yield transition.condition
            yield transition.action


def reached_junctions(transitions):
    """The junctions that are reached from a list, each once."""
    reached, waiting = {}, list(transitions)
    while waiting:
        destination = waiting.pop().destination
        if isinstance(destination, Junction) and destination not in reached:
            reached[destination] = True
            waiting += destination.transitions
    return list(reached)


def reached_transitions(transitions):
    """The transitions of a list and of the junctions that are reached from it."""
    return list(transitions) + [each for junction in reached_junctions(transitions) for each in junction.transitions]


def pair_count(chart):
    return sum(len(reached_transitions(transitions)) for _, _, transitions in chart.lists())


def home_of(state, kind, destination):
    """The home of a transition that fires from that list of the state with that destination."""
    if kind != 'outer':
        return state
    return next(each for each in state.ancestors() if destination.is_below(each))


# ---- names

class Names:
    """Looks up every name of a chart and gathers the faults 9 to 11."""

    def __init__(self, written):
        self.faults = []
        self.chart = Chart(written)
        self.declared = {}
        for each in sorted(self.chart.data + self.chart.events, key=lambda each: each.at):
            self.declare(self.declared, each)
        self.state(self.chart.root, written.root)

    def fault(self, number, at):
        self.faults.append((at, number))

    def declare(self, names, thing):
        if thing.name in names:
            self.fault(9, thing.at)
        else:
            names[thing.name] = thing

    def state(self, state, written):
        """Declares what stands in a state, and looks its names up, and so for all states below it."""
        states, junctions = {}, {}
        for each in state.children:
            self.declare(states, each)
        for each in state.junctions:
            self.declare(junctions, each)
        for kind in ('entry', 'during', 'exit'):
            state.blocks[kind] = self.block(state, written.blocks.get(kind, []))
        for kind in LISTS:
            state.lists[kind] = [self.transition(state, each) for each in written.transitions[kind]]
        for junction, written_junction in zip(state.junctions, written.junctions):
            junction.transitions = [self.transition(state, each) for each in written_junction.transitions]
        for child, written_child in zip(state.children, written.states):
            self.state(child, written_child)

    # Each of these looks names up that stand in that state. What isn't found is None.

    def event(self, name):
        return self.declaration(name, Event)

    def datum(self, name):
        return self.declaration(name, Datum)

    def declaration(self, name, wanted):
        found = self.declared.get(name.text)
        if found is None:
            self.fault(10, name.at)
        elif not isinstance(found, wanted):
            self.fault(11, name.at)
        else:
            return found
        return None

    def path(self, state, path):
        for place in [state, *state.ancestors()]:
            found = first_named(place.children, path[0].text)
            if found:
                break
        else:
            return self.fault(10, path[0].at)
        for name in path[1:]:
            found = first_named(found.children, name.text)
            if not found:
                return self.fault(10, name.at)
        return found

    def junction(self, state, name):
        for place in [state, *state.ancestors()]:
            found = first_named(place.junctions, name.text)
            if found:
                return found
        return self.fault(10, name.at)

    def transition(self, state, written):
        event = self.event(written.event) if written.event else None
        guard = Guard(self.expression(state, written.guard.expression), written.guard.at) if written.guard else None
        condition, action = self.block(state, written.condition), self.block(state, written.action)
        if isinstance(written.destination, syntax.ToState):
            destination, to_at = self.path(state, written.destination.path), written.destination.path[0].at
        else:
            destination, to_at = self.junction(state, written.destination.name), written.destination.name.at
        event_at = written.event.at if written.event else None
        return Transition(written.at, event, event_at, guard, condition, action, destination, to_at)

    def block(self, state, written):
        return [self.statement(state, each) for each in written]

    def statement(self, state, written):
        if isinstance(written, syntax.Emit):
            return Emit(self.event(written.event), written.event.at)
        if isinstance(written, syntax.Send):
            event = self.event(written.event)
            return Send(event, written.event.at, self.path(state, written.path) if written.path else self.chart.root)
        return Assign(self.datum(written.name), self.expression(state, written.value), written.name.at)

    def expression(self, state, written):
        """An expression that stands in that state, with its names looked up."""
        if isinstance(written, syntax.Number):
            return Literal(syntax.mantissa_of(written), syntax.fraction_of(written))
        if isinstance(written, syntax.Flag):
            return Truth(written.text == 'true')
        if isinstance(written, syntax.Read):
            return Read(self.datum(written.name))
        if isinstance(written, syntax.Active):
            return Active(self.path(state, written.path))
        if isinstance(written, syntax.Sign):
            return Sign(written.operator, self.expression(state, written.operand), written.at)
        left, right = self.expression(state, written.left), self.expression(state, written.right)
        return Between(written.operator, left, right, written.at)


def first_named(things, name):
    return next((each for each in things if each.name == name), None)


# ---- types

def first_value(first):
    """A written first value: an exact number, or a bool."""
    if isinstance(first.value, syntax.Flag):
        return first.value.text == 'true'
    value = Fraction(syntax.mantissa_of(first.value), 2 ** syntax.fraction_of(first.value))
    return -value if first.minus else value


def ends_of(scale):
    """The least and the greatest mantissa."""
    if scale.sign == 's':
        return -2 ** (scale.width - 1), 2 ** (scale.width - 1) - 1
    return 0, 2 ** scale.width - 1


def is_value_of(scale, number):
    mantissa = number * 2 ** scale.fraction
    least, greatest = ends_of(scale)
    return mantissa == floor(mantissa) and least <= mantissa <= greatest


def type_of(expression, faults):
    """FLAG, a NumberType, or None where a fault or a name that isn't found is inside. The faults are added to the list."""
    if isinstance(expression, Literal):
        size = 0
        while expression.mantissa > 2 ** size:
            size += 1
        return NumberType(expression.fraction, size)
    if isinstance(expression, (Truth, Active)):
        return FLAG
    if isinstance(expression, Read):
        if expression.datum is None:
            return None
        scale = expression.datum.scale
        return NumberType(scale.fraction, scale.width - (scale.sign == 's')) if scale else FLAG
    if isinstance(expression, Sign):
        operand = type_of(expression.operand, faults)
        if operand is None:
            return None
        if (operand == FLAG) != (expression.operator == '!'):
            faults.append((expression.at, 12))
            return None
        return operand
    left, right = type_of(expression.left, faults), type_of(expression.right, faults)
    if left is None or right is None:
        return None
    found = type_between(expression.operator, left, right)
    if isinstance(found, int):
        faults.append((expression.at, found))
        return None
    return found


def type_between(operator, left, right):
    """The type of two operands with an operator between them, or the number of its fault."""
    if operator in ('||', '&&'):
        return FLAG if left == right == FLAG else 12
    if left == FLAG or right == FLAG:
        return FLAG if operator in ('==', '!=') and left == right else 12
    fraction = max(left.fraction, right.fraction)
    both = max(left.size + fraction - left.fraction, right.size + fraction - right.fraction)
    if operator in syntax.LEVELS[syntax.COMPARISON]:
        return FLAG if both <= MOST_SIZE else 13
    if operator in ('+', '-'):
        found = NumberType(fraction, 1 + both)
    elif operator == '*':
        found = NumberType(left.fraction + right.fraction, left.size + right.size)
    else:
        found = NumberType(fraction, left.size + fraction - left.fraction + right.fraction)
    return found if found.size <= MOST_SIZE and found.fraction <= MOST_FRACTION else 13


def type_faults(chart):
    """The faults of types, each as its place and its number. What is named by a name that isn't found has none."""
    faults = []
    for datum in chart.data:
        if datum.written_first is not None:
            value = first_value(datum.written_first)
            if isinstance(value, bool) != (datum.scale is None):
                faults.append((datum.written_first.at, 12))
            elif datum.scale and not is_value_of(datum.scale, value):
                faults.append((datum.written_first.at, 16))
    for transition in chart.transitions():
        if transition.event and transition.event.kind == 'output':
            faults.append((transition.event_at, 15))
        if transition.guard and type_of(transition.guard.expression, faults) not in (FLAG, None):
            faults.append((transition.guard.at, 12))
    for block in chart.blocks():
        for statement in block:
            statement_faults(statement, faults)
    return faults


def statement_faults(statement, faults):
    if isinstance(statement, Assign):
        datum, value = statement.datum, type_of(statement.value, faults)
        if datum is None:
            return
        if value is not None:
            if (value == FLAG) != (datum.scale is None):
                faults.append((statement.at, 12))
            elif datum.scale and value.size + max(0, datum.scale.fraction - value.fraction) > MOST_SIZE:
                faults.append((statement.at, 13))
        if datum.kind == 'input':
            faults.append((statement.at, 14))
    elif statement.event is not None and statement.event.kind != ('local' if isinstance(statement, Send) else 'output'):
        faults.append((statement.at, 15))


# ---- structure and pairs

def structure_faults(chart):
    """The faults of structure, each as its place and its number."""
    faults = []
    for state in chart.states:
        if not state.children and (state.word or state.parent is None):
            faults.append((state.at, 17))
        if state.composition == 'or' and state.children and not state.lists['default']:
            faults.append((state.at, 18))
        if state.composition != 'or' and state.lists['default']:
            faults.append((state.lists['default'][0].at, 19))
        if state.composition != 'or' and state.history_at is not None:
            faults.append((state.history_at, 26))
    for state, kind, transitions in chart.lists():
        if kind == 'default' and transitions:
            faults += open_faults(transitions)
        for transition in reached_transitions(transitions):
            if isinstance(transition.destination, State):
                number = destination_fault(state, kind, transition.destination)
                if number:
                    faults.append((transition.to_at, number))
    return faults


def open_faults(defaults):
    """The faults 20 of a default list."""
    faults, lists = [], [defaults]
    for junction in reached_junctions(defaults):
        if junction.transitions:
            lists.append(junction.transitions)
        else:
            faults.append((junction.at, 20))
    for transitions in lists:
        if transitions[-1].event or transitions[-1].guard:
            faults.append((transitions[-1].at, 20))
    return faults


def destination_fault(state, kind, destination):
    """The fault of a state that is reached from that list of the state, or None."""
    if kind == 'default':
        return None if destination.is_below(state) else 21
    if kind == 'inner' and destination is not state and not destination.is_below(state):
        return 22
    return None if home_of(state, kind, destination).composition == 'or' else 23


def pair_faults(chart):
    return [(chart.root.at, 24)] if pair_count(chart) > MOST_PAIRS else []


# ---- the answer

def faults_of(written):
    """The chart of a tree, and the faults of the first pass that has any, each once, from the first on."""
    names = Names(written)
    if names.faults:
        return None, sorted(set(names.faults))
    for each in (type_faults, structure_faults, pair_faults):
        faults = each(names.chart)
        if faults:
            return None, sorted(set(faults))
    return names.chart, []


def check_chart(text, language=WITH_HISTORY):
    """The chart of a text, or its first fault of all."""
    chart, faults = faults_of(read_chart(text, language))
    if faults:
        at, number = faults[0]
        raise Fault(number, at)
    return chart


def counts_text(chart):
    return 'ok %d states %d junctions %d transitions %d pairs' % (
        len(chart.states), len(chart.junctions), len(list(chart.transitions())), pair_count(chart))


if __name__ == '__main__':
    answer_rows(lambda text, language: counts_text(check_chart(text, language)))
