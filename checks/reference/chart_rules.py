#!/usr/bin/env python3
r"""Runs a chart over an event file by the rules of the language alone, as plainly as they can be said.

    python3 checks/reference/chart_rules.py CHART EVENTS [--depth D] [--steps S]
    python3 checks/reference/chart_rules.py --table < checks/tables/run_table.txt | diff - checks/tables/run_answers.txt

The first form writes what the command `rules` writes, with the same line on standard error and the same status. The depth
is 1 to 32, by default 8, and the steps are 1 to 50,000, by default 10,000.

The second form runs a table in one process, whose form is in tables.py. A row is one run, of three fields with a tab between them:
`DEPTH STEPS`, or `-` for the default bounds; the chart text; the event file. The answer is one line of three fields with a tab
between them: the status, standard output, standard error. Texts are written as in the table of chart_texts.py, so that a tab in
them stands as `\t`, and ends of lines in the answer stand as `\n`. The answer `not a run` is given where a line has no such form.
With the word `--without-history` before the others either form means the older form of the language.

The world
    The world is the set of active states, the values of the data, the list of outputs emitted in this event, the number
    of steps used in this event, and for some ORs with history the child that was marked last. The chart is the root of
    its states, and it counts as a state. A state is bare where it is active and none of its children is.

Cost
    Each visit of a junction, each send, each emit and each run of a transition action that isn't empty costs one step,
    and it is paid before it is done. A cost when all steps are used is the fault `steps`. A fault ends the run with the
    world as it stands.

Block
    Statements run in order under a life: `on s`, which holds where s is active, or `bare s`, which holds where s is bare.
    Directly after each send the life is tested, and nowhere else. Where it doesn't hold the block is cut: its rest isn't
    run, nor the rest of the work that the block belongs to. Only the marks are asked, so a state that was left and
    entered again goes on. The life of the outer and the inner search and of the during action of s is `on s`. That of the
    entry action, the exit action and the default search of s is `bare s`. That of the transition actions of a firing with
    home P is `bare P`. An assignment of a number drops the bits of the value behind the datum's fraction, by floor. Where
    the mantissa then is out of range, `saturate` takes the nearest end of the range, `wrap` adds or takes away a multiple
    of 2^width, and `error` is the fault `overflow` with the datum as it was.

Expression
    Operands come from left to right, the right one of `&&` only where the left is true, that of `||` only where it is
    false. Sums, differences, products and comparisons are exact. A quotient is the floor of the exact quotient at the
    greater of the fractions of its operands, as they are told before any run; a divisor of 0 is the fault `zero`. `in(S)`
    says whether S is active.

Send
    A send at the greatest depth is the fault `depth`; that is asked first. Then a step is paid. Then the root, or the
    state that the send is directed to, is processed with the sent event one depth deeper, and afterwards the event before
    is the current one again. A directed send to a state that isn't active does nothing after paying. What the processing
    gives is dropped. An emit pays a step and appends its event to the outputs.

Search of a list
    A transition is enabled where it has no event or its event is the current one, and then its guard, if any, is true.
    The guard isn't evaluated where the event isn't the current one. A transition that isn't enabled hands on to the rest
    of the list, and the end of the list is No. An enabled one runs its condition action, and where that is cut the search
    gives Stop. Then a destination state gives Fire with that state and the transition action. A destination junction
    costs a step. An empty junction gives End. The list of another is searched: after No the rest of the first list is
    searched in the world as it now stands; after Fire the transition action of the first transition is put in front of
    the others; End and Stop are handed on.

Exit of s
    Nothing where s isn't active. Otherwise the children are exited, in an AND each from the last to the first, in an OR
    the active one. Then, where s is bare, its exit action runs, and where that wasn't cut and s is bare, the mark of s
    goes.

Enter s on the way to d, which is s or below s
    Nothing unless the parent is active, s isn't, and a parent that is an OR is bare; the root is entered without a
    parent. Otherwise s is marked, a parent with history remembers s, and the entry action of s runs; where it is cut,
    entering ends. Then a leaf is done. An OR above d enters its child towards d on the way to d. An OR that is d does its
    defaults. An AND enters each child from the first to the last, the one that is d or above d on the way to d, each
    other on the way to itself.

Defaults of s
    Where s remembers a child, that child is entered on the way to itself. Otherwise the default list is searched. On Fire
    with state e the transition actions are played with home s, and where none was cut the child of s towards e is entered
    on the way to e. On Stop nothing more is done.

Play of transition actions with home P
    Each action that isn't empty, in the order of the way, costs a step and then runs, until one is cut.

Take with home P, destination d and actions
    The active child of P is exited, if there is one. Where P is bare the actions are played. Where none was cut and P is
    bare, the child of P towards d is entered on the way to d; where d is P, the defaults of P are done.

Process of an active s, which gives Stay or Out of a home
    1. The outer list is searched. Fire is taken with its home P and gives Out of P, also where the taking was cut short.
       Stop gives Stay.
    2. After No or End the during action runs. Where it is cut the result is Stay.
    3. The inner list is searched. Fire is taken with home s and gives Stay. Stop gives Stay.
    4. After No or End a leaf gives Stay. An OR processes its active child, if any; Out of s becomes Stay, and another
       result is handed on. An AND processes each child that is active when its turn comes, from the first to the last;
       Out of a home ends this and is handed on.

Start and event
    At the start the root is entered on the way to itself with no current event, at depth 0. At an event the inputs of the
    line are set, the outputs and the steps are emptied, and the root is processed with the event at depth 0. The current
    event at the start and at `tick` has no name, so it is none of a transition's events.

Event file
    A line ends with byte 10, which the last line may lack, and one byte 13 directly before the end of a line is dropped.
    Tokens are separated by spaces and tabs. A line without a token, or whose first token begins with `#`, is skipped; it
    counts as a line. The first token is `tick` or an input event. Each other one is NAME=VALUE with an input's name. A
    VALUE is `true` or `false` for a flag; for a number it is an optional `-`, digits, and optionally a point and digits,
    with at most 36 digits, and equals a value of the scale. Inputs that aren't named keep their values.
    1 LineTooLong     Over 4,096 bytes before the end of the line. It comes before the others of its line.
    2 UnknownEvent    The first token is neither `tick` nor an event.
    3 NotInputEvent   It is a local or an output event.
    4 UnknownInput    Another token has no `=`, or what stands before its first `=` isn't an input.
    5 InputTwice      An earlier token of the line names the same input.
    6 BadValue        What follows isn't a VALUE of the type.
    Tokens are judged from the left, and one token by the least number. The file is refused with `event: 5 TooManyLines`
    at an event after 1,000,000 events, and with `event: 6 FileTooLong` at the line that has byte 67,108,865 of the file,
    its end included, unless a line before is refused or that line is too long by an earlier byte.

Trace
    A line for the start and for each event: `INDEX EVENT [STATES] VALUES OUTPUTS RESULT`. The states are all active ones
    but the root, in the order of the text, each by its path. The values are NAME=VALUE of all data in the order of
    declaration. The outputs are in the order in which they were emitted. Empty values and outputs are `-`. The result is
    `ok`, `depth`, `steps`, `zero` or `overflow NAME`, and the trace ends after the first line with another one than
    `ok`."""
import re
import sys
import threading
from collections import Counter, namedtuple
from fractions import Fraction
from math import floor

import tables
from chart_check import (Active, Assign, Emit, Literal, Read, Sign, State, Truth, check_chart, ends_of, home_of, is_value_of,
                         type_of)
from chart_syntax import (COMPARISON, LEVELS, MOST_DIGITS, WITH_HISTORY, WITHOUT_HISTORY, Fault, NotAText, line_of,
                          text_of)
from demands import demand
from programs import Ended

DEFAULT_DEPTH, MOST_DEPTH = 8, 32
DEFAULT_STEPS, MOST_STEPS = 10000, 50000
LONGEST_LINE = 4096
LONGEST_FILE = 67108864
MOST_EVENTS = 1000000
LINE_FAULTS = {1: 'LineTooLong', 2: 'UnknownEvent', 3: 'NotInputEvent', 4: 'UnknownInput', 5: 'InputTwice', 6: 'BadValue'}
TOO_MANY_LINES, FILE_TOO_LONG = 'event: 5 TooManyLines\n', 'event: 6 FileTooLong\n'
USAGE = ('usage: flowc check CHART, fmt CHART, rules CHART EVENTS, compile CHART, exec CODE EVENTS, run CHART EVENTS, '
         'upgrade CODE, bounds CHART, shrink CODE, net NET SCHEDULE, selftest N; --depth D, --steps S')

# What the rules tell apart. A run counts how often it met each of these.
CASES = """
block: assignment of a flag
block: assignment in range
block: assignment drops bits by floor
block: saturate, at the lower end
block: saturate, at the upper end
block: wrap
block: overflow
block: emit
block: send
block: directed send to an active state
block: directed send to a state that isn't active
block: the life on s holds after a send
block: the life on s doesn't hold after a send
block: the life bare s holds after a send
block: the life bare s doesn't hold after a send
block: s was left and entered again by its send, and goes on
fault depth
fault steps at a junction
fault steps at a send
fault steps at an emit
fault steps at a transition action
fault zero
expression: the right side of && isn't evaluated
expression: the right side of || isn't evaluated
expression: a quotient that isn't exact
expression: a negative quotient that isn't exact
expression: in(S) is true
expression: in(S) is false
outer search: No
outer search: End
outer search: Stop
outer search: Fire
inner search: No
inner search: End
inner search: Stop
inner search: Fire with s
inner search: Fire with a state below s
default search: Stop
default search: Fire with a child
default search: Fire with a state below a child
search: another event
search: the guard is false
search: the condition action is cut
search: a transition without event at the start
search: an empty junction
search: the list of a junction gives No and the rest is searched
search: the list of a junction gives Fire and an action is put in front
search: the list of a junction gives End
search: the list of a junction gives Stop
exit: s isn't active
exit: an AND, from the last to the first
exit: an OR with an active child
exit: an OR without active child
exit: s isn't bare after its children
exit: the exit action is cut
exit: the mark goes
enter: the root
enter: the parent isn't active
enter: s is active
enter: the parent remembers s
enter: the entry action is cut
enter: a leaf
enter: an OR above d
enter: an OR that is d
enter: an AND, a child on the way to d
enter: an AND, a child on the way to itself
defaults: the remembered child
defaults: an OR with history that remembers none
defaults: a transition action is cut
play: an empty action
play: an action that isn't empty
play: several actions that aren't empty
take: the home has an active child
take: the home has no active child
take: the home isn't bare after the exit
take: a transition action is cut
take: the destination is below the home
take: the destination is the home
take: the home of an outer transition is above the parent
process: during action cut
process: a leaf
process: an OR without active child
process: an OR, Out of itself becomes Stay
process: an OR, Out of another is handed on
process: an OR, Stay
process: an AND, a child that isn't active at its turn
process: an AND, Out ends it
process: an AND, Stay of all
process: the result of a send's process is Out
event: a named event
event: tick
event: an input is set
event: an input keeps its value
event: a comment
event: a line without token
event: 1 LineTooLong
event: 2 UnknownEvent
event: 3 NotInputEvent
event: 4 UnknownInput
event: 5 InputTwice
event: 6 BadValue
""".strip().split('\n')
# The rules ask this too, but the answer is always the same: the test follows work that was done under the very same life.
NEVER_MET = """
exit: s isn't bare after its exit action
enter: a parent that is an OR isn't bare
take: the home isn't bare after the actions
""".strip().split('\n')


class RunFault(Exception):
    """A fault of a run; its text is the result in the trace."""


class LineFault(Exception):
    """The number of a fault of an event line."""

    def __init__(self, number):
        super().__init__(number)
        self.number = number


class FileTooLong(Exception):
    """An event file has a byte past the greatest length."""


# The outcomes of a search. Fire has a destination state and the transition actions in the order of the way.
Fire = namedtuple('Fire', 'state actions')
NO, END, STOP = 'No', 'End', 'Stop'

# The outcomes of a block, and of all that may be cut.
DONE, CUT = 'done', 'cut'

# The result of a process is STAY or a state, the home that was left by Out.
STAY = 'Stay'

Life = namedtuple('Life', 'word state')                      # the word is 'on' or 'bare'


class Rules:
    """A chart with its bounds, and its world."""

    def __init__(self, chart, depth=DEFAULT_DEPTH, steps=DEFAULT_STEPS, met=None):
        self.chart, self.most_depth, self.most_steps = chart, depth, steps
        self.cases = Counter() if met is None else met
        self.active = set()
        self.values = {datum: datum.first() for datum in chart.data}
        self.outputs = []
        self.used = 0
        self.remembered = {}
        # The current event, or None at the start and at `tick`, and the depth of sends.
        self.event = None
        self.depth = 0
        # This is no part of the world: how often each state was marked, which only the count of cases asks.
        self.marked = Counter()
        self.starting = False

    def met(self, case):
        self.cases[case] += 1

    # -- the world

    def is_bare(self, state):
        return state in self.active and not any(child in self.active for child in state.children)

    def active_child(self, state):
        return next((child for child in state.children if child in self.active), None)

    def holds(self, life):
        return life.state in self.active if life.word == 'on' else self.is_bare(life.state)

    def pay(self, what):
        if self.used == self.most_steps:
            self.met('fault steps at ' + what)
            raise RunFault('steps')
        self.used += 1

    # -- blocks

    def block(self, life, statements):
        """Carries out the statements of a block under a life, and gives whether it was cut."""
        for statement in statements:
            if isinstance(statement, Assign):
                self.assign(statement.datum, self.value(statement.value))
            elif isinstance(statement, Emit):
                self.pay('an emit')
                self.outputs.append(statement.event)
                self.met('block: emit')
            else:
                marked = self.marked[life.state]
                self.send(statement)
                holds = self.holds(life)
                self.met("block: the life %s s %s after a send" % (life.word, 'holds' if holds else "doesn't hold"))
                if not holds:
                    return CUT
                if self.marked[life.state] != marked:
                    self.met('block: s was left and entered again by its send, and goes on')
        return DONE

    def send(self, statement):
        """Processes a state, or the whole chart, with an event, one level deeper."""
        if self.depth == self.most_depth:
            self.met('fault depth')
            raise RunFault('depth')
        self.pay('a send')
        state = statement.to
        if state not in self.active:
            return self.met("block: directed send to a state that isn't active")
        self.met('block: send' if state is self.chart.root else 'block: directed send to an active state')
        before = self.event
        self.event = statement.event
        self.depth += 1
        result = self.process(state)
        self.depth -= 1
        self.event = before
        if result != STAY:
            self.met("process: the result of a send's process is Out")

    def assign(self, datum, value):
        if datum.scale is None:
            self.met('block: assignment of a flag')
        else:
            value = self.fitted(datum, value)
        self.values[datum] = value

    def fitted(self, datum, number):
        """The number by floor at the scale of the datum, and by its mode where it is out of range."""
        scale = datum.scale
        mantissa = floor(number * 2 ** scale.fraction)
        if mantissa != number * 2 ** scale.fraction:
            self.met('block: assignment drops bits by floor')
        least, greatest = ends_of(scale)
        if least <= mantissa <= greatest:
            self.met('block: assignment in range')
        elif datum.mode == 'saturate':
            self.met('block: saturate, at the lower end' if mantissa < least else 'block: saturate, at the upper end')
            mantissa = least if mantissa < least else greatest
        elif datum.mode == 'wrap':
            self.met('block: wrap')
            mantissa = least + (mantissa - least) % 2 ** scale.width
        else:
            self.met('block: overflow')
            raise RunFault('overflow ' + datum.name)
        return self.number(mantissa, scale.fraction)

    def number(self, mantissa, fraction):
        """The number of a mantissa and so many bits after the point. A tool that runs a chart over unknown inputs has others."""
        return Fraction(mantissa, 2 ** fraction)

    # -- expressions: the value is a bool or an exact number

    def value(self, expression):
        """The value of an expression."""
        if isinstance(expression, Literal):
            return Fraction(expression.mantissa, 2 ** expression.fraction)
        if isinstance(expression, Truth):
            return expression.value
        if isinstance(expression, Read):
            return self.values[expression.datum]
        if isinstance(expression, Active):
            is_active = expression.state in self.active
            self.met('expression: in(S) is true' if is_active else 'expression: in(S) is false')
            return is_active
        if isinstance(expression, Sign):
            operand = self.value(expression.operand)
            return not operand if expression.operator == '!' else -operand
        return self.value_between(expression)

    def value_between(self, expression):
        """The value of an operator and its two operands."""
        operator = expression.operator
        left = self.value(expression.left)
        if operator == '&&' and not left or operator == '||' and left:
            self.met("expression: the right side of %s isn't evaluated" % operator)
            return left
        right = self.value(expression.right)
        if operator in ('&&', '||'):
            return right
        if operator in LEVELS[COMPARISON]:
            return {'==': left == right, '!=': left != right, '<': left < right, '<=': left <= right,
                    '>': left > right, '>=': left >= right}[operator]
        if operator == '/':
            return self.quotient(left, right, type_of(expression, []).fraction)
        return {'+': left + right, '-': left - right, '*': left * right}[operator]

    def quotient(self, left, right, fraction):
        if right == 0:
            self.met('fault zero')
            raise RunFault('zero')
        quotient = self.number(floor(left / right * 2 ** fraction), fraction)
        if quotient != left / right:
            self.met('expression: a %squotient that isn\'t exact' % ('negative ' if left / right < 0 else ''))
        return quotient

    # -- search

    def search(self, life, transitions):
        """Searches a list, and gives Fire, or one of No, End and Stop."""
        for transition in transitions:
            if not self.is_enabled(transition):
                continue
            if self.block(life, transition.condition) == CUT:
                self.met('search: the condition action is cut')
                return STOP
            if isinstance(transition.destination, State):
                self.ran(transition)
                return Fire(transition.destination, [transition.action])
            self.pay('a junction')
            if not transition.destination.transitions:
                self.met('search: an empty junction')
                self.ran(transition)
                return END
            outcome = self.search(life, transition.destination.transitions)
            if isinstance(outcome, Fire):
                self.met('search: the list of a junction gives Fire and an action is put in front')
                self.ran(transition)
                return Fire(outcome.state, [transition.action] + outcome.actions)
            if outcome != NO:
                self.met('search: the list of a junction gives ' + outcome)
                if outcome == END:
                    self.ran(transition)
                return outcome
            self.met('search: the list of a junction gives No and the rest is searched')
        return NO

    def ran(self, transition):
        """Is told of each transition on a way to a state or to an empty junction, from the end of the way to its beginning.
        The rules make nothing of it; a tool that shows a run does."""

    def is_enabled(self, transition):
        if transition.event is not None and transition.event is not self.event:
            self.met('search: another event')
            return False
        if transition.guard is not None and not self.value(transition.guard.expression):
            self.met('search: the guard is false')
            return False
        if transition.event is None and self.starting:
            self.met('search: a transition without event at the start')
        return True

    # -- exit and enter

    def exit(self, state):
        """Exits a state with all that is active below it."""
        if state not in self.active:
            return self.met("exit: s isn't active")
        if state.composition == 'and':
            self.met('exit: an AND, from the last to the first')
            for child in reversed(state.children):
                self.exit(child)
        elif state.composition == 'or':
            child = self.active_child(state)
            self.met('exit: an OR with an active child' if child else 'exit: an OR without active child')
            if child:
                self.exit(child)
        if not self.is_bare(state):
            return self.met("exit: s isn't bare after its children")
        if self.block(Life('bare', state), state.blocks['exit']) == CUT:
            return self.met('exit: the exit action is cut')
        if not self.is_bare(state):
            return self.met("exit: s isn't bare after its exit action")
        self.met('exit: the mark goes')
        self.active.remove(state)

    def enter(self, state, goal):
        """Enters a state on the way to a goal, which is that state or below it."""
        parent = state.parent
        if parent is None:
            self.met('enter: the root')
        else:
            if parent not in self.active:
                return self.met("enter: the parent isn't active")
            if state in self.active:
                return self.met('enter: s is active')
            if parent.composition == 'or' and not self.is_bare(parent):
                return self.met("enter: a parent that is an OR isn't bare")
        self.active.add(state)
        self.marked[state] += 1
        if parent is not None and parent.history_at is not None:
            self.met('enter: the parent remembers s')
            self.remembered[parent] = state
        if self.block(Life('bare', state), state.blocks['entry']) == CUT:
            return self.met('enter: the entry action is cut')
        if state.composition == 'leaf':
            self.met('enter: a leaf')
        elif state.composition == 'or':
            if goal is state:
                self.met('enter: an OR that is d')
                self.defaults(state)
            else:
                self.met('enter: an OR above d')
                self.enter(child_towards(state, goal), goal)
        else:
            for child in state.children:
                if goal is child or goal.is_below(child):
                    self.met('enter: an AND, a child on the way to d')
                    self.enter(child, goal)
                else:
                    self.met('enter: an AND, a child on the way to itself')
                    self.enter(child, child)

    def defaults(self, state):
        """Enters a child of an OR: the remembered one, or the one to which its default list leads."""
        if state in self.remembered:
            self.met('defaults: the remembered child')
            return self.enter(self.remembered[state], self.remembered[state])
        if state.history_at is not None:
            self.met('defaults: an OR with history that remembers none')
        outcome = self.search(Life('bare', state), state.lists['default'])
        if not isinstance(outcome, Fire):
            demand(outcome == STOP, 'a default search of a checked chart gives %s' % outcome)
            return self.met('default search: Stop')
        child = child_towards(state, outcome.state)
        self.met('default search: Fire with a ' + ('child' if child is outcome.state else 'state below a child'))
        if self.play(state, outcome.actions) == CUT:
            return self.met('defaults: a transition action is cut')
        self.enter(child, outcome.state)

    # -- transitions

    def play(self, home, actions):
        if sum(1 for action in actions if action) > 1:
            self.met('play: several actions that aren\'t empty')
        for action in actions:
            if not action:
                self.met('play: an empty action')
                continue
            self.met("play: an action that isn't empty")
            self.pay('a transition action')
            if self.block(Life('bare', home), action) == CUT:
                return CUT
        return DONE

    def take(self, home, goal, actions):
        """Takes the way to a state: exits what is active below the home, plays the actions, and enters."""
        child = self.active_child(home)
        self.met('take: the home has an active child' if child else 'take: the home has no active child')
        if child:
            self.exit(child)
        if not self.is_bare(home):
            return self.met("take: the home isn't bare after the exit")
        if self.play(home, actions) == CUT:
            return self.met('take: a transition action is cut')
        if not self.is_bare(home):
            return self.met("take: the home isn't bare after the actions")
        if goal is home:
            self.met('take: the destination is the home')
            self.defaults(home)
        else:
            self.met('take: the destination is below the home')
            self.enter(child_towards(home, goal), goal)

    # -- process

    def process(self, state):
        """Processes an active state. The result is STAY, or the home of the transition that was taken out of it."""
        on = Life('on', state)
        outcome = self.search(on, state.lists['outer'])
        self.met('outer search: ' + (outcome if isinstance(outcome, str) else 'Fire'))
        if isinstance(outcome, Fire):
            home = home_of(state, 'outer', outcome.state)
            if home is not state.parent:
                self.met('take: the home of an outer transition is above the parent')
            self.take(home, outcome.state, outcome.actions)
            return home
        if outcome == STOP:
            return STAY
        if self.block(on, state.blocks['during']) == CUT:
            self.met('process: during action cut')
            return STAY
        outcome = self.search(on, state.lists['inner'])
        if isinstance(outcome, Fire):
            self.met('inner search: Fire with ' + ('s' if outcome.state is state else 'a state below s'))
            self.take(state, outcome.state, outcome.actions)
            return STAY
        self.met('inner search: ' + outcome)
        if outcome == STOP:
            return STAY
        if state.composition == 'leaf':
            self.met('process: a leaf')
            return STAY
        return self.process_or(state) if state.composition == 'or' else self.process_and(state)

    def process_or(self, state):
        child = self.active_child(state)
        if child is None:
            self.met('process: an OR without active child')
            return STAY
        result = self.process(child)
        if result is state:
            self.met('process: an OR, Out of itself becomes Stay')
            return STAY
        self.met('process: an OR, Stay' if result == STAY else 'process: an OR, Out of another is handed on')
        return result

    def process_and(self, state):
        for child in state.children:
            if child not in self.active:
                self.met("process: an AND, a child that isn't active at its turn")
                continue
            result = self.process(child)
            if result != STAY:
                self.met('process: an AND, Out ends it')
                return result
        self.met('process: an AND, Stay of all')
        return STAY

    # -- start and event

    def start(self):
        """Gives the result of the start: `ok` or the fault."""
        self.starting = True
        result = self.result_of(lambda: self.enter(self.chart.root, self.chart.root))
        self.starting = False
        return result

    def react(self, event, inputs):
        """Gives the result of an event, which is None for `tick`, with the values of some inputs."""
        for datum in self.chart.data:
            if datum.kind == 'input':
                self.met('event: an input is set' if datum in inputs else 'event: an input keeps its value')
        self.values.update(inputs)
        self.outputs = []
        self.used = 0
        self.event = event
        self.depth = 0
        return self.result_of(lambda: self.process(self.chart.root))

    def result_of(self, work):
        try:
            work()
        except RunFault as fault:
            return str(fault)
        return 'ok'


def child_towards(state, goal):
    return next(child for child in state.children if goal is child or goal.is_below(child))


# ---- the event file

def lines_of(data):
    """The number, the bytes without end of line, and the place of the first byte, of each line of an event file."""
    number, start = 1, 0
    while start < len(data):
        end = data.find(b'\n', start)
        yield number, data[start:len(data) if end < 0 else end], start
        if end < 0:
            return
        number, start = number + 1, end + 1


def is_past_file(data, line, start):
    """Whether the line, with its end, has a byte past the greatest length of a file."""
    end = start + len(line) + (start + len(line) < len(data))
    return end > LONGEST_FILE


def tokens_at(data, line, start):
    """The tokens of a line that begins at a place of an event file; a line or a file that is too long is refused."""
    if len(line) > LONGEST_LINE and start + LONGEST_LINE < LONGEST_FILE:
        raise LineFault(1)
    if is_past_file(data, line, start):
        raise FileTooLong
    return tokens_of(line)


def is_skipped(tokens):
    return not tokens or tokens[0].startswith('#')


def tokens_of(line):
    if line.endswith(b'\r'):
        line = line[:-1]
    return [token.decode('latin-1') for token in re.split(b'[ \t]+', line) if token]


def event_of(chart, tokens):
    """The event of the tokens of a line, which is None for `tick`, and the values of inputs."""
    event = None
    if tokens[0] != 'tick':
        event = next((each for each in chart.events if each.name == tokens[0]), None)
        if event is None:
            raise LineFault(2)
        if event.kind != 'input':
            raise LineFault(3)
    inputs = {}
    for token in tokens[1:]:
        name, equals, text = token.partition('=')
        datum = next((each for each in chart.data if each.name == name and each.kind == 'input'), None)
        if not equals or datum is None:
            raise LineFault(4)
        if datum in inputs:
            raise LineFault(5)
        inputs[datum] = input_value(datum, text)
    return event, inputs


def input_value(datum, text, most=MOST_DIGITS):
    """The value that a text of at most so many digits tells of a datum; another text is fault 6."""
    if datum.scale is None:
        if text not in ('true', 'false'):
            raise LineFault(6)
        return text == 'true'
    found = re.fullmatch(r'(-?)([0-9]+)(?:\.([0-9]+))?', text)
    if not found:
        raise LineFault(6)
    whole, behind = found[2], found[3] or ''
    if len(whole + behind) > most:
        raise LineFault(6)
    number = Fraction(int(whole + behind), 10 ** len(behind)) * (-1 if found[1] else 1)
    if not is_value_of(datum.scale, number):
        raise LineFault(6)
    return number


# ---- the trace

def value_text(value):
    if isinstance(value, bool):
        return 'true' if value else 'false'
    places = 0
    while (value * 10 ** places).denominator != 1:
        places += 1
    digits = str(abs(int(value * 10 ** places))).rjust(places + 1, '0')
    text = digits[:len(digits) - places] + ('.' + digits[len(digits) - places:] if places else '')
    return '-' + text if value < 0 else text


def trace_line(rules, index, event, result):
    states = ','.join(state.path() for state in rules.chart.states if state.parent and state in rules.active)
    values = ','.join(datum.name + '=' + value_text(rules.values[datum]) for datum in rules.chart.data)
    outputs = ','.join(event.name for event in rules.outputs)
    return '%d %s [%s] %s %s %s\n' % (index, event, states, values or '-', outputs or '-', result)


# ---- a whole run


def run_rules(text, data, depth=DEFAULT_DEPTH, steps=DEFAULT_STEPS, language=WITH_HISTORY, met=None):
    """The answer of `rules` for a chart text, a character for each byte, and the bytes of an event file."""
    try:
        chart = check_chart(text, language)
    except Fault as fault:
        return Ended('', fault.written(text) + '\n', 1)
    return run_events(Rules(chart, depth, steps, met), data)


def run_events(rules, data):
    """The answer of `rules` for a chart that is about to start, and the bytes of an event file."""
    chart = rules.chart
    result = rules.start()
    out = [trace_line(rules, 0, 'start', result)]
    index = 0
    if result != 'ok':
        return Ended(''.join(out), 'run 0: %s\n' % result, 3)
    for number, line, start in lines_of(data):
        try:
            tokens = tokens_at(data, line, start)
            if is_skipped(tokens):
                rules.met('event: a comment' if tokens else 'event: a line without token')
                continue
            event, inputs = event_of(chart, tokens)
        except FileTooLong:
            return Ended(''.join(out), FILE_TOO_LONG, 1)
        except LineFault as fault:
            rules.met('event: %d %s' % (fault.number, LINE_FAULTS[fault.number]))
            return Ended(''.join(out), 'event %d: %d %s\n' % (number, fault.number, LINE_FAULTS[fault.number]), 1)
        if index == MOST_EVENTS:
            return Ended(''.join(out), TOO_MANY_LINES, 1)
        index += 1
        rules.met('event: a named event' if event else 'event: tick')
        result = rules.react(event, inputs)
        out.append(trace_line(rules, index, event.name if event else 'tick', result))
        if result != 'ok':
            return Ended(''.join(out), 'run %d: %s\n' % (index, result), 3)
    return Ended(''.join(out), '', 0)


# ---- the words of the command, and the table

def words_of(words, most_steps=MOST_STEPS, default_steps=DEFAULT_STEPS):
    """The files and the bounds of the words, or None where they aren't right."""
    files, bounds, most = [], {}, {'--depth': MOST_DEPTH, '--steps': most_steps}
    words = list(words)
    while words:
        word = words.pop(0)
        option, equals, value = word.partition('=')
        if word == '--':
            files += words
            words = []
        elif option in most:
            if not equals:
                value = words.pop(0) if words else ''
            if option in bounds or not re.fullmatch(r'\+?[0-9]+', value) or not 1 <= int(value) <= most[option]:
                return None
            bounds[option] = int(value)
        elif word.startswith('-') and word != '-':
            return None
        else:
            files.append(word)
    if len(files) != 2:
        return None
    return files, bounds.get('--depth', DEFAULT_DEPTH), bounds.get('--steps', default_steps)


def command(words, language):
    """The answer to the words of the command."""
    found = words_of(words)
    if found is None:
        return Ended('', USAGE + '\n', 2)
    (chart, events), depth, steps = found
    try:
        with open(chart, 'rb') as file:
            text = file.read().decode('latin-1')
        # A file is given once: where both names are the same, the second has nothing left.
        data = b''
        if events != chart:
            with open(events, 'rb') as file:
                data = file.read()
    except OSError:
        return Ended('', 'read fault\n', 4)
    return run_rules(text, data, depth, steps, language)


def table_answer(line, language):
    """The answer to a line of the table."""
    found = re.fullmatch('(?:([0-9]+) ([0-9]+)|-)\t([^\t]*)\t([^\t]*)', line)
    try:
        if not found:
            raise NotAText
        text, data = text_of(found[3]), text_of(found[4]).encode('latin-1')
    except NotAText:
        return 'not a run'
    depth, steps = (int(found[1]), int(found[2])) if found[1] else (DEFAULT_DEPTH, DEFAULT_STEPS)
    if not (1 <= depth <= MOST_DEPTH and 1 <= steps <= MOST_STEPS):
        return 'not a run'
    answer = run_rules(text, data, depth, steps, language)
    return '%d\t%s\t%s' % (answer.status, line_of(answer.out), line_of(answer.error))


def main(words):
    """Does what the words ask for, and gives the status."""
    language = WITH_HISTORY
    if words[:1] == ['--without-history']:
        language = WITHOUT_HISTORY
        words = words[1:]
    if words == ['--table']:
        for line in tables.rows(sys.stdin.buffer):
            print(table_answer(line, language))
        return 0
    return command(words, language).written()


def with_deep_calls(work):
    """Does some work where calls may nest as deeply as a run may: a search calls itself at each junction."""
    given = []

    def attempt():
        try:
            given.append(work())
        except SystemExit as refused:       # which a thread would end in silence
            given.append(refused.code)

    sys.setrecursionlimit(1000000)
    threading.stack_size(512 * 1024 * 1024)
    thread = threading.Thread(target=attempt)
    thread.start()
    thread.join()
    return given[0] if given else 1


if __name__ == '__main__':
    sys.exit(with_deep_calls(lambda: main(sys.argv[1:])))
