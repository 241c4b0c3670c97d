r"""Reads a chart text into a tree, or finds its first fault of the numbers 1 to 8, and writes a tree as canonical text.

It is written from the rules of the language alone, which stand here in words.

Bytes       9, 10, 13 and 32 to 126. A line ends after byte 10. Lines and columns count from 1, and a column is a byte.
Tokens      Bytes 9, 10, 13 and 32 separate tokens, and so does a comment, from `//` to the end of the line. The longest
            token is taken. A NAME is a letter and then letters, digits and underscores, at most 63 bytes, and no reserved
            word. A NUMBER is digits, then optionally a point and digits, then optionally q and one or two digits of value
            up to 32. A point with no digit behind it is no part of a number.
Chart       `chart NAME`, optionally `or` or `and`, and declarations and items in braces, in any order.
Event       `event`, then `input`, `local` or `output`, a NAME and `;`.
Datum       `input`, `output` or `local`, a NAME, `:`, a type, optionally `=` and a first value, and `;`.
Type        `bool`, or a scale and optionally `saturate`, `wrap` or `error`. A scale is int8, int16, int32, int64, uint8,
            uint16, uint32, uint64, or sfix or ufix with a width of 1 to 64 and optionally `_En` and a fraction of at most
            32 and at most the width, both without leading zeros.
First value A NUMBER, also with `-` before it, or `true` or `false`.
Item        `entry`, `during` or `exit` and a block, each at most once in a state; `outer`, `inner` or `default` and a
            transition; `history` and `;`, at most once in a state; `junction NAME` and transitions in braces; or a state.
            `outer` and `exit` don't stand directly in the chart.
State       `state NAME`, optionally `or` or `and`, and items in braces.
Transition  Optionally a NAME, the event; optionally an expression in brackets, the guard; optionally a block, the
            condition action; optionally `/` and a block, the transition action; then `->`, a path or `@NAME`, and `;`.
Path        NAMEs with `/` between them.
Block       Statements in braces: `NAME = expression;`, `emit NAME;`, `send NAME;` or `send NAME to path;`.
Expression  Operands with operators between them, from loose to tight `||`, `&&`, `== != < <= > >=`, `+ -` and `* /`, and
            tighter than all of them the signs `-` and `!` before an operand. Equally tight ones are taken from the left,
            but an operand of a comparison is no comparison. A NUMBER, `true`, `false`, a NAME, `in(path)` and an
            expression in parentheses are operands.

The first fault of a text is told. At one place it is that of the lowest number, and of two limits the one that is named
first below. TextTooLong comes before all.

1 BadByte           A byte that no text has, in a comment neither.
2 BadToken          No token begins here; or a NAME has over 63 bytes; or the q behind a number has no digit, over two or
                    a value over 32; or a letter or an underscore follows a number directly. The place is the first byte
                    of the name or the number.
3 Expected          A token that doesn't continue any text after the tokens before it. The end of the text is a token,
                    just behind the last byte.
4 LiteralTooLong    A number has over 36 digits before its q, or a mantissa of 2^99 or more. The mantissa is the number
                    times the least power of 2 up to 2^32 with which it is whole; with a q it is the floor of the number
                    times 2 to the power of the digits behind the q.
5 LiteralNotBinary  A number without q is whole with no power of 2 up to 2^32.
6 TextTooLong       Over 1,048,576 bytes. The place is 1:1.
7 NestTooDeep       A state within 16 others, the chart not counted. The place is its word `state`.
8 TooMany           One more than there may be. The place is its first token. There are at most 1,024 states, the chart
                    among them, 4,096 junctions, 8,192 transitions, 1,024 data (`variables`), 1,024 events, 256 statements
                    of a block, 64 operators and opening parentheses of an expression, that of `in` not counted, and
                    20,000 of all these but operators together (`items`).

An older form of the language has no item `history` and at most 512 data and 512 events; the word is reserved there too.

The canonical text has each item on a line of its own, indented by two blanks for each brace round it. The order is
events, data, entry, during, exit, history, default, inner, outer, junctions, states, and among equals that of the text. A
state with states in it and no word is an `or`. Empty blocks, `saturate`, and a first value of false for a bool or 0 for a
scale are left out, and a first value that is zero in any form is 0. A scale of fraction 0 and width 8, 16, 32 or 64 is an
int or a uint, and any other has its width and its fraction. A number has no leading zeros but one digit before the point,
nor has what is behind its q. Parentheses stand round an operand with a looser operator between its own operands, round a
right one with an equally loose operator, and round any comparison in a comparison.

A table has one text a line, in which `\n`, `\t`, `\r`, `\\` and `\xHH` stand for bytes."""
import re
import sys
from collections import namedtuple
from fractions import Fraction
from math import floor

import tables

RESERVED = set('chart or and state entry during exit outer inner default junction event input output local send to emit in '
               'true false tick saturate wrap error history'.split())
# Of two symbols that begin alike the longer one stands first.
SYMBOLS = '-> == != <= >= && || { } [ ] ( ) ; : , @ = / + - * < > !'.split()
# From loose to tight.
LEVELS = [['||'], ['&&'], ['==', '!=', '<', '<=', '>', '>='], ['+', '-'], ['*', '/']]
COMPARISON = 2
# What stands in a state, and what of it stands in the chart itself, which isn't left.
BLOCKS, BLOCKS_OF_CHART = ('entry', 'during', 'exit'), ('entry', 'during')
LISTS, LISTS_OF_CHART = ('outer', 'inner', 'default'), ('inner', 'default')
LONGEST_TEXT = 1048576
DEEPEST = 16
LONGEST_NAME = 63
MOST_DIGITS = 36
MOST_FRACTION = 32
MOST_WIDTH = 64
MOST_MANTISSA = 2 ** 99 - 1
# Faults 9 on are found by chart_check.
KINDS = {1: 'BadByte', 2: 'BadToken', 3: 'Expected', 4: 'LiteralTooLong', 5: 'LiteralNotBinary', 6: 'TextTooLong',
         7: 'NestTooDeep', 8: 'TooMany', 9: 'NameTwice', 10: 'UnknownName', 11: 'WrongKind', 12: 'TypeClash', 13: 'TooWide',
         14: 'AssignsInput', 15: 'EventKind', 16: 'InitRange', 17: 'EmptyComposition', 18: 'DefaultMissing',
         19: 'DefaultUnwanted', 20: 'DefaultOpen', 21: 'DefaultLeaves', 22: 'InnerLeaves', 23: 'CrossesRegions',
         24: 'TooManyPairs', 26: 'HistoryUnwanted'}


class Language:
    """A form of the language: whether it has the item `history`, and its limits in the order in which they are told."""

    def __init__(self, history, names):
        self.history = history
        self.limits = {'states': 1024, 'junctions': 4096, 'transitions': 8192, 'variables': names, 'events': names,
                       'statements': 256, 'operators': 64, 'items': 20000}


WITH_HISTORY = Language(True, 1024)
WITHOUT_HISTORY = Language(False, 512)


class NotAText(Exception):
    """A backslash of the line begins no escape."""


class Fault(Exception):
    """The number of a fault, how many bytes of the text stand before it, and the limit that is broken."""

    def __init__(self, number, offset, limit=None):
        super().__init__(number)
        self.number, self.offset, self.limit = number, offset, limit

    def written(self, text):
        before = text[:self.offset]
        line = before.count('\n') + 1
        column = len(before) - (before.rfind('\n') + 1) + 1
        kind = KINDS[self.number] + (' ' + self.limit if self.limit else '')
        return 'chart %d:%d: %d %s' % (line, column, self.number, kind)


# ---- the tree
#
# `at` is the number of bytes before a thing: before its first token, for a sign or an operator before that, for a guard
# before its bracket, and for a transition of a state before the word that it begins with.

Name = namedtuple('Name', 'text at')
Number = namedtuple('Number', 'whole behind bits at')        # its digits: before the point, after it, after q or None
Flag = namedtuple('Flag', 'text at')                         # true or false
Read = namedtuple('Read', 'name')                            # the value of a datum
Active = namedtuple('Active', 'path at')                     # in(path), where a path is a list of names
Sign = namedtuple('Sign', 'operator operand at')
Between = namedtuple('Between', 'operator left right at')
Assign = namedtuple('Assign', 'name value')
Send = namedtuple('Send', 'event path')                      # the path is None where the whole chart is meant
Emit = namedtuple('Emit', 'event')
Guard = namedtuple('Guard', 'expression at')
ToState = namedtuple('ToState', 'path')
ToJunction = namedtuple('ToJunction', 'name')
Transition = namedtuple('Transition', 'at event guard condition action destination')
Event = namedtuple('Event', 'kind name')
Datum = namedtuple('Datum', 'kind name sort mode first')     # the sort is 'bool' or a Scale, and first may be None
First = namedtuple('First', 'minus value at')                # the value is a Number or a Flag, and minus '-' or ''
Scale = namedtuple('Scale', 'sign width fraction')           # the sign is 's' or 'u'
Junction = namedtuple('Junction', 'name transitions')
Chart = namedtuple('Chart', 'root events data')


class State:
    """A state, or the chart itself, which is the root of its states."""

    def __init__(self, name, word):
        self.name = name
        self.word = word                                     # or, and, None
        self.blocks = {}
        self.history = None                                  # the place of the word, or None
        self.transitions = {'default': [], 'inner': [], 'outer': []}
        self.junctions = []
        self.states = []

    def composition(self):
        return self.word or ('or' if self.states else 'leaf')


# ---- tokens

Token = namedtuple('Token', 'kind text offset end')          # the kind is name, number, end, or the text itself


def is_allowed(byte):
    return byte in '\t\n\r' or ' ' <= byte <= '~'


def after_blanks(text, offset):
    """The place of the next token, behind blanks and comments."""
    while offset < len(text):
        if text.startswith('//', offset):
            while offset < len(text) and text[offset] != '\n':
                if not is_allowed(text[offset]):
                    raise Fault(1, offset)
                offset += 1
        elif text[offset] in ' \t\n\r':
            offset += 1
        else:
            break
    return offset


def next_token(text, offset):
    offset = after_blanks(text, offset)
    if offset == len(text):
        return Token('end', '', offset, offset)
    if not is_allowed(text[offset]):
        raise Fault(1, offset)
    return word_token(text, offset) or number_token(text, offset) or symbol_token(text, offset)


def word_token(text, offset):
    found = re.compile('[A-Za-z][A-Za-z0-9_]*').match(text, offset)
    if not found:
        return None
    if len(found[0]) > LONGEST_NAME:
        raise Fault(2, offset)
    return Token(found[0] if found[0] in RESERVED else 'name', found[0], offset, found.end())


def number_token(text, offset):
    found = re.compile(r'[0-9]+(?:\.[0-9]+)?(?:q([0-9]*))?').match(text, offset)
    if not found:
        return None
    bits = found[1]
    if bits is not None and (len(bits) not in (1, 2) or int(bits) > MOST_FRACTION):
        raise Fault(2, offset)
    if re.compile('[A-Za-z_]').match(text, found.end()):
        raise Fault(2, offset)
    return Token('number', found[0], offset, found.end())


def symbol_token(text, offset):
    for each in SYMBOLS:
        if text.startswith(each, offset):
            return Token(each, each, offset, offset + len(each))
    raise Fault(2, offset)


# ---- numbers and types

def number_of(token):
    """The number of a token, or the fault that it has where a number may stand."""
    before, _, bits = token.text.partition('q')
    whole, _, behind = before.partition('.')
    number = Number(whole, behind, bits or None, token.offset)
    if len(whole) + len(behind) > MOST_DIGITS:
        raise Fault(4, token.offset)
    if fraction_of(number) is None:
        raise Fault(5, token.offset)
    if mantissa_of(number) > MOST_MANTISSA:
        raise Fault(4, token.offset)
    return number


def decimal_of(number):
    """What the digits before the q say."""
    return Fraction(int(number.whole + number.behind), 10 ** len(number.behind))


def fraction_of(number):
    """How many bits it has after the point, or None where no number of them is enough."""
    if number.bits is not None:
        return int(number.bits)
    for fraction in range(MOST_FRACTION + 1):
        if (decimal_of(number) * 2 ** fraction).denominator == 1:
            return fraction
    return None


def mantissa_of(number):
    return floor(decimal_of(number) * 2 ** fraction_of(number))


def is_zero(number):
    return decimal_of(number) == 0


def scale_of(name):
    """The scale of that name, or None."""
    named = re.fullmatch('(u?)int(8|16|32|64)', name)
    if named:
        return Scale('u' if named[1] else 's', int(named[2]), 0)
    made = re.fullmatch('([su])fix([1-9][0-9]*)(?:_En(0|[1-9][0-9]*))?', name)
    if not made:
        return None
    width, fraction = int(made[2]), int(made[3] or 0)
    return Scale(made[1], width, fraction) if width <= MOST_WIDTH and fraction <= min(width, MOST_FRACTION) else None


# ---- reading

class Reader:
    """Reads a text token by token. Each method reads what its name says, from the token at hand on. Whether a token may stand
    at a place is asked by `at` alone, and of a type by `sort`; who notes these questions knows what may stand there."""

    def __init__(self, text, language=WITH_HISTORY):
        self.text = text
        self.language = language
        self.token = next_token(text, 0)
        self.counts = dict.fromkeys(language.limits, 0)

    def at(self, *kinds):
        return self.token.kind in kinds

    def expected(self):
        return Fault(3, self.token.offset)

    def take(self, *kinds):
        """Takes the token at hand, which must be of one of these kinds, and gives its text."""
        if not self.at(*kinds):
            raise self.expected()
        taken = self.token
        self.token = next_token(self.text, taken.end)
        return taken.text

    def take_if(self, *kinds):
        return self.take(*kinds) if self.at(*kinds) else None

    def count(self, limit):
        """Counts one more of these, whose first token is at hand."""
        self.counts[limit] += 1
        if limit != 'operators':
            self.counts['items'] += 1
        for each, most in self.language.limits.items():
            if self.counts[each] > most:
                raise Fault(8, self.token.offset, each)

    def name(self):
        at = self.token.offset
        return Name(self.take('name'), at)

    # -- the chart

    def chart(self):
        """The whole chart."""
        self.count('states')
        self.take('chart')
        root = State(self.name(), self.take_if('or', 'and'))
        events, data = [], []
        self.take('{')
        while not self.at('}'):
            if self.at('event'):
                events.append(self.event())
            elif self.at('input', 'output', 'local'):
                data.append(self.datum())
            else:
                self.item(root, 0)
        self.take('}')
        if not self.at('end'):
            raise self.expected()
        return Chart(root, events, data)

    def event(self):
        self.count('events')
        self.take('event')
        event = Event(self.take('input', 'local', 'output'), self.name())
        self.take(';')
        return event

    def datum(self):
        self.count('variables')
        kind, name = self.take('input', 'output', 'local'), self.name()
        self.take(':')
        sort = self.sort()
        mode = None if sort == 'bool' else self.take_if('saturate', 'wrap', 'error')
        first = self.first_value() if self.take_if('=') else None
        self.take(';')
        return Datum(kind, name, sort, mode, first)

    def sort(self):
        sort = 'bool' if self.token.text == 'bool' else scale_of(self.token.text)
        if sort is None:
            raise self.expected()
        self.take('name')
        return sort

    def first_value(self):
        at = self.token.offset
        if self.at('true', 'false'):
            return First('', self.flag(), at)
        return First(self.take_if('-') or '', self.number(), at)

    # -- states

    def item(self, state, depth):
        """Reads an item into a state that stands so deep."""
        blocks, lists = (BLOCKS, LISTS) if depth else (BLOCKS_OF_CHART, LISTS_OF_CHART)
        if self.at(*(kind for kind in blocks if kind not in state.blocks)):
            kind = self.take(*blocks)
            state.blocks[kind] = self.block()
        elif self.at(*lists):
            self.count('transitions')
            at = self.token.offset
            kind = self.take(*lists)
            state.transitions[kind].append(self.transition(at))
        elif self.language.history and state.history is None and self.at('history'):
            state.history = self.token.offset
            self.take('history')
            self.take(';')
        elif self.at('junction'):
            state.junctions.append(self.junction())
        elif self.at('state'):
            state.states.append(self.state(depth + 1))
        else:
            raise self.expected()

    def state(self, depth):
        if depth > DEEPEST:
            raise Fault(7, self.token.offset)
        self.count('states')
        self.take('state')
        state = State(self.name(), self.take_if('or', 'and'))
        self.take('{')
        while not self.at('}'):
            self.item(state, depth)
        self.take('}')
        return state

    def junction(self):
        self.count('junctions')
        self.take('junction')
        junction = Junction(self.name(), [])
        self.take('{')
        while not self.at('}'):
            if not self.at('name', '[', '{', '/', '->'):
                raise self.expected()
            self.count('transitions')
            junction.transitions.append(self.transition(self.token.offset))
        self.take('}')
        return junction

    # -- transitions and statements

    def transition(self, at):
        """The transition that begins at that place."""
        event = self.name() if self.at('name') else None
        guard = None
        if self.at('['):
            bracket = self.token.offset
            self.take('[')
            guard = Guard(self.whole_expression(), bracket)
            self.take(']')
        condition = self.block() if self.at('{') else []
        action = self.block() if self.take_if('/') else []
        self.take('->')
        destination = ToJunction(self.name()) if self.take_if('@') else ToState(self.path())
        self.take(';')
        return Transition(at, event, guard, condition, action, destination)

    def path(self):
        path = [self.name()]
        while self.take_if('/'):
            path.append(self.name())
        return path

    def block(self):
        self.take('{')
        self.counts['statements'] = 0
        statements = []
        while not self.at('}'):
            if not self.at('name', 'send', 'emit'):
                raise self.expected()
            self.count('statements')
            statements.append(self.statement())
        self.take('}')
        return statements

    def statement(self):
        if self.take_if('emit'):
            statement = Emit(self.name())
        elif self.take_if('send'):
            event = self.name()
            statement = Send(event, self.path() if self.take_if('to') else None)
        else:
            name = self.name()
            self.take('=')
            statement = Assign(name, self.whole_expression())
        self.take(';')
        return statement

    # -- expressions

    def whole_expression(self):
        self.counts['operators'] = 0
        return self.expression(0)

    def operator(self):
        self.count('operators')
        return self.take(self.token.kind)

    def expression(self, level):
        if level == len(LEVELS):
            return self.signed()
        left = self.expression(level + 1)
        while self.at(*LEVELS[level]):
            at = self.token.offset
            operator = self.operator()
            left = Between(operator, left, self.expression(level + 1), at)
            if level == COMPARISON:
                break
        return left

    def signed(self):
        if self.at('-', '!'):
            at = self.token.offset
            return Sign(self.operator(), self.signed(), at)
        return self.operand()

    def operand(self):
        """An operand: an expression without an operator outside of parentheses."""
        at = self.token.offset
        if self.at('number'):
            return self.number()
        if self.at('true', 'false'):
            return self.flag()
        if self.take_if('in'):
            self.take('(')
            path = self.path()
            self.take(')')
            return Active(path, at)
        if self.at('('):
            self.operator()
            inside = self.expression(0)
            self.take(')')
            return inside
        return Read(self.name())

    def flag(self):
        at = self.token.offset
        return Flag(self.take('true', 'false'), at)

    def number(self):
        if not self.at('number'):
            raise self.expected()
        number = number_of(self.token)
        self.take('number')
        return number


def read_chart(text, language=WITH_HISTORY):
    """The chart of a text, with a character for each byte, or its first fault of the numbers 1 to 8."""
    if len(text) > LONGEST_TEXT:
        raise Fault(6, 0)
    return Reader(text, language).chart()


# ---- the canonical text

def number_text(number):
    text = str(int(number.whole))
    if number.behind:
        text += '.' + number.behind
    if number.bits is not None:
        text += 'q' + str(int(number.bits))
    return text


def path_text(path):
    return '/'.join(name.text for name in path)


def level_of(operator):
    for level, operators in enumerate(LEVELS):
        if operator in operators:
            return level


def expression_text(expression):
    """The canonical text of an expression."""
    if isinstance(expression, Number):
        return number_text(expression)
    if isinstance(expression, Flag):
        return expression.text
    if isinstance(expression, Read):
        return expression.name.text
    if isinstance(expression, Active):
        return 'in(' + path_text(expression.path) + ')'
    if isinstance(expression, Sign):
        return expression.operator + operand_text(expression.operand, len(LEVELS))
    level = level_of(expression.operator)
    left = operand_text(expression.left, level + 1 if level == COMPARISON else level)
    return left + ' ' + expression.operator + ' ' + operand_text(expression.right, level + 1)


def operand_text(operand, loosest):
    """An operand, in parentheses where its operator is looser than that level."""
    text = expression_text(operand)
    if isinstance(operand, Between) and level_of(operand.operator) < loosest:
        return '(' + text + ')'
    return text


def statement_text(statement):
    if isinstance(statement, Emit):
        return 'emit ' + statement.event.text + ';'
    if isinstance(statement, Send):
        to = ' to ' + path_text(statement.path) if statement.path else ''
        return 'send ' + statement.event.text + to + ';'
    return statement.name.text + ' = ' + expression_text(statement.value) + ';'


def block_text(block):
    return '{ ' + ' '.join(statement_text(each) for each in block) + ' }'


def destination_text(destination):
    if isinstance(destination, ToJunction):
        return '@' + destination.name.text
    return path_text(destination.path)


def transition_text(transition):
    parts = []
    if transition.event is not None:
        parts.append(transition.event.text)
    if transition.guard is not None:
        parts.append('[' + expression_text(transition.guard.expression) + ']')
    if transition.condition:
        parts.append(block_text(transition.condition))
    if transition.action:
        parts.append('/ ' + block_text(transition.action))
    parts.append('-> ' + destination_text(transition.destination) + ';')
    return ' '.join(parts)


def scale_text(scale):
    if scale.fraction == 0 and scale.width in (8, 16, 32, 64):
        return ('int' if scale.sign == 's' else 'uint') + str(scale.width)
    return '%sfix%d_En%d' % scale


def first_text(first):
    if isinstance(first.value, Flag):
        return first.value.text
    return '0' if is_zero(first.value) else first.minus + number_text(first.value)


def event_text(event):
    return 'event %s %s;' % (event.kind, event.name.text)


def datum_text(datum):
    text = '%s %s : ' % (datum.kind, datum.name.text)
    text += 'bool' if datum.sort == 'bool' else scale_text(datum.sort)
    if datum.mode not in (None, 'saturate'):
        text += ' ' + datum.mode
    if datum.first is not None and first_text(datum.first) != ('false' if datum.sort == 'bool' else '0'):
        text += ' = ' + first_text(datum.first)
    return text + ';'


def state_lines(word, state, declarations):
    """The lines of a state or of the chart, without the indentation of what is round it."""
    inside = list(declarations)
    for kind in ('entry', 'during', 'exit'):
        if state.blocks.get(kind):
            inside.append(kind + ' ' + block_text(state.blocks[kind]))
    if state.history is not None:
        inside.append('history;')
    for kind in ('default', 'inner', 'outer'):
        inside += [kind + ' ' + transition_text(each) for each in state.transitions[kind]]
    for junction in state.junctions:
        inside += braced('junction ' + junction.name.text, [transition_text(each) for each in junction.transitions])
    for each in state.states:
        inside += state_lines('state', each, [])
    composition = state.composition()
    return braced(word + ' ' + state.name.text + (' ' + composition if composition != 'leaf' else ''), inside)


def braced(head, inside):
    return [head + ' {'] + ['  ' + line for line in inside] + ['}']


def canonical_text(chart):
    declarations = [event_text(event) for event in chart.events] + [datum_text(datum) for datum in chart.data]
    return ''.join(line + '\n' for line in state_lines('chart', chart.root, declarations))


# ---- the table

def text_of(line):
    """The text that a line stands for, a character for each byte."""
    if not re.fullmatch(r'(?:[^\\]|\\[ntr\\]|\\x[0-9A-Fa-f]{2})*', line):
        raise NotAText
    return re.sub(r'\\(?:x(..)|(.))', lambda escape: chr(int(escape[1], 16)) if escape[1] else
                  {'n': '\n', 't': '\t', 'r': '\r', '\\': '\\'}[escape[2]], line)


def line_of(text):
    """A line that stands for a text: what isn't printable, and the backslash, is written as an escape."""
    known = {'\n': '\\n', '\t': '\\t', '\r': '\\r', '\\': '\\\\'}
    return ''.join(known.get(byte) or (byte if ' ' <= byte <= '~' else '\\x%02x' % ord(byte)) for byte in text)


def answer_rows(answer):
    """Writes a line for each row of a table of chart texts on standard input: the answer to the text in the form of the language
    that the words of the script mean, the refusal where it has a fault, or `not a text`."""
    language = WITHOUT_HISTORY if '--without-history' in sys.argv[1:] else WITH_HISTORY
    for line in tables.rows(sys.stdin.buffer):
        try:
            text = text_of(line)
            print(answer(text, language))
        except NotAText:
            print('not a text')
        except Fault as fault:
            print(fault.written(text))
