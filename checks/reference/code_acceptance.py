"""When a code is well formed, and its height and work.

The faults are looked for in this order: 7; 9; then 1, 2, 3, 4, 8 and 10 by procedure, by place in it and by number; then 5;
then 6. The first one is told with its procedure and place, which are both 0 where no procedure is named.

     1 BadNumber      `start` or `react` isn't a procedure (told at 0.0, first), or an instruction names a procedure, a note,
                      a state, a datum or an event that isn't there, also inside its expression.
     2 SkipOut        The place that an Unless or a Skip may jump to, which is its own place and 1 and its number, isn't the
                      place of an instruction of the procedure.
     3 CallNotLower   A Call names a procedure whose number isn't lower than that of its own procedure.
     4 CodeTypes      An expression has no type. A Test isn't a flag. An Assign is to an input, is of the other sort, or is
                      too wide. An Emit names an event that isn't an output one, a Send or SendTo one that isn't local, and a
                      Current one that is an output event.
     5 TooHigh        The first procedure whose height is over 200; place 0.
     6 TooMuchWork    The first procedure whose work is over 10,000,000,000; place 0.
     7 TooManyProcs   There are over 262,144 procedures, or a procedure has over 1,000,000,000 instructions; 0.0.
     8 NoRet          A procedure has no instruction (place 0), or its last one isn't a Ret (its place).
     9 BadTable       0.0, for any of these. State 0 has a parent, or another state has none. A name isn't a name. A flag
                      has another mode than saturate. There is no state, or there are over 1,024. The parent of a state
                      isn't the state before it or an ancestor of that one. A leaf has a child, or another state has none.
                      A state is deeper than 16, where the children of state 0 are at depth 1. There are over 1,024 data or
                      over 1,024 events. A name stands twice among data and events, or among the children of one state. An
                      initial value isn't one of its type.
    10 BadKeep        A Keep or a Last names state 0 or a state whose parent isn't an OR.

Types. Each expression is a flag, or a number with a fraction and a size, so that its mantissa at that fraction is at most
2^size in magnitude.

    #M:F                    Fraction F, and the least size with M <= 2^size.
    datum                   The fraction of its scale, and its width, less one where it is signed.
    ~a                      As a.
    a + b, a - b            The greater fraction, and 1 more than the greater size, both brought to that fraction.
    a * b                   The sum of the fractions, and the sum of the sizes.
    a / b                   The greater fraction, and the size of a brought to that fraction, plus the fraction of b.

A number of over 100 bits of size, or with a fraction over 64, is too wide. So is a comparison of two numbers whose greater
size, both brought to the greater fraction, is over 100. An assignment is too wide where the size of the number is over 100
with the bits that the fraction of the datum adds. `||`, `&&` and `!` take flags and give a flag; the comparisons take
numbers and give a flag, and `==` and `!=` also take two flags; the others take numbers.

Height. A procedure without a Call has height 0, and another one more than the greatest height of those that it calls.

Work. The greatest sum over the paths from the first instruction to a Ret, where each instruction counts 1 and a Call counts
the work of its procedure besides. Both ways of an Unless are paths, and a Pass may go on."""
import declarations as de

KINDS = {1: 'BadNumber', 2: 'SkipOut', 3: 'CallNotLower', 4: 'CodeTypes', 5: 'TooHigh', 6: 'TooMuchWork', 7: 'TooManyProcs',
         8: 'NoRet', 9: 'BadTable', 10: 'BadKeep'}
MOST_PROCS, MOST_INSTRUCTIONS = 262144, 10 ** 9
MOST_HEIGHT, MOST_WORK = 200, 10 ** 10
MOST_STATES, MOST_DEPTH, MOST_DATA, MOST_EVENTS = 1024, 16, 1024, 1024
MOST_SIZE, MOST_FRACTION = 100, 64
MOST_OPERATORS, MOST_MANTISSA, MOST_LITERAL_FRACTION = 64, 2 ** 99 - 1, 32
FLAG = 'flag'


class Fault(Exception):
    """The number of a fault, and the procedure and the place where it is."""

    def __init__(self, number, proc=0, place=0):
        Exception.__init__(self, number)
        self.number, self.proc, self.place = number, proc, place

    @property
    def text(self):
        return '%d %s %d.%d' % (self.number, KINDS[self.number], self.proc, self.place)


class NoType(Exception):
    """The expression has operands that don't fit their operator, or is too wide."""


# ---- tables

def states_fit(states):
    """Whether the states are a tree in the order of the text, with names and compositions that fit."""
    if not 1 <= len(states) <= MOST_STATES or states[0].parent is not None:
        return False
    way = [0]                       # the state before and its ancestors, from state 0 on
    children = [[] for _ in states]
    for s, state in enumerate(states):
        if s > 0:
            if state.parent not in way:
                return False
            way = way[:way.index(state.parent) + 1] + [s]
            if len(way) - 1 > MOST_DEPTH:
                return False
            if any(states[other].name == state.name for other in children[state.parent]):
                return False
            children[state.parent].append(s)
        if not de.is_name(state.name):
            return False
    return all((state.comp == 'leaf') == (not below) for state, below in zip(states, children))


def first_value_fits(datum):
    if datum.scale is None:
        return datum.mode == 'saturate' and datum.init in (0, 1)
    return datum.scale.has(datum.init)


def tables_fit(declared):
    if len(declared.data) > MOST_DATA or len(declared.events) > MOST_EVENTS:
        return False
    names = [d.name for d in declared.data] + [e.name for e in declared.events]
    return (states_fit(declared.states) and len(set(names)) == len(names) and all(de.is_name(n) for n in names)
            and all(first_value_fits(d) for d in declared.data))


# ---- types

def number_type(fraction, size):
    if size > MOST_SIZE or fraction > MOST_FRACTION:
        raise NoType
    return fraction, size


def type_of(x, declared):
    """FLAG, or a fraction and a size."""
    word = x[0]
    if word in ('T', 'F', 'in'):
        return FLAG
    if word == '#':
        if not 0 <= x[1] <= MOST_MANTISSA or x[2] > MOST_LITERAL_FRACTION:
            raise NoType
        size = 0
        while 2 ** size < x[1]:
            size += 1
        return number_type(x[2], size)
    if word == 'd':
        scale = declared.data[x[1]].scale
        return FLAG if scale is None else number_type(scale.fraction, scale.width - scale.signed)
    types = [type_of(part, declared) for part in x[1:]]
    flags = [t == FLAG for t in types]
    if word in ('!', '&&', '||') or word in ('==', '!=') and any(flags):
        if not all(flags):
            raise NoType
        return FLAG
    if any(flags):
        raise NoType
    if word == '~':
        return types[0]
    (fa, ma), (fb, mb) = types
    fraction = max(fa, fb)
    greater = max(ma + fraction - fa, mb + fraction - fb)
    if word in ('+', '-'):
        return number_type(fraction, greater + 1)
    if word == '*':
        return number_type(fa + fb, ma + mb)
    if word == '/':
        return number_type(fraction, ma + fraction - fa + fb)
    if greater > MOST_SIZE:
        raise NoType
    return FLAG


def operators(x):
    return 0 if x[0] in ('T', 'F', 'in', '#', 'd') else 1 + sum(operators(part) for part in x[1:])


# ---- one instruction

def expressions(instruction):
    if instruction[0] == 'set':
        return [instruction[2]]
    return [instruction[2][1]] if instruction[0] == 'unless' and instruction[2][0] == 'expr' else []


def named_in(x):
    """What an expression names, as pairs of a kind and a number."""
    if x[0] == 'd':
        return [('datum', x[1])]
    if x[0] == 'in':
        return [('state', x[1])]
    return [name for part in x[1:] if isinstance(part, tuple) for name in named_in(part)]


def named_by(instruction):
    """What an instruction names: pairs of a kind and a number."""
    word, fields = instruction[0], instruction[1:]
    named = []
    if word == 'set':
        named = [('datum', fields[0])]
    elif word in ('emit', 'send'):
        named = [('event', fields[0])]
    elif word in ('mark', 'clear', 'keep', 'home'):
        named = [('state', fields[0])]
    elif word in ('call', 'visit'):
        named = [('procedure', n) for n in fields if n is not None]
    elif word == 'sendto':
        named = list(zip(('event', 'state', 'procedure'), fields))
    elif word == 'unless':
        kind = {'on': 'state', 'bare': 'state', 'last': 'state', 'event': 'event'}.get(fields[1][0])
        named = [(kind, fields[1][1])] if kind else []
    return named + [name for x in expressions(instruction) for name in named_in(x)]


def types_fit(instruction, declared):
    """Whether the types of an instruction fit."""
    word, fields = instruction[0], instruction[1:]
    try:
        types = [type_of(x, declared) for x in expressions(instruction)]
    except NoType:
        return False
    if any(operators(x) > MOST_OPERATORS for x in expressions(instruction)):
        return False
    if word == 'set':
        datum = declared.data[fields[0]]
        if datum.kind == 'input' or (types[0] == FLAG) != (datum.scale is None):
            return False
        return types[0] == FLAG or types[0][1] + max(0, datum.scale.fraction - types[0][0]) <= MOST_SIZE
    if word == 'emit':
        return declared.events[fields[0]].kind == 'output'
    if word in ('send', 'sendto'):
        return declared.events[fields[0]].kind == 'local'
    if word == 'unless' and fields[1][0] == 'event':
        return declared.events[fields[1][1]].kind != 'output'
    return not types or types[0] == FLAG


def keep_fits(instruction, states):
    if instruction[0] == 'keep':
        s = instruction[1]
    elif instruction[0] == 'unless' and instruction[2][0] == 'last':
        s = instruction[2][1]
    else:
        return True
    return s != 0 and states[states[s].parent].comp == 'or'


def instruction_fault(code, proc, place):
    """The number of the first fault at this place, or None."""
    instruction, declared = code.procs[proc][place], code.declared
    there = {'procedure': len(code.procs), 'state': len(declared.states), 'datum': len(declared.data),
             'event': len(declared.events)}
    word = instruction[0]
    if any(number >= there[kind] for kind, number in named_by(instruction)):
        return 1
    if word in ('unless', 'skip') and place + 1 + instruction[1] >= len(code.procs[proc]):
        return 2
    if word == 'call' and instruction[1] >= proc:
        return 3
    if not types_fit(instruction, declared):
        return 4
    if place + 1 == len(code.procs[proc]) and word != 'ret':
        return 8
    if not keep_fits(instruction, declared.states):
        return 10
    return None


# ---- the whole code

def heights_and_works(procs):
    """The height and the work of each procedure."""
    heights, works = [], []
    for proc in procs:
        heights.append(max([1 + heights[i[1]] for i in proc if i[0] == 'call'], default=0))
        work = [0] * len(proc)          # the greatest sum over the paths from each place on
        for place in reversed(range(len(proc))):
            word = proc[place][0]
            if word == 'ret':
                after = 0
            elif word == 'skip':
                after = work[place + 1 + proc[place][1]]
            elif word == 'unless':
                after = max(work[place + 1], work[place + 1 + proc[place][1]])
            else:
                after = work[place + 1]
            work[place] = 1 + after + (works[proc[place][1]] if word == 'call' else 0)
        works.append(work[0])
    return heights, works


def accept(code):
    """The height and the work of a well-formed code. Otherwise its first fault is raised."""
    if len(code.procs) > MOST_PROCS or any(len(proc) > MOST_INSTRUCTIONS for proc in code.procs):
        raise Fault(7)
    if not tables_fit(code.declared):
        raise Fault(9)
    if max(code.start, code.react) >= len(code.procs):
        raise Fault(1)
    for number, proc in enumerate(code.procs):
        if not proc:
            raise Fault(8, number)
        for place in range(len(proc)):
            fault = instruction_fault(code, number, place)
            if fault is not None:
                raise Fault(fault, number, place)
    heights, works = heights_and_works(code.procs)
    for number, height in enumerate(heights):
        if height > MOST_HEIGHT:
            raise Fault(5, number)
    for number, work in enumerate(works):
        if work > MOST_WORK:
            raise Fault(6, number)
    return max(heights), max(works)
