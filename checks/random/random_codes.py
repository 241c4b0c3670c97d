"""Random codes with event files, by a seed.

    python3 checks/random/main.py codes --seed S --cases N                       tries the reference
    python3 checks/random/main.py codes --seed S --cases N --against PROGRAM     compares `exec` and `upgrade` of PROGRAM, too

Half of the cases are well-formed codes with good event files. The others are mutated: in the code, where one or more of the
ten faults are planted at random places; in the text; or in the event file. One case of two thousand has 262,145 procedures,
and another one of these has 262,144.

Over every case it is demanded here that a text that is read prints as itself in its own format, that what it prints in
format 2 is read as the same code, and what code_machine.py demands of every event. A line is written where this isn't so, and
the case as a block of a table for code_machine.py. What was met is counted: instructions, conditions and operators by their outcome, faults and refusals
by where they stood, line faults, and results of events."""
import copy
import os
import random
import re
from collections import Counter
from fractions import Fraction

import beside                                # noqa: F401, which finds the other folders of checks
import code_acceptance as ca
import code_machine as cm
import code_text as ct
import declarations as de
import event_files as ev
import tables
from demands import Wrong, demand
from campaign import Campaign

MOST_MOVES = 20000          # for one event of a random code


class Random(random.Random):
    """Draws with likelihoods and with weights."""

    def chance(self, share):
        return self.random() < share

    def most(self, words):
        """One of the keys by their weights."""
        return self.choices(list(words), list(words.values()))[0]


# ---- declarations

LETTERS = 'A B C D E F G H a b x y n1 m_2 leaf start bool int8 tick_ Input'.split()
WIDTHS = [1, 2, 3, 4, 7, 8, 15, 16, 24, 31, 32, 33, 48, 63, 64]


def fresh(rng, taken):
    while True:
        name = rng.choice(LETTERS)
        if rng.chance(0.3):
            name += str(rng.randrange(100))
        if rng.chance(0.01):
            name = name.ljust(63, '_')
        if name not in taken:
            taken.add(name)
            return name


def random_states(rng):
    """States in a tree, each after its parent."""
    count = rng.choice([1, 2, 3, 3, 4, 5, 6, 7, 8, 10, 12, 20, 40])
    parents, way = [None], [0]
    deep = rng.random()
    for s in range(1, count):
        at = min(len(way) - 1, ca.MOST_DEPTH - 1)
        if not rng.chance(deep):
            at = rng.randrange(at + 1)
        parents.append(way[at])
        way = way[:at + 1] + [s]
    taken = [set() for _ in parents]
    states = []
    for s, parent in enumerate(parents):
        comp = rng.choice(['or', 'or', 'and']) if s in parents else 'leaf'
        states.append(de.State(parent, comp, fresh(rng, set() if s == 0 else taken[parent])))
    return states


def near_an_end(rng, least, greatest):
    kind = rng.randrange(4)
    if kind == 0:
        return min(greatest, least + rng.randrange(3))
    if kind == 1:
        return max(least, greatest - rng.randrange(3))
    if kind == 2:
        return min(greatest, max(least, rng.randint(-3, 3)))
    return rng.randint(least, greatest)


def random_declarations(rng):
    """States, data and events."""
    taken, data, events = set(), [], []
    for _ in range(rng.choice([0, 1, 2, 3, 3, 4, 5, 6, 9])):
        kind = rng.choice(['input', 'output', 'local', 'local'])
        if rng.chance(0.25):
            data.append(de.Datum(kind, None, 'saturate', rng.randrange(2), fresh(rng, taken)))
            continue
        width = rng.choice(WIDTHS)
        fraction = rng.choice([0, 0, rng.randrange(min(width, 32) + 1), min(width, 32)])
        scale = de.Scale(rng.chance(0.5), width, fraction)
        init = near_an_end(rng, scale.least, scale.greatest)
        data.append(de.Datum(kind, scale, rng.choice(['saturate', 'wrap', 'error']), init, fresh(rng, taken)))
    kinds = ['input', 'local', 'output'] if rng.chance(0.7) else []
    kinds += [rng.choice(['input', 'local', 'output']) for _ in range(rng.randrange(4))]
    rng.shuffle(kinds)
    for kind in kinds:
        events.append(de.Event(kind, fresh(rng, taken)))
    return de.Declarations(random_states(rng), data, events)


# ---- expressions

def random_literal(rng):
    kind = rng.randrange(6)
    if kind < 3:
        return '#', rng.randrange(12), 0
    if kind == 3:
        return '#', rng.randrange(1000), rng.randrange(33)
    size = rng.randrange(100)
    return '#', min(ct.MOST_MANTISSA, max(0, 2 ** size + rng.randint(-1, 1))), rng.choice([0, 0, 1, 4, 8, 16, 31, 32])


def random_number(rng, declared, depth):
    if depth == 0 or rng.chance(0.25):
        numbers = [v for v, d in enumerate(declared.data) if d.scale is not None]
        return ('d', rng.choice(numbers)) if numbers and rng.chance(0.6) else random_literal(rng)
    word = rng.choice('+++---**/~')
    if word == '~':
        return word, random_number(rng, declared, depth - 1)
    first = random_number(rng, declared, depth - 1)
    second = random_number(rng, declared, depth - 1)
    if word == '/' and rng.chance(0.7):
        second = '#', 1 + rng.randrange(9), rng.randrange(4)
    return word, first, second


def random_flag(rng, declared, depth):
    if depth == 0 or rng.chance(0.2):
        flags = [v for v, d in enumerate(declared.data) if d.scale is None]
        if flags and rng.chance(0.4):
            return 'd', rng.choice(flags)
        return ('in', rng.randrange(len(declared.states))) if rng.chance(0.7) else (rng.choice('TF'),)
    word = rng.choice(['!', '&&', '||', '==', '!=', '<', '<=', '>', '>=', '&&', '||'])
    if word == '!':
        return word, random_flag(rng, declared, depth - 1)
    if word in ('&&', '||') or word in ('==', '!=') and rng.chance(0.3):
        return word, random_flag(rng, declared, depth - 1), random_flag(rng, declared, depth - 1)
    return word, random_number(rng, declared, depth - 1), random_number(rng, declared, depth - 1)


def random_test(rng, declared):
    """A flag that has a type."""
    while True:
        instruction = ('unless', 0, ('expr', random_flag(rng, declared, rng.randrange(5))))
        if ca.types_fit(instruction, declared):
            return instruction[2]


def random_set(rng, declared):
    """An assignment that has a type, or None where there is nothing to assign to."""
    data = [v for v, d in enumerate(declared.data) if d.kind != 'input']
    if not data:
        return None
    v = rng.choice(data)
    depth = rng.randrange(5)
    while True:
        x = (random_flag if declared.data[v].scale is None else random_number)(rng, declared, depth)
        if ca.types_fit(('set', v, x), declared):
            return 'set', v, x
        depth = max(0, depth - 1)


# ---- procedures

WEIGHTS = {'set': 8, 'emit': 3, 'mark': 8, 'clear': 6, 'keep': 3, 'unless': 10, 'skip': 1, 'call': 7, 'visit': 4, 'send': 2,
           'sendto': 3, 'play': 4, 'home': 3, 'begin': 1, 'pass': 2, 'ret': 1}
CONDITIONS = {'on': 3, 'bare': 3, 'onhome': 2, 'barehome': 2, 'event': 4, 'result': 2, 'expr': 4, 'last': 2}


class Maker:
    """Makes a well-formed code, procedure by procedure."""

    def __init__(self, rng):
        self.rng = rng
        self.declared = random_declarations(rng)
        self.count = rng.choice([1, 2, 3, 4, 5, 6, 8, 12])
        self.procs, self.works, self.players = [], [], []

    def of_kind(self, *kinds):
        return [n for n, e in enumerate(self.declared.events) if e.kind in kinds]

    def below_ors(self):
        states = self.declared.states
        return [s for s in range(1, len(states)) if states[states[s].parent].comp == 'or']

    def state(self):
        return self.rng.randrange(len(self.declared.states))

    def note(self):
        return self.rng.randrange(self.count) if self.rng.chance(0.5) else None

    def result(self):
        return self.rng.choice([0, 0, 1, 1, 2, 3, 4294967295])

    def condition(self):
        """A condition that fits the declarations."""
        word = self.rng.most(CONDITIONS)
        if word in ('on', 'bare'):
            return word, self.state()
        if word == 'event' and self.of_kind('input', 'local'):
            return word, self.rng.choice(self.of_kind('input', 'local'))
        if word == 'result':
            return word, self.result()
        if word == 'last' and self.below_ors():
            return word, self.rng.choice(self.below_ors())
        if word in ('onhome', 'barehome'):
            return (word,)
        return random_test(self.rng, self.declared)

    def instruction(self, proc, room):
        """An instruction after which so many more can be jumped over, or None."""
        rng, word = self.rng, self.rng.most(WEIGHTS)
        if word == 'set':
            return random_set(rng, self.declared)
        if word == 'emit':
            return (word, rng.choice(self.of_kind('output'))) if self.of_kind('output') else None
        if word in ('mark', 'clear'):
            return word, self.state()
        if word == 'home':
            leaves = [s for s, state in enumerate(self.declared.states) if state.comp == 'leaf']
            return word, rng.choice(leaves) if rng.chance(0.7) else self.state()
        if word == 'keep':
            return (word, rng.choice(self.below_ors())) if self.below_ors() else None
        if word == 'unless':
            return word, min(room, rng.choice([0, 1, 1, 1, 2, 3, room])), self.condition()
        if word == 'skip':
            return word, min(room, rng.randrange(4))
        if word == 'call':
            lower = [p for p in range(proc) if self.works[p] < 150]
            if self.players and rng.chance(0.5):
                return word, rng.choice(self.players), rng.randrange(self.count)
            return (word, rng.choice(lower), self.note()) if lower else None
        if word == 'visit':
            return word, rng.randrange(proc) if proc and rng.chance(0.8) else rng.randrange(self.count), self.note()
        if word in ('send', 'sendto'):
            local = self.of_kind('local')
            if not local:
                return None
            to = rng.randrange(proc) if proc and rng.chance(0.8) else rng.randrange(self.count)
            return (word, rng.choice(local)) if word == 'send' else (word, rng.choice(local), self.state(), to)
        if word == 'ret':
            return word, self.result()
        return (word,)

    def proc(self, proc):
        """The instructions of the procedure with this number."""
        rng, length = self.rng, self.rng.choice([1, 2, 2, 3, 4, 5, 6, 8, 10, 14])
        made = []
        while len(made) < length - 1:
            room = length - 2 - len(made)
            instruction = self.instruction(proc, room)
            if instruction is None:
                continue
            if instruction[0] in ('send', 'visit') and room > 0 and rng.chance(0.6):
                # Without a guard most of these would run into a bound.
                inputs = self.of_kind('input')
                guard = ('event', rng.choice(inputs)) if inputs and rng.chance(0.6) else self.condition()
                made.append(('unless', 1, guard))
            made.append(instruction)
        return made + [('ret', self.result())]

    def player(self):
        """A procedure that plays, often after it has marked its home."""
        leaves = [s for s, state in enumerate(self.declared.states) if state.comp == 'leaf']
        home = self.rng.choice(leaves + [0])
        made = [('home', home)] if self.rng.chance(0.8) else []
        if made and self.rng.chance(0.7):
            way = [home]
            while self.declared.states[way[0]].parent is not None:
                way.insert(0, self.declared.states[way[0]].parent)
            made = [('mark', s) for s in way] + made
        return made + [('play',)] * self.rng.choice([1, 1, 2]) + [('ret', self.result())]

    def marker(self):
        """A procedure that marks states on their way down."""
        made = [('mark', 0)]
        for s in range(1, len(self.declared.states)):
            if self.rng.chance(0.6):
                made.append(('mark', s))
        return made + [('ret', self.result())]

    def code(self):
        """The whole code."""
        for proc in range(self.count):
            kind = self.rng.random()
            if 0.12 <= kind < 0.3:
                self.players.append(proc)
            self.procs.append(self.marker() if kind < 0.12 else self.player() if kind < 0.3 else self.proc(proc))
            self.works = ca.heights_and_works(self.procs)[1]
        start, react = self.rng.randrange(self.count), self.rng.randrange(self.count)
        if self.rng.chance(0.75):
            self.procs.append(self.marker()[:-1] + self.proc(self.count))
            start = self.count
        if self.rng.chance(0.6):
            react = max(range(len(self.procs)), key=lambda p: ca.heights_and_works(self.procs)[1][p] if p != start else 0)
        return ct.Code(self.declared, start, react, self.procs)


def random_bounds(rng, work):
    steps = rng.choice([1, 2, 3, 5, 8, 13, 30, 100, 1000])
    return rng.choice([1, 2, 3, 4, 8, 32]), max(1, min(steps, MOST_MOVES // (work + 1)))


# ---- event files

def exact_text(rng, value):
    text = ev.decimal(value)
    minus, text = ('-', text[1:]) if text.startswith('-') else ('', text)
    if rng.chance(0.1):
        text = '0' * rng.randrange(1, 4) + text
    if rng.chance(0.1):
        text += ('' if '.' in text else '.') + '0' * rng.randrange(1, 4)
    if value == 0 and rng.chance(0.2):
        minus = '-'
    return minus + text


def good_value(rng, datum):
    if datum.scale is None:
        return rng.choice(['true', 'false'])
    for _ in range(20):
        mantissa = near_an_end(rng, datum.scale.least, datum.scale.greatest)
        text = exact_text(rng, datum.scale.value(mantissa))
        if sum(c.isdigit() for c in text) <= ev.MOST_DIGITS:
            return text
    return '0'


def bad_value(rng, datum):
    if datum.scale is None:
        return rng.choice(['', '1', '0', 'True', 'truee', 'tru', '-true', 'true=false'])
    step = Fraction(1, 2 ** datum.scale.fraction)
    past = [datum.scale.value(datum.scale.greatest) + step, datum.scale.value(datum.scale.least) - step,
            datum.scale.value(near_an_end(rng, datum.scale.least, datum.scale.greatest)) + step / 2]
    words = ['', '-', '+1', '.5', '1.', '1e1', '--1', '0x1', '1q1', 'true', '1=1', '0.1.1', '1\0', '\r1', '1_0', '0.3',
             '0' * 37, '0.' + '0' * 36] + [ev.decimal(value) for value in past] * 5
    return rng.choice(words)


def good_line(rng, declared):
    inputs = [v for v, d in enumerate(declared.data) if d.kind == 'input']
    named = [e.name for e in declared.events if e.kind == 'input'] * 3 + ['tick']
    space = rng.choice([' ', ' ', ' ', '\t', '  ', ' \t '])
    tokens = [rng.choice(named)]
    for v in rng.sample(inputs, rng.randrange(len(inputs) + 1)):
        tokens.append('%s=%s' % (declared.data[v].name, good_value(rng, declared.data[v])))
    line = space.join(tokens)
    if rng.chance(0.1):
        line = space + line + space
    return line + ('\r' if rng.chance(0.1) else '')


def bad_line(rng, declared):
    """A line with one or more faults, or one that only looks so."""
    kind = rng.randrange(9)
    line = good_line(rng, declared).rstrip('\r')
    inputs = [d for d in declared.data if d.kind == 'input']
    others = [d.name for d in declared.data if d.kind != 'input'] + [e.name for e in declared.events]
    if kind == 0:
        return rng.choice(['NO', 'TICK', 'tick\0', '\r', 'tick\r\r', '\xff', 'tick=1', 'ti#', '\x0ctick'] + others)
    if kind == 1:
        return rng.choice([e.name for e in declared.events] or ['start'])
    if kind == 2:
        line += ' ' + rng.choice(others + ['', 'q', '#', 'tick']) + rng.choice(['', '=', '=1', '=true'])
    if kind in (3, 4) and inputs:
        datum = rng.choice(inputs)
        line += ' %s=%s %s=%s' % (datum.name, good_value(rng, datum), datum.name,
                                  rng.choice([good_value, bad_value])(rng, datum))
    if kind in (5, 6, 7) and inputs:
        datum = rng.choice(inputs)
        line = 'tick %s=%s' % (datum.name, bad_value(rng, datum)) + rng.choice(['', ' q=1', ' ' + datum.name])
    if kind == 8:
        length = rng.choice([4095, 4096, 4097, 4098])
        line = (line + ' ' * length)[:length] if rng.chance(0.5) else ('#' + line + 'a' * length)[:length]
        if rng.chance(0.3):
            line = line[:-1] + '\r'
    return line


def random_events(rng, declared, bad):
    lines = []
    for _ in range(rng.choice([0, 1, 2, 3, 5, 8, 12])):
        if rng.chance(0.15):
            lines.append(rng.choice(['', '#', '  ', '# tick', '\t\r', '\r', '#\0', '#tick x=']))
        lines.append(good_line(rng, declared))
    for _ in range(rng.choice([1, 1, 2]) if bad else 0):
        lines.insert(rng.randrange(len(lines) + 1), bad_line(rng, declared))
    data = '\n'.join(lines).encode('latin-1')
    return data + b'\n' if lines and rng.chance(0.7) else data


# ---- faults planted in a code

def insert(rng, code, instruction):
    """The instruction at a random place, and often at the first one. The jumps keep their lengths."""
    proc = rng.choice([0, rng.randrange(len(code.procs)), rng.randrange(len(code.procs))])
    instructions = code.procs[proc]
    place = rng.choice([0, rng.randrange(max(1, len(instructions)))])
    instructions.insert(place, instruction)
    return proc, place


def beyond(rng, count):
    return rng.choice([count, count, count + 1, count + rng.randrange(1000), 4294967295])


def plant_number(rng, code):
    """A number that names nothing, and now and then an operand of the wrong type with it."""
    d = code.declared
    procs, events = len(code.procs), len(d.events)
    s, e, p, v = beyond(rng, len(d.states)), beyond(rng, events), beyond(rng, procs), beyond(rng, len(d.data))
    flag = random_flag(rng, d, 2)
    some_event = rng.randrange(max(1, events))
    tests = [('on', s), ('bare', s), ('last', s), ('event', e),
             ('expr', rng.choice([('==', flag, ('in', s)), ('<', ('d', v), flag)]))]
    planted = rng.choice(['start', 'react', ('mark', s), ('clear', s), ('keep', s), ('home', s),
                          *(('unless', 0, test) for test in tests), ('emit', e), ('send', e), ('sendto', e, 0, 0),
                          ('sendto', some_event, s, 0), ('sendto', some_event, 0, p),
                          rng.choice([('call', p, None), ('call', 0, p)]), rng.choice([('visit', p, None), ('visit', 0, p)]),
                          ('set', v, flag)])
    if planted in ('start', 'react'):
        setattr(code, planted, beyond(rng, procs))
    else:
        insert(rng, code, planted)


def plant_skip(rng, code):
    proc, place = insert(rng, code, ('begin',))
    length = len(code.procs[proc])
    over = length - place - 1 + rng.choice([0, 0, 0, 1, rng.randrange(1000)])
    if rng.chance(0.1):
        over = 4294967295
    code.procs[proc][place] = rng.choice([('skip', over), ('unless', over, ('onhome',)),
                                          ('unless', over, ('expr', random_flag(rng, code.declared, 1)))])


def plant_call(rng, code):
    proc, place = insert(rng, code, ('begin',))
    code.procs[proc][place] = ('call', rng.randrange(proc, len(code.procs)), rng.choice([None, 0]))


def plant_types(rng, code):
    """An instruction whose types don't fit, or only just fit."""
    d = code.declared
    wrong = []
    for v, datum in enumerate(d.data):
        flag, number = random_flag(rng, d, 2), random_number(rng, d, 3)
        wrong += [('set', v, number if datum.scale is None else flag)]
        if datum.kind == 'input':
            wrong += [('set', v, flag if datum.scale is None else number)] * 2
        if datum.scale is not None:
            size = rng.choice([datum.scale.width, 100 - datum.scale.width, 100 - datum.scale.fraction])
            edge = ('#', min(ct.MOST_MANTISSA, max(0, 2 ** max(0, size) + rng.randint(-1, 1))), rng.randrange(33))
            wrong += [('set', v, (rng.choice('+-*/'), ('d', v), edge)), ('set', v, (rng.choice('+-*/'), edge, ('d', v))),
                      ('set', v, edge), ('unless', 0, ('expr', ('<', edge, ('d', v)))),
                      ('unless', 0, ('expr', ('==', ('*', edge, ('d', v)), edge)))]
    for e, event in enumerate(d.events):
        wrong += [('emit', e), ('send', e), ('sendto', e, 0, 0), ('unless', 0, ('event', e))]
    flag, number = random_flag(rng, d, 2), random_number(rng, d, 4)
    wrong += [('unless', 0, ('expr', x)) for x in (
        number, ('!', number), ('~', flag), ('&&', flag, number), ('==', number, flag), ('<', flag, flag),
        ('||', number, number), ('==', ('+', flag, number), number))]
    if not d.data:
        wrong = wrong[-4:]
    insert(rng, code, rng.choice(wrong))


def plant_no_ret(rng, code):
    proc = rng.choice([0, rng.randrange(len(code.procs)), len(code.procs) - 1])
    if rng.chance(0.25):
        code.procs[proc] = []
    elif rng.chance(0.5):
        code.procs[proc][-1:] = [('pass',)]
    else:
        code.procs[proc].append(rng.choice([('mark', 0), ('begin',), ('keep', 0), ('skip', 0), ('visit', 0, None)]))


def plant_parent(rng, d):
    if len(d.states) == 1:
        return False
    s = rng.randrange(1, len(d.states))
    d.states[s] = d.states[s]._replace(parent=rng.choice([s, s + 1, s - 1, rng.randrange(len(d.states)), 4294967295]))
    return True


def plant_composition(rng, d):
    s = rng.randrange(len(d.states))
    d.states[s] = d.states[s]._replace(comp=rng.choice(['leaf', 'or', 'and']))
    return True


def plant_state_name(rng, d):
    if len(d.states) == 1:
        return False
    s = rng.randrange(1, len(d.states))
    d.states[s] = d.states[s]._replace(name=rng.choice(d.states).name)
    return True


def plant_fewer_states(rng, d):
    del d.states[rng.randrange(len(d.states)):]
    return True


def plant_first_value(rng, d):
    numbers = [v for v, datum in enumerate(d.data) if datum.scale is not None]
    if not numbers:
        return False
    v = rng.choice(numbers)
    scale = d.data[v].scale
    d.data[v] = d.data[v]._replace(init=rng.choice([scale.greatest + 1, scale.least - 1, 2 ** 64, -2 ** 64]))
    return True


def plant_name(rng, d, named):
    """One of these data or events has the name of a datum or an event, often its own."""
    if not named:
        return False
    at = rng.randrange(len(named))
    named[at] = named[at]._replace(name=rng.choice(d.data + d.events).name)
    return True


def plant_deep_states(rng, d):
    """States as deep as they may be, or one deeper or less deep."""
    deep = rng.choice([15, 16, 17])
    way = 0
    d.states[0] = d.states[0]._replace(comp='and')
    for n in range(deep):
        d.states.append(de.State(way, 'and' if n < deep - 1 else 'leaf', 'deep'))
        way = len(d.states) - 1
    return True


def plant_many(rng, table, made):
    """As many lines of a table as there may be, or one more."""
    table += [made('many%d' % n) for n in range(rng.choice([1024, 1025]) - len(table))]
    return True


def plant_many_states(rng, d):
    d.states[0] = d.states[0]._replace(comp='or')
    return plant_many(rng, d.states, lambda name: de.State(0, 'leaf', name))


# Each gives whether there was something to change.
TABLE_PLANTS = [plant_parent, plant_composition, plant_state_name, plant_fewer_states, plant_first_value,
                *[lambda rng, d: plant_name(rng, d, d.data)] * 2, lambda rng, d: plant_name(rng, d, d.events), plant_deep_states,
                plant_many_states,
                lambda rng, d: plant_many(rng, d.data, lambda name: de.Datum('local', None, 'saturate', 0, name)),
                lambda rng, d: plant_many(rng, d.events, lambda name: de.Event('local', name))]


def plant_table(rng, code):
    """A table of declarations that doesn't fit, or only just fits. Of the ways that can be taken each is as likely."""
    while not rng.choice(TABLE_PLANTS)(rng, code.declared):
        pass


def plant_keep(rng, code):
    states = code.declared.states
    ands = [s for s, state in enumerate(states) if state.comp == 'and']
    wrong = [0] + [s for s in range(1, len(states)) if states[s].parent in ands] * 2    # the parent may not be there any more
    s = rng.choice(wrong)
    insert(rng, code, rng.choice([('keep', s), ('unless', 0, ('last', s))]))


def plant_height(rng, code):
    first = len(code.procs)
    for n in range(rng.choice([199, 200, 201, 230])):
        code.procs.append([('call', first - 1 + n, rng.choice([None, 0])), ('ret', 0)])


def plant_work(rng, code):
    first = len(code.procs)
    for n in range(rng.choice([25, 28, 30, 31, 32, 33, 34, 40])):
        call = ('call', first - 1 + n, None)
        code.procs.append([call] * rng.choice([2, 2, 3]) + [('ret', 0)])


PLANTS = {plant_number: 10, plant_skip: 7, plant_call: 7, plant_types: 12, plant_no_ret: 7, plant_table: 10, plant_keep: 7,
          plant_height: 3, plant_work: 3}


# ---- mutated texts

# Changes of a whole text

def cut_text(rng, text):
    return text[:rng.choice([rng.randrange(len(text) + 1), len(text) - 1, len(text) - 4, rng.randrange(12)])]


def lengthened_text(rng, text):
    return text + rng.choice([b'\n', b'end\n', b'x', b'\0', b' '])


def put_byte(rng, text):
    place = rng.randrange(len(text))
    return text[:place] + bytes([rng.choice([rng.randrange(256), 32, 10, 48, 45])]) + text[place + rng.randrange(2):]


def dropped_byte(rng, text):
    place = rng.randrange(len(text))
    return text[:place] + text[place + 1:]


# Changes of the lines of a text, of which one is hit

def other_version(rng, lines, _at):
    lines[0] = rng.choice([b'flowcode 3', b'flowcode 0', b'flowcode', b'flowcode ', b'flowcode 1 ', b'flowcode 02', b'flow 1',
                           b'flowcode 1\r', b'', b'flowcode -', b'flowcode 12'])


def first_version(_rng, lines, _at):
    lines[0] = b'flowcode 1'


def doubled_line(_rng, lines, at):
    lines.insert(at, lines[at])


def dropped_line(_rng, lines, at):
    del lines[at]


def swapped_lines(rng, lines, at):
    other = rng.randrange(len(lines))
    lines[at], lines[other] = lines[other], lines[at]


def odd_blanks(rng, lines, at):
    line = lines[at]
    lines[at] = rng.choice([line + b' ', b' ' + line, line + b'\r', line.replace(b' ', b'\t'), line.replace(b' ', b'  ')])


def wrong_count(rng, lines, _at):
    """A number that counts lines is one more or less, or at the limit of numbers."""
    heads = (b'states', b'data', b'events', b'procs', b'p')
    counting = [n for n, line in enumerate(lines) if re.match(b'(%s) [0-9]' % b'|'.join(heads), line)]
    at = rng.choice(counting or [0])
    fields = lines[at].split(b' ')
    count = int(fields[1]) if counting else 0
    fields[1:2] = [b'%d' % rng.choice([count + 1, max(0, count - 1), 2 ** 32 - 1, 2 ** 32])]
    lines[at] = b' '.join(fields)


def long_expression(rng, lines, at):
    """An expression with about as many operators as there may be, and now and then with a literal at its limits."""
    rest = [b'T', b'F', b'== #%d:32 #0:0' % ct.MOST_MANTISSA, b'== #%d:0 #0:0' % (ct.MOST_MANTISSA + 1), b'== #0:33 #0:0']
    lines.insert(at, b'unless 0 expr ' + b'! ' * rng.choice([63, 64, 65]) + rng.choice(rest))
    heads = [n for n in range(at) if re.fullmatch(b'p [0-9]+', lines[n])]
    if heads:
        lines[heads[-1]] = b'p %d' % (int(lines[heads[-1]][2:]) + 1)


# Changes of the fields of a line, of which one is hit

def other_field(rng, fields, at):
    fields[at] = rng.choice([b'', b'0', b'-', b'00', b'4294967295', b'4294967296', b'-0', b'+1', b'x', b'true'])


def misspelled_field(_rng, fields, at):
    fields[at] = b'0' + fields[at] if fields[at].isdigit() else fields[at].upper()


def field_more(rng, fields, at):
    fields.insert(rng.choice([at, len(fields)]), rng.choice([b'', b'0', b'-', b'T']))


def field_less(_rng, fields, at):
    del fields[at]


def other_declaration(rng, fields, at):
    """The name, the scale or the first value of a declaration is one at the limits or past them."""
    if at == len(fields) - 1 and fields[0] in (b's', b'd', b'e'):
        fields[at] = rng.choice([b'tick', b'_a', b'1a', b'history', b'a' * 63, b'a' * 64, b'a-b', b'caf\xe9', b'or'])
    elif fields[0] == b'd' and at == 2:
        fields[at] = rng.choice([b'sfix8', b'int8', b'sfix65_En0', b'ufix64_En33', b'sfix8_En9', b'ufix0_En0', b'sfix08_En0',
                                 b'sfix8_En00', b'bool', b'sfix8_En8', b'ufix1_En1', b'sfix64_En32', b'sfix8_en0'])
    elif fields[0] == b'd' and at == 4:
        fields[at] = rng.choice([b'%d' % 2 ** 64, b'%d' % (2 ** 64 + 1), b'-%d' % (2 ** 64 + 1), b'-0', b'00'])


TEXT_CHANGES = [cut_text, lengthened_text, put_byte, dropped_byte]
LINE_CHANGES = [other_version, first_version, doubled_line, dropped_line, swapped_lines, odd_blanks, wrong_count, long_expression]
FIELD_CHANGES = [other_field, misspelled_field, field_more, field_less, other_declaration]


def line_to_hit(rng, lines):
    """The number of a line. Each word at the front of a line is hit as often as each other one."""
    words = {}
    for n, line in enumerate(lines):
        words.setdefault(line.split(b' ')[0], []).append(n)
    bare = [word for word in words if word in (b'begin', b'pass', b'play')]
    return rng.choice(words[rng.choice(bare if bare and rng.chance(0.1) else list(words))])


def mutated_text(rng, text):
    """The text with one change."""
    change = rng.choice(TEXT_CHANGES + LINE_CHANGES + FIELD_CHANGES)
    if change in TEXT_CHANGES:
        return change(rng, text)
    lines = text.split(b'\n')[:-1]
    at = line_to_hit(rng, lines)
    if change in LINE_CHANGES:
        change(rng, lines, at)
    else:
        fields = lines[at].split(b' ')
        change(rng, fields, rng.randrange(len(fields)))
        lines[at] = b' '.join(fields)
    return b'\n'.join(lines) + b'\n'


# ---- cases

class Case:
    """A code text with an event file and bounds, and which of them may have a fault."""

    def __init__(self, seed, number):
        rng = self.rng = Random('%s %d' % (seed, number))
        self.number = number
        code = Maker(rng).code()
        work = ca.accept(code)[1]
        procs = {999: ca.MOST_PROCS + 1, 1999: ca.MOST_PROCS}.get(number % 2000)
        self.depth, self.steps = random_bounds(rng, work)
        kind = rng.random()
        self.kind = ('code mutated' if procs or 0.5 <= kind < 0.7 else 'accepted' if kind < 0.5
                     else 'events mutated' if kind < 0.82 else 'text mutated')
        self.events = random_events(rng, code.declared, self.kind == 'events mutated')
        if self.kind == 'code mutated':
            code = mutated_code(rng, code, procs)
        old = all('keep' != i[0] and not (i[0] == 'unless' and i[2][0] == 'last') for p in code.procs for i in p)
        self.text = ct.print_code(code, 1 if old and rng.chance(0.5) else 2)
        if self.kind == 'text mutated':
            self.text = mutated_text(rng, self.text)
            if rng.chance(0.1):
                self.text = mutated_text(rng, self.text) if self.text.count(b'\n') > 1 else self.text

    def table(self):
        lines = ['block case_%d' % self.number, 'bounds %d %d' % (self.depth, self.steps)]
        whole, _, rest = self.text.rpartition(b'\n')
        if b'\n' in self.text:
            lines += ['code ' + tables.escaped(line) for line in whole.split(b'\n')]
        lines += ['code_bytes ' + tables.escaped(rest)] if rest else []
        lines += ['bytes ' + tables.escaped(self.events)] if self.events else []
        return lines


def mutated_code(rng, code, procs):
    """The code with a few faults, and with so many procedures where a number is said."""
    code = copy.deepcopy(code)
    for _ in range(rng.choice([1, 1, 1, 2, 2, 3])):
        if code.declared.states:
            rng.most(PLANTS)(rng, code)
    if procs:
        code.procs += [[('ret', 0)]] * (procs - len(code.procs))
    return code


def place_of(fault):
    if fault.proc == 0:
        return 'at 0.0' if fault.place == 0 else 'later in procedure 0'
    return 'at the first place of a later procedure' if fault.place == 0 else 'later in a later procedure'


def kind_of_line(text, number):
    word = text.split(b'\n')[number - 1].split(b' ')[0].decode('latin-1')
    return word if word in ('s', 'd', 'e', 'p', 'states', 'data', 'events', 'procs', 'end', *ct.INSTRUCTIONS) else 'other'


def demand_prints(text):
    """A text that can be read must print as itself."""
    try:
        raw = ct.read_text(text)
    except ct.Refused:
        return
    demand(ct.print_code(raw, int(text[9:10])) == text, 'the text prints as another one')
    demand(ct.read_text(ct.print_code(raw)) == raw, 'the printed text is read as another code')


def refusal_name(case, refused):
    if refused.kind == 6:
        return 'fault %2d %s %s' % (refused.form.number, ca.KINDS[refused.form.number], place_of(refused.form))
    if refused.kind == 1:
        where = ' at line 1' if refused.line == 1 else ' in a line of the word ' + kind_of_line(case.text, refused.line)
        return 'refusal 1 BadLine' + where
    return 'refusal %d %s' % (refused.kind, ct.KINDS[refused.kind])


def examine(case, met):
    """Runs a case, demands what must hold, and counts what was met."""
    met['case ' + case.kind] += 1
    demand_prints(case.text)
    try:
        code, height, work = ct.read_code(case.text)
    except ct.Refused as refused:
        met[refusal_name(case, refused)] += 1
        return
    case.steps = max(1, min(case.steps, MOST_MOVES // (work + 1)))
    run = cm.Run(code, height, work, case.depth, case.steps)
    for line in run.lines(lambda: case.events):
        met['result ' + line.rsplit(' ', 2)[1 if line.split(' ')[-2] == 'overflow' else 2].split(' ')[0]] += 1
        met['events'] += 1
    for name, count in run.machine.met.items():
        met[('instruction ' if name.split(' ')[0] in ct.INSTRUCTIONS else
             'operator ' if name.startswith('expression') else 'condition ') + name.replace('expression ', '')] += count
    met['instructions carried out'] += sum(run.counts)
    if run.status == 1:
        met['line fault ' + run.error.split(': ')[1].strip() + (' in line 1' if ' 1:' in run.error else ' later')] += 1
    met['status %d' % run.status] += 1


EXPECTED = (['instruction ' + word for word in ct.INSTRUCTIONS]
            + ['condition %s %s' % (word, way) for word in ct.CONDITIONS for way in ('holds', 'fails')]
            + ['instruction ' + word for word in ('mark marks', 'clear clears', 'pass returns', 'play plays',
                                                  'sendto sends', 'play without a note', 'play without a bare home',
                                                  'set saturate', 'set wrap', 'set error')]
            + ['operator ' + word for word in ct.BINARY]
            + ['fault %2d %s %s' % (n, ca.KINDS[n], where) for n in (1, 2, 3, 4, 8, 10)
               for where in ('at 0.0', 'later in procedure 0', 'at the first place of a later procedure',
                             'later in a later procedure')]
            + ['fault %2d %s at the first place of a later procedure' % (n, ca.KINDS[n]) for n in (5, 6)]
            + ['fault %2d %s at 0.0' % (n, ca.KINDS[n]) for n in (7, 9)]
            + ['refusal 1 BadLine at line 1'] + ['refusal %d %s' % (n, ct.KINDS[n]) for n in (2, 3, 4)]
            + ['refusal 1 BadLine in a line of the word ' + word for word in
               ['s', 'd', 'e', 'p', 'states', 'data', 'events', 'procs', 'end', 'other'] + list(ct.INSTRUCTIONS)]
            + ['line fault %d %s %s' % (n, kind, where) for n, kind in ev.LINE_FAULTS.items()
               for where in ('in line 1', 'later')]
            + ['result ' + word for word in ('ok', 'depth', 'steps', 'zero', 'overflow')]
            + ['status %d' % n for n in (0, 1, 3)])


def wrong_lines(case, met, program):
    """What is wrong of a case, alone and, where one is given, with a program."""
    name = 'case_%d' % case.number
    try:
        examine(case, met)
        if program:
            return cm.compare(name, program, case.text, case.events, case.depth, case.steps)
    except Wrong as wrong:
        return ['%s: %s' % (name, wrong)]
    return []


def add_options(reader):
    reader.add_argument('--against', metavar='PROGRAM', type=os.path.abspath)


def try_case(options, number, met):
    """Tries a case, and writes it where anything is wrong."""
    case = Case(options.seed, number)
    lines = wrong_lines(case, met, options.against)
    if lines:
        print('\n'.join(lines + (case.table() if len(case.text) < 20000 else ['(the text is long)'])))


def campaign(options, _folder):
    """Tries codes; main.py calls it."""
    met = Counter({name: 0 for name in EXPECTED})
    return Campaign(lambda number: try_case(options, number, met), lambda: {'codes': met})
