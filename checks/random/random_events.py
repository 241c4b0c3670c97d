#!/usr/bin/env python3
r"""Writes random blocks for event_files.py.

    python3 checks/random/random_events.py --seed 1 --first 0 --cases 1000 | python3 checks/reference/event_files.py --against PROGRAM

must print nothing. One case in ten is a world, and the others are event files: values at the ends of scales and just past
them, numbers of 36 and of 37 digits, byte 13 and byte 0 anywhere, comments, blanks, lines of 4,096 and of 4,097 bytes, tokens
out of form, and lines in which a byte was changed, added or left out. A case depends on the seed and on its number alone."""
import argparse
from fractions import Fraction
from random import Random

import beside                                # noqa: F401, which finds the other folders of checks
import declarations as de
import event_files as ev
import tables

NAMES = ('x y X y1 y_ xy GO G GOO go STOP e f0 start ticks tic TICK truE q true1 input1 Root z').split() + ['a' * 62, 'a' * 63]
EDGE_SCALES = [de.Scale(*parts) for parts in (
    (True, 1, 0), (True, 1, 1), (False, 1, 0), (False, 1, 1), (True, 8, 0), (False, 8, 4), (True, 8, 8), (True, 16, 0),
    (True, 16, 15), (False, 32, 32), (True, 32, 32), (True, 64, 0), (False, 64, 0), (True, 64, 32), (False, 64, 32),
    (True, 64, 24), (False, 64, 23), (True, 33, 32), (False, 63, 31))]
BLANKS = [b' ', b' ', b' ', b'\t', b'  ', b' \t', b'\t\t ']
BYTES = [0, 9, 11, 12, 13, 32, 35, 43, 45, 46, 48, 49, 57, 61, 95, 101, 113, 116, 127, 128, 160, 255]


# ---- declarations

def random_scale(rng):
    if rng.random() < 0.6:
        return rng.choice(EDGE_SCALES)
    width = rng.randint(1, 64)
    return de.Scale(rng.random() < 0.5, width, rng.randint(0, min(width, 32)))


def random_mantissa(rng, scale):
    one = 2 ** scale.fraction
    near = [scale.least, scale.least + 1, scale.greatest - 1, scale.greatest, 0, 1, -1, one, -one]
    mantissa = rng.choice(near) if rng.random() < 0.6 else rng.randint(scale.least, scale.greatest)
    return min(max(mantissa, scale.least), scale.greatest)


def random_states(rng):
    states = [de.State(None, 'leaf', 'Root')]
    way = [0]
    for s in range(1, rng.choice([1, 1, 2, 3, 5, 9, 14])):
        parent = rng.choice(way)
        if states[parent].comp == 'leaf':
            states[parent] = states[parent]._replace(comp=rng.choice(['or', 'and']))
        states.append(de.State(parent, 'leaf', rng.choice(['A', 'B', 'Run']) + str(s)))
        way = way[:way.index(parent) + 1] + [s]
    return states


def random_declarations(rng):
    """States, data and events."""
    names = rng.sample(NAMES, rng.randint(0, 12))
    data, events = [], []
    for name in names:
        kind = rng.choice(['input', 'input', 'input', 'output', 'local'])
        if rng.random() < 0.4:
            events.append(de.Event(kind, name))
        elif rng.random() < 0.2:
            data.append(de.Datum(kind, None, 'saturate', rng.randint(0, 1), name))
        else:
            scale = random_scale(rng)
            mode = rng.choice(['saturate', 'wrap', 'error'])
            data.append(de.Datum(kind, scale, mode, random_mantissa(rng, scale), name))
    return de.Declarations(random_states(rng), data, events)


# ---- values

def digits(text):
    return sum(c.isdigit() for c in text)


def padded(rng, text):
    """The number with zeros in front and behind, and often with 36 or 37 digits."""
    minus = text[:1] == '-'
    front, _, behind = text[minus:].partition('.')
    room = rng.choice([0, 0, 1, 3, 36, 36, 36, 36, 36, 37]) - len(front) - len(behind)
    if room > 0:
        after = rng.choice([0, room, rng.randint(0, room)])
        front, behind = '0' * (room - after) + front, behind + '0' * after
    return '-' * minus + front + ('.' + behind if behind else '')


def number_text(rng, scale):
    """A number near those of the scale."""
    mantissa = random_mantissa(rng, scale)
    near = rng.random()
    if near < 0.03:
        mantissa = rng.choice([scale.least - 1, scale.greatest + 1])
    elif near > 0.1 and digits(ev.decimal(scale.value(mantissa))) > ev.MOST_DIGITS:
        mantissa = mantissa >> scale.fraction << scale.fraction
    value = scale.value(mantissa)
    if 0.03 <= near < 0.05:
        value += rng.choice([1, -1]) * Fraction(1, 2 ** (scale.fraction + rng.randint(1, 3)))
    text = ev.decimal(value)
    if value == 0 and rng.random() < 0.3:
        text = '-' + text
    return padded(rng, text) if rng.random() < 0.3 else text


ODD_VALUES = ['', '-', '+1', '1.', '.5', '-.5', '1.0.0', '--1', '1-', '1e2', '1q0', '0.5q4', '1_0', '0x1', ' 1', '1=1', '=1',
              'true', 'false', 'True', 'truee', 'tru', '0.1', '0.3', 'inf', '1' * 36, '1' * 37, '9' * 36, '0' * 36 + '.0',
              '-0', '00']


def value_text(rng, datum):
    if rng.random() < 0.015:
        return rng.choice(ODD_VALUES)
    if datum.scale is None:
        return rng.choice(['true', 'false'])
    return number_text(rng, datum.scale)


# ---- lines

def event_line(rng, declared):
    """A line that is mostly an event with values of inputs."""
    events = [e.name for e in declared.events if e.kind == 'input'] + ['tick']
    inputs = [d for d in declared.data if d.kind == 'input']
    if rng.random() < 0.02:
        events = [e.name for e in declared.events] + [d.name for d in declared.data] + ['NO', 'start', '=', 'x=1']
    tokens = [rng.choice(events)]
    for datum in rng.sample(inputs, rng.randint(0, len(inputs))):
        tokens.append(datum.name + '=' + value_text(rng, datum))
    if rng.random() < 0.02 and len(tokens) > 1:
        tokens.insert(rng.randint(1, len(tokens)), rng.choice(tokens[1:]))
    if rng.random() < 0.02:
        others = [d.name + '=0' for d in declared.data if d.kind != 'input'] + ['x', '=', 'no=1', '#', events[0] + '=1']
        tokens.insert(rng.randint(1, len(tokens)), rng.choice(others))
    line = b''
    for token in tokens:
        line += (rng.choice(BLANKS) if line or rng.random() < 0.1 else b'') + token.encode()
    return line + (rng.choice(BLANKS) if rng.random() < 0.1 else b'')


def skipped_line(rng):
    return rng.choice([b'', b'', b' ', b'\t', b' \t ', b'#', b'# x', b' #\tGO', b'#GO', b'##', b'#\0\xff', b'\t# tick'])


def long_line(rng, line):
    length = rng.choice([4095, 4096, 4096, 4096, 4097])
    fill = rng.choice([b' ', b'\t', b'#a', b'a', b'0', b' \t'])
    if rng.random() < 0.7 and fill.strip():
        line = b'#' + line
    if rng.random() < 0.3:
        return (fill * length)[:max(0, length - len(line))] + line
    return line + (fill * length)[:max(0, length - len(line))]


def mutated(rng, line):
    at = rng.randint(0, len(line))
    kind = rng.randrange(3)
    byte = bytes([rng.choice(BYTES)])
    if kind == 0:
        return line[:at] + byte + line[at:]
    return line[:at] + (byte if kind == 1 else b'') + line[at + 1:]


def random_line(rng, declared):
    line = skipped_line(rng) if rng.random() < 0.25 else event_line(rng, declared)
    if rng.random() < 0.03:
        line = long_line(rng, line)
    if rng.random() < 0.04:
        line = mutated(rng, line)
    if rng.random() < 0.15:
        line += b'\r' if rng.random() < 0.9 else b'\r\r'
    return line


def random_file(rng, declared):
    lines = [random_line(rng, declared) for _ in range(rng.choice([0, 1, 1, 2, 3, 5, 8, 12, 20]))]
    text = b''.join(line + b'\n' for line in lines)
    return text[:-1] if text and rng.random() < 0.3 else text


# ---- worlds

def active_states(rng, states):
    """States that can become active one after another, each after its parent."""
    active = []
    for s, state in enumerate(states):
        parent = state.parent
        single = parent is not None and states[parent].comp == 'or'
        taken = single and any(states[other].parent == parent for other in active)
        if (parent is None or parent in active) and not taken and rng.random() < 0.7:
            active.append(s)
    ordered = []
    while len(ordered) < len(active):
        ready = [s for s in active if s not in ordered and states[s].parent in ordered + [None]]
        ordered.append(rng.choice(ready))
    return ordered


def random_world(rng, declared):
    def listed(numbers):
        return ','.join(map(str, numbers)) or '-'
    event = rng.choice(['start', 'tick'] + list(range(len(declared.events))))
    result = rng.choice(['ok', 'ok', 'depth', 'steps', 'zero'] + ['overflow:%d' % v for v in range(len(declared.data))])
    outputs = [rng.randrange(len(declared.events)) for _ in range(rng.choice([0, 1, 2, 5]))] if declared.events else []
    index = rng.choice([0, 1, 2, 9, 10, 20])
    states = listed(active_states(rng, declared.states))
    values = listed([datum.init for datum in declared.data])
    return 'world %d %s %s %s %s %s' % (index, event, result, states, values, listed(outputs))


def random_block(seed, number):
    rng = Random('%s %d' % (seed, number))
    declared = random_declarations(rng)
    what = random_world(rng, declared) if rng.random() < 0.1 else 'bytes ' + tables.escaped(random_file(rng, declared))
    lines = [de.state_text(s) for s in declared.states] + [de.datum_text(d) for d in declared.data]
    return '\n'.join(['block case%d' % number] + lines + [de.event_text(e) for e in declared.events] + [what])


def main():
    parser = argparse.ArgumentParser()
    parser.add_argument('--seed', default='1')
    parser.add_argument('--first', type=int, default=0)
    parser.add_argument('--cases', type=int, default=1000)
    options = parser.parse_args()
    print(tables.head(options.cases, 'blocks'))
    for number in range(options.first, options.first + options.cases):
        print(random_block(options.seed, number))
    print(tables.END)


if __name__ == '__main__':
    main()
