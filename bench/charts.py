#!/usr/bin/env python3
"""Writes a large chart of the whole language to standard output.

    bench/charts.py KIND BYTES      KIND is one of: transitions, expressions, nests, comments, parentheses, slashes

`transitions` has 1,000 states and as many transitions as there is room for, with guards and actions; `expressions` has
blocks of assignments with 44 operators each; `nests` has states 16 deep; `comments` is a small chart between long comments.
These four are charts within the limits. `parentheses` and `slashes` are a chart's beginning and then that byte alone:
the first is refused, the second is one comment and then ends too early. BYTES is at most 1,048,576."""
import sys


def padded(lines, size):
    text = '\n'.join(lines) + '\n'
    return text + ' ' * (size - len(text))


def declarations():
    events = ['event_%d_%s' % (i, 'e' * 12) for i in range(200)]
    data = ['datum_%d_%s' % (i, 'x' * 6) for i in range(200)]
    return events, data, ['event local %s;' % e for e in events] + ['local %s : sfix32_En8 wrap = 1.25;' % d for d in data]


def fill(head, size, items, tail):
    """As many of the items as there is room for between head and tail."""
    room = size - sum(len(line) + 1 for line in head + tail)
    lines = []
    for item in items:
        room -= len(item) + 1
        if room < 0:
            break
        lines.append(item)
    return padded(head + lines + tail, size)


def transition(i, events, data):
    d, e = data[i % 200], data[(i * 7 + 1) % 200]
    return ('outer %s [%s * %s + 1.5 > %s && !(%s == 0)] { %s = %s + 1; } / { emit %s; } -> S%d;'
            % (events[i % 200], d, e, d, e, d, d, events[(i + 1) % 200], i % 1000))


def transitions(size):
    events, data, lines = declarations()
    items = []
    for state in range(1000):
        items.append('\n'.join(['state S%d {' % state]
                               + [transition(state * 6 + k, events, data) for k in range(6)] + ['}']))
    return fill(['chart Bench or {'] + lines + ['default -> S0;'], size, items, ['}'])


def expressions(size):
    events, data, lines = declarations()
    items = []
    for state in range(1000):
        block = []
        for k in range(15):
            products = ['%s * (%s - %d)' % (data[(k + j) % 200], data[(state + j) % 200], j) for j in range(15)]
            block.append('%s = %s;' % (data[(state + k) % 200], ' + '.join(products)))
        items.append('state S%d { entry { %s } }' % (state, ' '.join(block)))
    return fill(['chart Bench or {'] + lines + ['default -> S0;'], size, items, ['}'])


def nests(size):
    events, data, lines = declarations()
    items = []
    for tower in range(60):
        states = ['state T%d_%d { default { %s = %s + 1; } -> A/B; inner %s [%s > 0] -> A; during { send %s to A/B/C; }'
                  % (tower, level, data[level], data[level], events[level], data[tower], events[tower]) for level in range(16)]
        items.append('\n'.join(states + ['}'] * 16))
    return fill(['chart Bench or {'] + lines + ['default -> T0_0;'], size, items, ['}'])


def comments(size):
    head = 'chart Bench or { event input GO; default -> A;\n'
    tail = 'state A { outer GO -> A; } }\n'
    line = '// ' + 'c' * 76 + '\n'
    return padded([head + line * ((size - len(head) - len(tail) - 1) // len(line)) + tail], size)


def repeated(byte):
    def text(size):
        head = 'chart Bench { default ['
        return head + byte * (size - len(head))
    return text


KINDS = {'transitions': transitions, 'expressions': expressions, 'nests': nests, 'comments': comments,
         'parentheses': repeated('('), 'slashes': repeated('/')}

if __name__ == '__main__':
    if len(sys.argv) != 3 or sys.argv[1] not in KINDS:
        sys.exit(__doc__)
    sys.stdout.write(KINDS[sys.argv[1]](int(sys.argv[2])))
