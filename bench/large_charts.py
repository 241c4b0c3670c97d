#!/usr/bin/env python3
"""Writes a chart at the limits of the language to standard output, or measures how a program compiles all of them.

    bench/large_charts.py KIND      KIND is a name of the table in README.md
    bench/large_charts.py BIN       BIN is the path of a built program, with a slash

The second form prints the rows of that table. A row has the states, junctions, transitions and pairs that `check` counts, the bytes
of the code with its height and work, by checks/reference/code_text.py, and the seconds of processor time and the peak memory of
`compile`, of `exec` and `rules` over an event file of three lines, of `upgrade`, of `shrink` with the bytes that it writes, and of
`bounds` with what it answers. It says where the traces of `exec` and `rules` differ, that of the smaller code among them, or the
code and what `upgrade` makes of it. It makes its files in a temporary folder, and is no test: how fast a program is has no
limit."""
import filecmp
import multiprocessing
import os
import re
import sys
import tempfile

from measuring import long_name, measure, used_text, write      # which finds the modules of checks too

import code_text
from programs import ended

STATES, JUNCTIONS, DEPTH, BYTES = 1024, 4096, 16, 1048576
EVENTS = 'GO\ntick\nGO\n'


def leaves():
    """An AND of 1,023 leaves."""
    yield 'chart C and {'
    yield 'event input GO;'
    yield from ('state S%d { }' % place for place in range(STATES - 1))
    yield '}'


def regions():
    """An AND of 511 ORs with a state each, which GO leaves and enters again."""
    yield 'chart C and {'
    yield 'event input GO;'
    yield from ('state R%d or { default -> A; state A { outer GO -> A; } }' % place for place in range(511))
    yield '}'


def wide():
    """An OR of 1,023 leaves with 8 transitions each."""
    yield 'chart C or {'
    yield 'event input GO;'
    yield 'default -> S0;'
    for place in range(STATES - 1):
        others = ['outer GO -> S%d;' % ((place * 7 + more) % (STATES - 1)) for more in range(8)]
        yield 'state S%d { %s }' % (place, ' '.join(others))
    yield '}'


def nest():
    """64 towers of ORs, as deep as may be, whose deepest states lead to the deepest state of the next tower."""
    yield 'chart C or {'
    yield 'event input GO;'
    yield 'default -> T0;'
    heights = [DEPTH] * 63 + [STATES - 1 - 63 * DEPTH]
    for tower, height in enumerate(heights):
        for level in range(height):
            name = 'T%d' % tower if level == 0 else 'A%d' % level
            yield 'state %s { entry { } %s' % (name, 'default -> A%d;' % (level + 1) if level + 1 < height else '')
        after = (tower + 1) % len(heights)
        path = ['T%d' % after] + ['A%d' % level for level in range(1, heights[after])]
        yield 'outer GO -> %s;' % '/'.join(path)
        yield '}' * height
    yield '}'


def tree():
    """States in a tree, in which an AND of two stands above an OR of two and the other way round, with history."""
    def below(level, number):
        if level == 9:
            yield 'state %s { outer GO -> %s; }' % (number, number)
        else:
            yield 'state %s %s' % (number, 'and {' if level % 2 else 'or { history; default -> b;')
            yield from below(level + 1, 'a')
            yield from below(level + 1, 'b')
            yield '}'
    yield 'chart C or {'
    yield 'event input GO;'
    yield 'default -> b;'
    yield from below(1, 'a')
    yield from below(1, 'b')
    yield '}'


def pairs():
    """32,768 pairs: 127 lists lead to a junction with 255 transitions, and 256 more transitions are pairs of their own."""
    yield 'chart C or {'
    yield 'event input GO;'
    yield 'default -> S0;'
    yield 'junction j {'
    yield from ('GO -> S%d;' % place for place in range(255))
    yield '}'
    yield from ('state S%d { outer -> @j; outer GO -> S0; }' % place for place in range(127))
    yield from ('state S%d { outer GO -> S0; }' % place for place in range(127, 255))
    yield '}'


def chain():
    """4,096 junctions, each of which leads to the next one and does something on the way and behind it, and 7 lists that
    lead to the first."""
    yield 'chart C or {'
    yield 'event input GO;'
    yield 'local n : uint16;'
    yield 'local m : uint32 wrap;'
    yield 'default -> S0;'
    for place in range(JUNCTIONS):
        to = '@j%d' % (place + 1) if place + 1 < JUNCTIONS else 'S0'
        yield 'junction j%d { { n = n + 1; } / { m = m * 3 + 1; } -> %s; }' % (place, to)
    yield from ('state S%d { outer GO -> @j0; }' % place for place in range(7))
    yield '}'


def events():
    """4,096 junctions in a chain, through which each of 1,000 input events goes, and 999 states more."""
    yield 'chart C or {'
    yield 'event input GO;'
    yield from ('event input E%d;' % place for place in range(1, 1000))
    yield 'default -> S0;'
    for place in range(JUNCTIONS):
        to = '@j%d' % (place + 1) if place + 1 < JUNCTIONS else 'S0'
        yield 'junction j%d { -> %s; }' % (place, to)
    yield 'state S0 { outer -> @j0; }'
    yield from ('state S%d { outer E%d -> S0; }' % (place, place) for place in range(1, 1000))
    yield '}'


def cycles():
    """4,096 junctions, each of which leads to the next one, and the last one to the first."""
    yield 'chart C or {'
    yield 'event input GO;'
    yield 'default -> S0;'
    yield from ('junction j%d { -> @j%d; }' % (place, (place + 1) % JUNCTIONS) for place in range(JUNCTIONS))
    yield from ('state S%d { outer GO -> @j0; }' % place for place in range(7))
    yield '}'


def mesh():
    """90 junctions, each of which leads to each, and 4 lists that lead to one."""
    yield 'chart C or {'
    yield 'event input GO;'
    yield 'local n : uint16;'
    yield 'default -> S0;'
    for place in range(90):
        yield 'junction j%d { %s }' % (place, ' '.join('[n == %d] -> @j%d;' % (to, to) for to in range(90)))
    yield from ('state S%d { outer GO -> @j0; }' % place for place in range(4))
    yield '}'


def sends():
    """An AND of 32 regions, each of which sends what the next one waits for."""
    yield 'chart C and {'
    yield 'event input GO;'
    yield from ('event local L%d;' % place for place in range(33))
    for place in range(32):
        event = 'GO' if place == 0 else 'L%d' % place
        yield 'state R%d or { default -> A;' % place
        yield 'state A { outer %s { send L%d; } -> B; } state B { exit { send L%d; } outer %s -> A; } }' % (
            event, place + 1, place + 1, event)
    yield '}'


def storm():
    """An AND of 340 regions, each of which sends an event to all at GO, and another one at that event: GO uses all steps."""
    yield 'chart C and {'
    yield 'event input GO;'
    yield 'event local L;'
    yield 'event local M;'
    for place in range(340):
        states = ['state %s { outer GO { send L; } -> %s; outer L { send M; } -> %s; }' % (name, other, other)
                  for name, other in ('AB', 'BA')]
        yield 'state R%d or { default -> A; %s }' % (place, ' '.join(states))
    yield '}'


def statements():
    """73 blocks of 256 statements, every second one of them a send."""
    yield 'chart C or {'
    yield 'event input GO;'
    yield 'event local L;'
    yield 'local n : uint32 wrap;'
    yield 'default -> S0;'
    block = 'n = n + 1; send L; ' * 128
    for place in range(24):
        yield 'state S%d { entry { %s} during { %s} exit { %s} outer GO -> S%d; }' % (
            place, block, block, block, (place + 1) % 24)
    yield 'state S24 { entry { %s} }' % block
    yield '}'


def operators():
    """Assignments with 64 operators each, as many as there is room for in a text."""
    yield 'chart C or {'
    yield 'event input GO;'
    yield 'local n : int8;'
    yield 'default -> s0;'
    statement = 'n=%s;' % '+'.join(['n'] * 65)
    for state in range(30):
        yield 'state s%d { entry { %s } outer GO -> s%d; }' % (state, statement * 256, (state + 1) % 30)
    yield '}'


def names():
    """1,024 events and 1,024 data, and as many states and transitions as there is room for; all names have 63 bytes."""
    yield 'chart %s or {' % long_name('C', 0)
    yield 'event input GO;'
    yield from ('event input %s;' % long_name('e', place) for place in range(1023))
    yield from ('local %s : int32;' % long_name('d', place) for place in range(1024))
    yield 'default -> %s;' % long_name('s', 0)
    for place in range(1023):
        others = ['outer %s [%s > 0] -> %s;' % tuple(long_name(first, (place * 5 + more * 3) % 1023) for first in 'eds')
                  for more in range(3)]
        yield 'state %s { %s }' % (long_name('s', place), ' '.join(others))
    yield '}'


def whole():
    """A text of 1,048,575 bytes with 1,000 states, and transitions with guards and both actions."""
    yield 'chart C or {'
    yield 'event input GO;'
    yield from ('event local e%d;' % place for place in range(200))
    yield from ('local d%d : sfix32_En8 wrap = 1.25;' % place for place in range(200))
    yield 'default -> S0;'
    for state in range(1000):
        yield 'state S%d {' % state
        for more in range(4):
            d, e, to = (state + more) % 200, (state * 7 + more) % 200, (state * 3 + more) % 1000
            condition = 'd%d = d%d * 0.5 + d%d;' % (d, d, e)
            yield ('outer e%d [d%d * d%d + 1.5 > d%d && !(d%d == 0) || in(S%d)] { %s } / { send e%d; } -> S%d;'
                   % (e, d, e, d, e, to, condition, (e + 1) % 200, to))
        yield 'outer GO -> S%d;' % ((state + 1) % 1000)
        yield '}'
    yield '}'


KINDS = {each.__name__: each for each in (leaves, regions, wide, nest, tree, pairs, chain, events, cycles, mesh, sends, storm,
                                          statements, operators, names, whole)}


def text_of(kind):
    text = '\n'.join(KINDS[kind]()) + '\n'
    if kind == 'whole':
        text += ' ' * (BYTES - 1 - len(text))
    return text


def measures(name):
    """The bytes of a code, its height and its work."""
    with open(name, 'rb') as file:
        text = file.read()
    _, height, work = code_text.read_code(text)
    return ['{:,}'.format(each) for each in (len(text), height, work)]


def row(program, kind, folder):
    """A row of the table, with the status of each command that doesn't end with 0."""
    write(folder, 'chart', text_of(kind))
    checked = ended([program, 'check', 'chart'], cwd=folder)
    columns = ['`%s`' % kind, *('{:,}'.format(int(each)) for each in re.findall('[0-9]+', checked.out)[:4])]
    for words, output in ((['compile', 'chart'], 'code'), (['exec', 'code', 'events'], 'trace'),
                          (['rules', 'chart', 'events'], 'told'), (['upgrade', 'code'], 'upgraded')):
        used = measure([program, *words], folder, output)
        if words[0] == 'compile':
            with multiprocessing.Pool(1) as pool:                   # so that this process stays small
                columns += pool.apply(measures, (os.path.join(folder, output),))
        columns.append(used_text(used))
    used = measure([program, 'shrink', 'code'], folder, 'smaller')
    columns += ['{:,}'.format(os.path.getsize(os.path.join(folder, 'smaller'))), used_text(used)]
    measure([program, 'exec', 'smaller', 'events'], folder, 'smaller_trace')
    used = measure([program, 'bounds', 'chart'], folder, 'bounds')
    with open(os.path.join(folder, 'bounds'), encoding='ascii') as file:
        columns += [file.read().strip(), used_text(used)]
    for one, other in (('trace', 'told'), ('trace', 'smaller_trace'), ('code', 'upgraded')):
        if not filecmp.cmp(os.path.join(folder, one), os.path.join(folder, other), shallow=False):
            columns.append('`%s` and `%s` differ' % (one, other))
    return '| %s |' % ' | '.join(columns)


def main(word):
    if word in KINDS:
        sys.stdout.write(text_of(word))
        return
    if '/' not in word:
        sys.exit(__doc__)
    program = os.path.abspath(word)
    with tempfile.TemporaryDirectory() as folder:
        write(folder, 'events', EVENTS)
        for kind in KINDS:
            print(row(program, kind, folder), flush=True)


if __name__ == '__main__':
    if len(sys.argv) != 2:
        sys.exit(__doc__)
    main(sys.argv[1])
