#!/usr/bin/env python3
"""Measures `check` on large charts and `rules` on the generated case 0, and prints seconds from the beginning to the end of each
run, its peak memory, and its machine instructions.

    bench/checked.py BIN    BIN is a built program, as crates/flowc/out/flowc after `rt run` there

Instructions are counted by valgrind's tool callgrind; where it isn't installed, their column has a `-`. It makes its files
in a temporary folder, and is no test: how fast a program is has no limit."""
import os
import sys
import tempfile

import generated
from measuring import MIB, instructions, long_name, measure, shown, write

CHAINS, LENGTH, STATES = 146, 28, 1022


def filled(lines):
    """The lines as a text of 1 MiB, the rest of it a comment."""
    text = '\n'.join(lines) + '\n'
    return text + '//' + 'x' * (MIB - len(text) - 2)


def pairs():
    """1,023 states, 4,088 junctions in chains, 8,177 transitions and 32,705 pairs: each state leads to a chain."""
    yield from ('chart C or {', 'event input GO;', 'default -> %s;' % long_name('s', 0))
    for chain in range(CHAINS):
        for place in range(LENGTH):
            junction = chain * LENGTH + place
            last = place + 1 == LENGTH
            to = long_name('s', chain) if last else '@' + long_name('j', junction + 1)
            yield 'junction %s { -> %s; }' % (long_name('j', junction), to)
    for state in range(STATES):
        chain, others = long_name('j', state % CHAINS * LENGTH), 'outer GO -> %s; ' % long_name('s', 0)
        yield 'state %s { outer GO -> @%s; %s}' % (long_name('s', state), chain, others * 3)
    yield '}'


def names():
    """1,024 events, 1,024 data, and 5,760 assignments from datum to datum, in states that stand 16 deep."""
    yield 'chart C or {'
    yield from ('event input %s;' % long_name('e', i) for i in range(1024))
    yield from ('local %s : int32;' % long_name('d', i) for i in range(1024))
    for depth in range(16):
        yield 'default -> %s; state %s {' % (long_name('s', depth), long_name('s', depth))
        for block in ('entry', 'during'):
            yield block + ' {'
            yield from ('%s = %s;' % (long_name('d', i * 5 % 1024), long_name('d', i * 7 % 1024)) for i in range(180))
            yield '}'
    yield '} ' * 16 + '}'


def operators():
    """2,000 assignments with 60 operators each."""
    yield 'chart C or { local n : int8; local m : int8; default -> s0;'
    for state in range(10):
        yield 'state s%d {' % state
        yield 'during {'
        yield from ('n = %s;' % ' + '.join(['m'] * 61) for _ in range(200))
        yield '} }'
    yield '}'


KINDS = {'pairs': pairs, 'names': names, 'operators': operators}


def print_checks(program, folder):
    """A line for `check` of each chart."""
    for kind, lines in KINDS.items():
        write(folder, kind, filled(lines()))
        words = [program, 'check', kind]
        used = measure(words, folder)
        print('check, 1 MiB of %-10s %6.3f s  %5.1f MiB  %12s instructions  status %d'
              % (kind, used.wall, used.peak, shown(instructions(words, folder)), used.status))


def print_rules(program, folder):
    """A line for `rules` of the generated case 0."""
    generated.main(['0', folder])
    used = measure([program, 'rules', '0.chart', '0.events'], folder)
    with open(os.path.join(folder, '0.events'), encoding='ascii') as file:
        lines = file.readlines()
    counts = []
    for events in (1000, 2000):
        write(folder, 'front', ''.join(lines[:events]))
        counts.append(instructions([program, 'rules', '0.chart', 'front'], folder))
    event = None if None in counts else (counts[1] - counts[0]) / 1000
    print('rules, %d events of case 0  %6.3f s  %5.1f MiB  %12s instructions an event  status %d'
          % (generated.EVENTS, used.wall, used.peak, shown(event), used.status))


def main(program):
    with tempfile.TemporaryDirectory() as folder:
        print_checks(program, folder)
        print_rules(program, folder)


if __name__ == '__main__':
    if len(sys.argv) != 2:
        sys.exit(__doc__)
    main(os.path.abspath(sys.argv[1]))
