#!/usr/bin/env python3
"""Times `flowc` on inputs of 1/4, 1/2 and 1 MiB and prints for each the seconds from the beginning to the end of the run, and its
peak memory.

    bench/run.py BIN        BIN is a built program, as crates/flowc/out/flowc after `rt run` there

It makes its inputs in a temporary folder, and is no test: how fast a program is has no limit."""
import os
import sys
import tempfile

import charts
from measuring import MIB, measure, write


def chart(size):
    """A chart of that many bytes: 64 events, 64 states, 1,024 transitions with names of 60 bytes, and blanks."""
    events = ['E%02d%s' % (i, 'e' * 57) for i in range(64)]
    states = ['S%02d%s' % (i, 's' * 57) for i in range(64)]
    lines = ['chart Bench or {'] + ['event input %s;' % e for e in events] + ['default -> %s;' % states[0]]
    for i, state in enumerate(states):
        lines.append('state %s {' % state)
        lines += ['outer %s -> %s;' % (events[(i + 3 * k) % 64], states[(i + k + 1) % 64]) for k in range(16)]
        lines.append('}')
    text = '\n'.join(lines + ['}'])
    return text + ' ' * (size - len(text)), events


def event_file(size, events):
    """That many bytes of event lines: `tick` and each event in turn."""
    line = ''.join('%s\ntick\n' % e for e in events)
    text = line * (size // len(line) + 1)
    return text[:text.rindex('\n', 0, size) + 1]


def short_events(size):
    """That many bytes of the shortest lines that are events."""
    return 'tick\n' * (size // 5)


def print_row(words, what, folder, output=os.devnull):
    """A line for a command."""
    used = measure(words, folder, output)
    print('%-47s %6.3f s  %5.1f MiB  status %d' % (what, used.wall, used.peak, used.status))


def print_rows(program, size, folder):
    """The lines for inputs of that size."""
    text, events = chart(size)
    for name, content in (('chart', text), ('events', event_file(size, events)), ('ticks', short_events(size))):
        write(folder, name, content)
    kib = size // 1024
    for kind, make in charts.KINDS.items():
        write(folder, kind, make(size))
        print_row([program, 'fmt', kind], 'fmt,     %4d KiB of %s' % (kib, kind), folder)
    for second in ('events', 'ticks'):
        what = 'rules,   %4d KiB of chart, %4d KiB of %s' % (kib, kib, second)
        print_row([program, 'rules', 'chart', second], what, folder)
    print_row([program, 'compile', 'chart'], 'compile, %4d KiB of chart' % kib, folder, 'code')
    length = os.path.getsize(os.path.join(folder, 'code'))
    for second in ('events', 'ticks'):
        what = 'exec,    %4d KiB of code,  %4d KiB of %s' % (length // 1024, kib, second)
        print_row([program, 'exec', 'code', second], what, folder)


def main(program):
    for size in (MIB // 4, MIB // 2, MIB):
        with tempfile.TemporaryDirectory() as folder:
            print_rows(program, size, folder)


if __name__ == '__main__':
    if len(sys.argv) != 2:
        sys.exit(__doc__)
    main(os.path.abspath(sys.argv[1]))
