#!/usr/bin/env python3
"""Writes a net of 16 charts with 64 routes to a folder, or measures what a step of it takes.

    bench/nets.py FOLDER KIND       KIND is a name of the table in README.md; writes net, node.chart and schedule
    bench/nets.py BIN               BIN is the path of a built program, with a slash and no folder

The second form prints the rows of that table. A row has the steps of the schedule, the machine instructions of a step of `net`
and those of an event of `exec`, by callgrind, and the seconds of processor time and the peak memory of `net`. Instructions are
those of a schedule less those of half of it, so that what is done once isn't counted. `exec` runs each of the 16 charts alone over
the events that it took in the net. Where the trace of `exec` isn't that of the chart in the net, the row says so. Without
callgrind, a tool of valgrind, the columns of instructions have a `-`. It makes its files in a temporary folder, and is no test:
how fast a program is has no limit."""
import os
import sys
import tempfile

from measuring import instructions, measure_right, shown, used_text, write

CHARTS, OF_EACH, CAP = 16, 4, 8
ROUNDS = 400
STATE = '''state %s {
outer GO { v = v + 1; emit o0; emit o1; emit o2; emit o3; } -> %s;
outer IN { v = v + x; } -> %s;
outer TURN -> %s;
}'''
NODE = ['chart Node or {', 'event input GO; event input IN; event input TURN;',
        'event output o0; event output o1; event output o2; event output o3;',
        'input x : int16; output v : int16 wrap;', 'default -> A;', STATE % ('A', 'B', 'A', 'B'), STATE % ('B', 'A', 'B', 'A'), '}']


def net_lines():
    """16 charts of one file. Each sends four events, to those that stand 1, 2, 4 and 8 after it."""
    yield from ('flownet 1', 'charts %d' % CHARTS)
    yield from ('c c%d node.chart' % chart for chart in range(CHARTS))
    yield 'routes %d' % (CHARTS * OF_EACH)
    for chart in range(CHARTS):
        yield from ('r %d o%d %d IN %d v x' % (chart, at, (chart + 2 ** at) % CHARTS, CAP) for at in range(OF_EACH))
    yield 'end'


def events(rounds):
    """Each chart in turn has an event that emits nothing."""
    for place in range(rounds):
        yield 'ev c%d TURN' % (place % CHARTS)


def items(rounds):
    """Each chart in turn has an event that emits on its four routes, and then all four items are taken."""
    for place in range(rounds):
        chart = place % CHARTS
        yield 'ev c%d GO' % chart
        yield from ('take %d' % (chart * OF_EACH + at) for at in range(OF_EACH))


KINDS = {each.__name__: each for each in (events, items)}


def write_files(folder, kind, rounds):
    """Writes the files of a net, and gives how many steps its schedule has."""
    steps = list(KINDS[kind](rounds))
    for name, lines in (('node.chart', NODE), ('net', net_lines()), ('schedule', steps)):
        write(folder, name, ''.join(line + '\n' for line in lines))
    return len(steps)


def traces(folder):
    """The lines of each chart in the trace of the net, without the number of the step and the name."""
    made = [[] for _ in range(CHARTS)]
    with open(os.path.join(folder, 'trace'), encoding='ascii') as file:
        for line in file:
            _, name, rest = line.split(' ', 2)
            made[int(name[1:])].append(rest)
    return made


def event_line(line):
    """The line of an event file that gives what a line of a trace tells."""
    _, event, _, values, _, _ = line.split(' ')
    return event + (' ' + values.split(',')[0] if event == 'IN' else '') + '\n'


def counts_alone(program, folder):
    """The machine instructions of `exec` of all charts alone, and the charts whose trace is another one than in the net."""
    total, differing = 0, []
    for chart, lines in enumerate(traces(folder)):
        write(folder, 'events', ''.join(map(event_line, lines[1:])))
        measure_right([program, 'exec', 'code', 'events'], folder, 'alone')
        with open(os.path.join(folder, 'alone'), encoding='ascii') as file:
            if file.read() != ''.join(lines):
                differing.append('c%d' % chart)
        count = instructions([program, 'exec', 'code', 'events'], folder)
        total = None if None in (total, count) else total + count
    return total, differing


def row(program, kind, folder):
    """A row of the table."""
    nets, alone, differing = [], [], []
    for rounds in (ROUNDS, 2 * ROUNDS):
        steps = write_files(folder, kind, rounds)
        used = measure_right([program, 'net', 'net', 'schedule'], folder, 'trace')
        measure_right([program, 'compile', 'node.chart'], folder, 'code')
        nets.append(instructions([program, 'net', 'net', 'schedule'], folder))
        count, differ = counts_alone(program, folder)
        alone.append(count)
        differing += differ
    more = steps // 2
    columns = [None if None in each else (each[1] - each[0]) / more for each in (nets, alone)]
    cells = ['`%s`' % kind, '{:,}'.format(steps), *map(shown, columns), used_text(used)]
    return '| %s |' % ' | '.join(cells + ['the traces of %s differ' % ', '.join(differing)] * bool(differing))


def main(words):
    if len(words) == 2 and words[1] in KINDS and os.path.isdir(words[0]):
        write_files(words[0], words[1], 2 * ROUNDS)
        return
    if len(words) != 1 or '/' not in words[0] or os.path.isdir(words[0]):
        sys.exit(__doc__)
    program = os.path.abspath(words[0])
    with tempfile.TemporaryDirectory() as folder:
        for kind in KINDS:
            print(row(program, kind, folder), flush=True)


if __name__ == '__main__':
    main(sys.argv[1:])
