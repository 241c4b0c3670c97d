#!/usr/bin/env python3
"""The rows of compare.py for examples: the C that `chart_to_c` writes of a chart beside C by hand, which stands in by_hand.

    bench/example_rows.py BIN CHART_TO_C        prints these rows alone; both are built programs

Before anything is measured both programs must write the trace of `rules`, byte for byte, over the event file of the example and
over that of long_events.py. Both are compiled by `gcc -O2`. Machine instructions are counted by callgrind over the long file:
those from each call of the chart's reaction to its return, and those of the whole program, less those of a run without events.

Both have the interface of the header that `chart_to_c` writes. So both have the driver of checks/tables/c_driver, which reads the
events and writes the trace, and the table by which checks/tables/chart_c.py ties it to a chart."""
import os
import sys
import tempfile

import long_events
import measuring
from measuring import HERE, shown, write    # which finds the modules of checks too

import chart_c

BY_HAND = os.path.join(HERE, 'by_hand')
EXAMPLES = os.path.join(HERE, os.pardir, 'examples')
FLAGS = ['-O2']
PROGRAMS = 'C of the chart', 'C by hand'


def path_of(name):
    return os.path.join(EXAMPLES, name, name + '.chart')


def build(name, chart_to_c, folder):
    """Compiles the two programs of an example by gcc, and gives the name of its chart and the words that begin each command."""
    text = chart_c.Kept(path_of(name)).read('chart')
    table, checked = chart_c.table_of(text)
    chart = checked.root.name
    driver = chart_c.compile_driver(folder, 'gcc', FLAGS)
    made, by_hand = (os.path.join(folder, each) for each in ('made', 'by_hand'))
    for each in (made, by_hand):
        os.mkdir(each)
    write(by_hand, 'table.c', table)
    sources = [os.path.join(BY_HAND, chart + '.c'), 'table.c']
    return chart, [[chart_c.compile_c(chart_c.make_c(chart_to_c, text, made), driver, made, 'gcc', FLAGS)],
                   [chart_c.compile_c(sources, driver, by_hand, 'gcc', [*FLAGS, '-I', BY_HAND])]]


def write_events(name, folder):
    """Writes the event files: that of the example, the long one, and one without an event."""
    for file, text in (('events', chart_c.Kept(path_of(name)).read('events')), ('long', long_events.text_of(name)), ('none', '')):
        write(folder, file, text)


def compare_traces(name, program, commands, folder):
    """Holds the traces of the two programs against that of `rules`."""
    for file in ('events', 'long'):
        expected = chart_c.output_of([program, 'rules', path_of(name), file], folder)
        for each, words in zip(PROGRAMS, commands):
            if chart_c.output_of([*words, file], folder) != expected:
                raise chart_c.Failed('%s: the trace of the %s differs from that of rules' % (name, each))


def instructions(words, chart, folder):
    """The machine instructions of an event of the long file: those of the reaction of the chart, and those of the whole program."""
    counts = measuring.instructions_in([*words, 'long'], folder, chart + '_react')
    if counts is None:
        return None, None
    whole, react = counts
    return react / long_events.EVENTS, (whole - measuring.instructions([*words, 'none'], folder)) / long_events.EVENTS


def print_row(line, name, program, chart_to_c):
    """Builds, compares and measures the two programs of an example."""
    with tempfile.TemporaryDirectory() as folder:
        chart, commands = build(name, chart_to_c, folder)
        write_events(name, folder)
        compare_traces(name, program, commands, folder)
        counts = [instructions(words, chart, folder) for words in commands]
    columns = []
    for made, by_hand in zip(*counts):
        columns += [shown(made, '%.1f'), shown(by_hand, '%.1f'), shown(made and made / by_hand, '%.2f')]
    print(line % (name, *columns), flush=True)


def print_rows(program, chart_to_c):
    """A row for each example."""
    line = '%-28s' + ' %14s' * 6
    print()
    print(line % ('instructions an event', 'react: chart', 'by hand', 'to C by hand', 'whole: chart', 'by hand', 'to C by hand'))
    for name in long_events.CHARTS:
        print_row(line, name, program, chart_to_c)


if __name__ == '__main__':
    if len(sys.argv) != 3:
        sys.exit(__doc__)
    print_rows(*map(os.path.abspath, sys.argv[1:]))
