#!/usr/bin/env python3
"""Measures what the C of charts takes of memory: the struct, the object code, and the stack.

    python3 bench/c_memory.py CHART_TO_C [--run] [CHART ..]     CHART_TO_C is a built program; without charts, all of examples

It prints a row for each chart, in the form of the table of docs/C.md: the bounds, the bytes of the struct, of the object code that
`gcc -O2` makes (`text`, as `size` tells it), and of the stack, and the bytes of the C. All is of the machine on which it runs.

The stack is the greatest that a start or an event can take, its own return address included: gcc tells what each function takes
and which functions it calls (-fcallgraph-info=su), and the greatest sum along calls is taken. Where functions call each other in a
circle there is no such sum: how often they do is limited by the depth and the steps of an event alone. Nor is there one where gcc
calls a function of its library. For these charts, and with --run for all, the chart is run over its event file on a stack that was
painted before (painted_stack.c), and the bytes that this run used are told, with the word `run`. More than the sum is an error."""
import glob
import os
import platform
import re
import subprocess
import sys
import tempfile

from measuring import HERE, write           # which finds the modules of checks too

import chart_c
import chart_rules as rules

EXAMPLES = os.path.join(HERE, os.pardir, 'examples', '*', '*.chart')
FLAGS = ['-O2']
# gcc doesn't count what a function that calls none keeps below its frame, in the red zone of x86-64: here there is none.
COUNTED = [*FLAGS, *(['-mno-red-zone'] if platform.machine() == 'x86_64' else []), '-fcallgraph-info=su']
CALLS = 'start', 'react'
ROOM = 1 << 24              # the bytes of the stack of painted_stack.c


class CallGraph:
    """The functions of a source, by the names that gcc gives them: what each takes of the stack, and which it calls."""

    def __init__(self, text):
        self.bytes, self.calls = {}, {}
        for name, label in re.findall(r'^node: { title: "(.*?)" label: "(.*?)"', text, re.MULTILINE):
            taken = re.search(r'\\n([0-9]+) bytes \(static\)', label)
            if taken is None:
                raise chart_c.Failed('no bytes are known of %s' % label)
            self.bytes[name], self.calls[name] = int(taken[1]), set()
        for name, called in re.findall(r'^edge: { sourcename: "(.*?)" targetname: "(.*?)"', text, re.MULTILINE):
            self.calls[name].add(called)

    def greatest(self, names):
        """The greatest number of bytes that a call of one of these functions takes, or None where calls lead in a circle."""
        taken = {}

        def visit(name):
            if name not in taken:
                taken[name] = None              # while it is open
                below = [visit(each) for each in self.calls[name]]
                taken[name] = None if None in below else self.bytes[name] + max(below, default=0)
            return taken[name]

        sums = [visit(name) for name in names]
        return None if None in sums else max(sums)


def read(folder, name):
    with open(os.path.join(folder, name), encoding='latin-1') as file:
        return file.read()


def struct_size(chart, folder):
    """The bytes of the struct, as the size of an array that the compiler lays out."""
    text = '#define %s_MAY_RECURSE\n#include "%s.h"\nchar struct_size[sizeof (%s_chart)];\n' % (chart, chart, chart)
    write(folder, 'struct.c', text)
    chart_c.output_of(['gcc', '-c', 'struct.c'], folder)
    return int(re.search('([0-9a-f]+) . struct_size', chart_c.output_of(['nm', '-S', 'struct.o'], folder))[1], 16)


def call_stack(chart, folder):
    """The greatest number of bytes of the stack that a call of the chart can take, or None where there is no such number."""
    if chart_c.output_of(['nm', '-u', chart + '.o'], folder):
        return None
    return CallGraph(read(folder, chart + '.ci')).greatest(['%s_%s' % (chart, call) for call in CALLS])


def run_stack(kept, chart, sources, folder):
    """The bytes of the stack of a run over the event file of the chart, whose trace must be the one that is kept."""
    _, events, expected = kept.texts()
    write(folder, 'events', events)
    files = [*sources, os.path.join(HERE, 'painted_stack.c'), os.path.join(chart_c.FOLDER, 'driver.c')]
    wrapped = ['-Wl,--wrap=%s_%s' % (chart, call) for call in CALLS]
    flags = ['-std=gnu99', *FLAGS, '-DCHART=' + chart, '-I', chart_c.FOLDER]
    chart_c.output_of(['gcc', *flags, *files, *wrapped, '-o', 'program'], folder)
    answer = subprocess.run(['./program', 'events'], cwd=folder, capture_output=True, timeout=chart_c.LONGEST)
    told = re.search(r'^stack ([0-9]+)$', answer.stderr.decode('latin-1'), re.MULTILINE)
    if told is None or answer.stdout.decode('latin-1') != expected.out or int(told[1]) > ROOM // 2:
        raise chart_c.Failed('%s: the run on the painted stack went wrong' % kept.name)
    return int(told[1])


def row(program, path, is_run):
    """A row of the table."""
    kept = chart_c.Kept(path)
    with tempfile.TemporaryDirectory() as folder:
        sources = chart_c.make_c(program, kept.read('chart'), folder)
        chart = sources[0].removesuffix('.c')
        chart_c.output_of(['gcc', '-std=c99', *COUNTED, '-c', sources[0]], folder)
        chart_c.output_of(['gcc', '-std=c99', *FLAGS, '-c', sources[0]], folder)
        header = read(folder, chart + '.h')
        bounds = [re.search('%s_%s = ([0-9]+)' % (chart, word), header)[1] for word in ('DEPTH', 'STEPS')]
        text = chart_c.output_of(['size', chart + '.o'], folder).split('\n')[1].split()[0]
        greatest = call_stack(chart, folder)
        stack = [] if greatest is None else ['{:,}'.format(greatest)]
        if is_run or greatest is None:
            used = run_stack(kept, chart, sources, folder)
            if greatest is not None and used > greatest:
                raise chart_c.Failed('%s: a run uses %d bytes of the stack, more than %d' % (kept.name, used, greatest))
            stack.append('{:,} run'.format(used))
        columns = [os.path.basename(kept.stem), 'depth %s, steps %s' % tuple(bounds), '{:,}'.format(struct_size(chart, folder)),
                   '{:,}'.format(int(text)), ', '.join(stack), '{:,}'.format(os.path.getsize(os.path.join(folder, sources[0])))]
    return '| %s |' % ' | '.join(columns)


def main(program, *words):
    """Prints the rows of these charts, or of all examples."""
    charts = [word for word in words if word != '--run'] or sorted(glob.glob(EXAMPLES))
    for path in charts:
        print(row(os.path.abspath(program), path, '--run' in words), flush=True)


if __name__ == '__main__':
    if len(sys.argv) < 2 or sys.argv[1].startswith('-'):
        sys.exit(__doc__)
    sys.exit(rules.with_deep_calls(lambda: main(*sys.argv[1:])))
