#!/usr/bin/env python3
"""Measures the C of charts at the limits of the language, and compares its traces with the rules.

    bench/large_chart_c.py CHART_TO_C [KIND ..]     CHART_TO_C is a built program, and KIND one of large_charts.py

It prints a row for each chart: the bytes of the source, and the seconds of processor time and the peak memory of `chart_to_c
source`, of `gcc -O1` and of `clang -O1`, where they are there, and whether the program that each of them makes writes the trace of
chart_rules.py over three events. It ends with status 1 where one doesn't. How fast a program is has no limit."""
import os
import shutil
import sys
import tempfile

from large_charts import EVENTS, KINDS, text_of
from measuring import measure, used_text, write                 # which finds the modules of checks too

import chart_c
import chart_rules as rules
from programs import ended

FLAGS = ['-std=c99', '-O1', '-I', chart_c.FOLDER, '-c']


def ran(compiler, sources, folder, expected):
    """What compiling the source takes, and whether the program writes the trace."""
    used = measure([compiler, *FLAGS, sources[0], '-o', 'chart.o'], folder)
    if used.status != 0:
        return used_text(used), 'not compiled'
    others = [sources[1], os.path.join(chart_c.FOLDER, 'driver.c')]
    chart_c.output_of([compiler, '-std=c99', '-I', chart_c.FOLDER, *others, 'chart.o', '-o', 'program'], folder)
    answer = ended(['./program', 'events'], cwd=folder)
    return used_text(used), 'yes' if answer == expected else 'NO'


def row(program, kind, folder):
    """A row of the table, and whether all is as it should be."""
    text = text_of(kind)
    expected = rules.run_rules(text, EVENTS.encode('ascii'))
    sources = chart_c.make_c(program, text, folder)
    used = measure([program, 'source', 'chart'], folder)
    columns = ['`%s`' % kind, '{:,}'.format(os.path.getsize(os.path.join(folder, sources[0]))), used_text(used)]
    for compiler in ('gcc', 'clang'):
        columns += ran(compiler, sources, folder, expected) if shutil.which(compiler) else ['-', '-']
    return '| %s |' % ' | '.join(columns), not {'NO', 'not compiled'} & set(columns)


def main(program, *kinds):
    """Measures these charts, or all, and gives the status."""
    is_right = True
    for kind in kinds or KINDS:
        with tempfile.TemporaryDirectory() as folder:
            write(folder, 'events', EVENTS)
            line, is_as_it_should_be = row(os.path.abspath(program), kind, folder)
            print(line, flush=True)
            is_right = is_right and is_as_it_should_be
    return 0 if is_right else 1


if __name__ == '__main__':
    if len(sys.argv) < 2 or not set(sys.argv[2:]) <= set(KINDS):
        sys.exit(__doc__)
    sys.exit(rules.with_deep_calls(lambda: main(*sys.argv[1:])))
