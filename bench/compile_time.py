#!/usr/bin/env python3
"""Measures how long it takes to make the C of charts of some 300 states, and to compile it.

    python3 bench/compile_time.py CHART_TO_C [KIND ..]      CHART_TO_C is a built program

KIND is one of these, and all where nothing is said:

    generated       the generated case 5: 5 regions of 60 states, each with an entry action and three transitions, of which one
                    sends an event to all (checks/reference/generated_cases.py)
    fleet           13 copies of examples/spacecraft side by side: regions in regions, states in five levels, history, guards
                    that ask for states, fixed point, broadcasts and a directed send. Each copy has its own events and data

It prints a row for each chart: the states, the bytes of the C, and the seconds of processor time and the peak memory of
`chart_to_c source`, of `gcc -O2` and of `clang -O2`, where they are there. How fast a program is has no limit."""
import os
import re
import shutil
import sys
import tempfile

import generated
from measuring import HERE, measure_right, used_text, write     # which finds the modules of checks too

import chart_c
import chart_rules as rules
from chart_check import check_chart

CASE, COPIES = 5, 13
SPACECRAFT = os.path.join(HERE, os.pardir, 'examples', 'spacecraft', 'spacecraft.chart')
DECLARATION = re.compile(r'(event|input|local|output) (?:(?:input|local|output) )?(\w+)')


def generated_chart():
    return generated.texts_of(CASE)[0].decode('ascii')


def fleet_chart():
    """The copies, in each of which the names of events and data have the number of the copy."""
    with open(SPACECRAFT, encoding='ascii') as file:
        text = re.sub('//.*', '', file.read())
    body = text[text.index('{') + 1:text.rindex('}')]
    declared = re.findall(r'\b(?:event|input|local|output) [^;]*;', body)
    names = {DECLARATION.match(each)[2] for each in declared}
    named = re.compile(r'\b(%s)\b' % '|'.join(sorted(names)))
    states = body
    for each in declared:
        states = states.replace(each, '')
    lines = ['chart Fleet and {']
    for copy in range(COPIES):
        lines += [named.sub(r'\1_%d' % copy, each) for each in declared]
    for copy in range(COPIES):
        lines += ['state Craft%d and {' % copy, named.sub(r'\1_%d' % copy, states), '}']
    return '\n'.join(lines + ['}', ''])


CHARTS = {'generated': generated_chart, 'fleet': fleet_chart}


def row(program, kind, folder):
    """A row of the table."""
    text = CHARTS[kind]()
    chart = check_chart(text)
    write(folder, 'chart', text)
    for word, name in (('header', chart.root.name + '.h'), ('source', 'chart.c')):
        used = measure_right([program, word, 'chart'], folder, name)
    size = os.path.getsize(os.path.join(folder, 'chart.c'))
    columns = ['`%s`' % kind, '%d' % len(chart.states), '{:,}'.format(size), used_text(used)]
    for compiler in ('gcc', 'clang'):
        command = [compiler, '-std=c99', '-O2', '-D%s_MAY_RECURSE' % chart_c.c_name(chart), '-c', 'chart.c', '-o', 'chart.o']
        columns.append(used_text(measure_right(command, folder)) if shutil.which(compiler) else '-')
    return '| %s |' % ' | '.join(columns)


def main(program, *kinds):
    """Prints the rows of these charts, or of all."""
    for kind in kinds or CHARTS:
        with tempfile.TemporaryDirectory() as folder:
            print(row(os.path.abspath(program), kind, folder), flush=True)


if __name__ == '__main__':
    if len(sys.argv) < 2 or not set(sys.argv[2:]) <= set(CHARTS):
        sys.exit(__doc__)
    sys.exit(rules.with_deep_calls(lambda: main(*sys.argv[1:])))
