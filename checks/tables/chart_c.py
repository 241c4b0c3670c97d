#!/usr/bin/env python3
"""Compiles and runs the C that a built `chart_to_c` writes of charts, and compares the traces.

    python3 checks/tables/chart_c.py --against CHART_TO_C [CHART ..] [--generated N ..]
    python3 checks/tables/chart_c.py --table CHART

Of each chart the header and the source are made, and a table in C, which ties them to the driver in the folder c_driver. All of it
is compiled by `cc` as C99, where each warning is an error, and run over the event file that stands beside the chart, as
`door.events` stands beside `door.chart`. The trace must be the one that stands there too, as `door.trace`, and the message and the
status those of `flowc rules`. With `--generated` the generated cases with these numbers are made by generated_cases.py, and run by
chart_rules.py for the trace, over their first 1,000 events. With `--table` the table of a chart is written.

The header must say that the source needs 128 bits just where it has a type of that size. Where it says that functions may call
themselves, the sources begin by defining the name that tells that they may.

The program ends with status 1 where anything differs, where a compiler has a warning, and where there is no chart.

The driver shows of the struct what the page docs/C.md offers to a user: the fields of data, the events that were emitted, the tests
of active states, and the fault. The struct has no byte 0 before the start."""
import os
import re
import sys
import tempfile
from concurrent.futures import ThreadPoolExecutor

import beside                                # noqa: F401, which finds the other folders of checks
import chart_rules as rules
import generated_cases
from chart_check import check_chart
from programs import Ended, differences, ended, parser, status_text

FOLDER = os.path.join(os.path.dirname(os.path.abspath(__file__)), 'c_driver')
WARNINGS = '-std=c99 -pedantic -Wall -Wextra -Wconversion -Wsign-conversion -Werror'.split()
GENERATED_EVENTS = 1000
LONGEST = 600               # seconds for one command
LONGEST_PATH = 200          # characters of a path in a name of C


class Failed(Exception):
    """A program or a compiler didn't do what it should; the text says what."""


# ---- the table of a chart

def state_name(state):
    """The name of a state in C, which stands for its path: its number where that would be too long."""
    label = state.path().replace('_', '__').replace('/', '_')
    return label if len(label) <= LONGEST_PATH else str(number_of(state))


def number_of(state):
    """The number of a state: how many stand before it in the chart."""
    root = state
    while root.parent:
        root = root.parent
    left, number = [root], 0
    while left[0] is not state:
        left = left[0].children + left[1:]
        number += 1
    return number


def is_taken(name):
    """Whether more stands before a chart's name in C: with it a name of the library could arise, or that of a field."""
    return bool(re.match('''(?:va|LC|SIG|FE|FP|in|out|loc)$|flow_|(?:is|to|str|mem|wcs)[a-z]|E[0-9A-Z]|(?:PRI|SCN)[a-zX]
        |(?:SIG|LC_|SIG_|FE_|FP_)[A-Z]|int|uint|INT|UINT''', name, re.X))


def c_name(chart):
    """The name of a chart in C, with which each name at file scope begins."""
    name = chart.root.name
    return ('flow__' if is_taken(name) else '') + name.replace('_', '__')


def field_of(datum):
    return '%s_%s' % ({'input': 'in', 'output': 'out', 'local': 'loc'}[datum.kind], datum.name)


def datum_row(datum):
    """A datum in the table."""
    scale = datum.scale
    bits = scale and next(each for each in (8, 16, 32, 64) if scale.width <= each)
    type_ = 'FLAG' if scale is None else '%s_%d' % ('SIGNED' if scale.sign == 's' else 'UNSIGNED', bits)
    width, fraction = (0, 0) if scale is None else (scale.width, scale.fraction)
    return '    {"%s", &chart.%s, %s, %d, %d, %s},' % (
        datum.name, field_of(datum), type_, width, fraction, 'true' if datum.kind == 'input' else 'false')


def event_rows(chart):
    """The events in the table, but the local ones."""
    name = c_name(chart)
    for event in chart.events:
        if event.kind != 'local':
            yield '    {"%s", %s_E_%s, %s},' % (event.name, name, event.name, 'true' if event.kind == 'input' else 'false')
    yield '    {"tick", %s_TICK, true},' % name


def table_lines(chart):
    """The lines of the table of a checked chart."""
    name = c_name(chart)
    yield '#include "%s.h"' % chart.root.name
    yield '#include "driver.h"'
    yield '#include <stddef.h>'
    yield '#include <string.h>'
    yield 'static %s_chart chart;' % name
    yield 'const struct datum chart_data[] = {'
    yield from map(datum_row, chart.data)
    yield '    {NULL, NULL, FLAG, 0, 0, false},'
    yield '};'
    yield 'const struct event chart_events[] = {'
    yield from event_rows(chart)
    yield '    {NULL, 0, false},'
    yield '};'
    yield 'bool chart_start(void)'
    yield '{'
    yield '    memset(&chart, 0xa5, sizeof chart);'
    yield '    return %s_init(&chart) && %s_start(&chart);' % (name, name)
    yield '}'
    yield 'bool chart_react(uint32_t event) { return %s_react(&chart, event); }' % name
    yield 'uint32_t output_count(void) { return chart.outs; }'
    yield 'uint32_t output_at(uint32_t place) { return chart.out[place]; }'
    yield 'uint32_t fault_datum(void) { return chart.fault_datum; }'
    yield 'const char *fault_word(void)'
    yield '{'
    yield '    switch (chart.fault) {'
    for fault in ('depth', 'steps', 'overflow', 'zero'):
        yield '    case %s_FAULT_%s: return "%s";' % (name, fault.upper(), fault)
    yield '    default: return "no fault";'
    yield '    }'
    yield '}'
    yield 'void show_active(void (*show)(const char *path))'
    yield '{'
    yield '    (void)show;'
    for state in chart.states:
        if state.parent:
            yield '    if (%s_in_%s(&chart)) { show("%s"); }' % (name, state_name(state), state.path())
    yield '}'


def table_of(text):
    """The table of a chart text, and the chart."""
    chart = check_chart(text)
    return ''.join(line + '\n' for line in table_lines(chart)), chart


# ---- making and compiling

def output_of(words, folder):
    """What a program writes, which must end with status 0 and write nothing on standard error."""
    answer = ended(words, LONGEST, cwd=folder)
    if answer.status != 0 or answer.error:
        raise Failed('%s: %s\n%s' % (' '.join(words), status_text(answer), answer.error[:2000]))
    return answer.out


def write(folder, name, content):
    """Writes a file, a byte for each character, and gives its path."""
    path = os.path.join(folder, name)
    with open(path, 'wb') as file:
        file.write(content.encode('latin-1'))
    return path


def make_c(program, text, folder, options=()):
    """Writes the header, the source and the table of a chart to a folder, and gives the names of the two sources."""
    write(folder, 'chart', text)
    table, chart = table_of(text)
    name = chart.root.name
    header, source = (output_of([program, word, *options, 'chart'], folder) for word in ('header', 'source'))
    if ('__int128' in header) != ('__int128' in source):
        raise Failed('the header of %s says otherwise than its source whether 128 bits are needed' % name)
    told = c_name(chart) + '_MAY_RECURSE'
    may_recurse = '#define %s\n' % told if told in header else ''
    write(folder, '%s.h' % name, header)
    write(folder, '%s.c' % name, may_recurse + source)
    write(folder, 'table_of_%s.c' % name, may_recurse + table)
    return ['%s.c' % name, 'table_of_%s.c' % name]


def compile_driver(folder, compiler='cc', flags=('-O0',)):
    """The compiled driver, which serves all charts."""
    path = os.path.join(folder, 'driver.o')
    output_of([compiler, *WARNINGS, *flags, '-c', os.path.join(FOLDER, 'driver.c'), '-o', path], folder)
    return path


def compile_c(sources, driver, folder, compiler='cc', flags=('-O0',)):
    """The program of a chart with the driver."""
    path = os.path.join(folder, 'program')
    output_of([compiler, *WARNINGS, *flags, '-I', FOLDER, *sources, driver, '-o', path], folder)
    return path


# ---- comparing

def expected_of(trace):
    """What `flowc rules` writes where the trace is this one and the event file has no fault."""
    index, *_, result = trace.split('\n')[-2].split(' ', 5)
    return Ended(trace, '', 0) if result == 'ok' else Ended(trace, 'run %s: %s\n' % (index, result), 3)


class Kept:
    """A chart with an event file and a trace beside it."""

    def __init__(self, path):
        self.name, self.stem = path, path.removesuffix('.chart')

    def read(self, kind):
        with open('%s.%s' % (self.stem, kind), 'rb') as file:
            return file.read().decode('latin-1')

    def texts(self):
        """The chart text, the event file, and what is expected."""
        return self.read('chart'), self.read('events'), expected_of(self.read('trace'))


class Generated:
    """A generated case."""

    def __init__(self, number):
        self.name, self.number = 'generated case %d' % number, number

    def texts(self):
        chart, events = generated_cases.texts_of(self.number)
        events = b''.join(events.splitlines(True)[:GENERATED_EVENTS])
        chart = chart.decode('latin-1')
        return chart, events.decode('latin-1'), rules.run_rules(chart, events)


def compared(case, program, driver):
    """Lines that tell what is wrong of a case."""
    with tempfile.TemporaryDirectory() as folder:
        try:
            text, events, expected = case.texts()
            write(folder, 'events', events)
            compiled = compile_c(make_c(program, text, folder), driver, folder)
        except (Failed, OSError) as failed:
            return ['%s: %s' % (case.name, failed)]
        return differences(case.name, expected, ended([compiled, 'events'], LONGEST, cwd=folder))


def main(words):
    """Does what the words ask for, and gives the status."""
    reader = parser(__doc__)
    reader.add_argument('--against', metavar='CHART_TO_C')
    reader.add_argument('--generated', metavar='N', nargs='+', type=int, default=[])
    reader.add_argument('--table', metavar='CHART')
    reader.add_argument('charts', metavar='CHART', nargs='*')
    options = reader.parse_args(words)
    if options.table:
        with open(options.table, 'rb') as file:
            sys.stdout.write(table_of(file.read().decode('latin-1'))[0])
        return 0
    cases = [*map(Generated, options.generated), *map(Kept, options.charts)]
    if not options.against or not cases:
        print('a built chart_to_c and at least one chart are wanted')
        return 1
    program = os.path.abspath(options.against)
    with tempfile.TemporaryDirectory() as folder, ThreadPoolExecutor(os.cpu_count()) as several:
        driver = compile_driver(folder)
        wrong = [line for lines in several.map(lambda case: compared(case, program, driver), cases) for line in lines]
    print(''.join(line + '\n' for line in wrong), end='')
    print('%d charts%s' % (len(cases), '' if wrong else ', with the traces that are expected'))
    return 1 if wrong else 0


if __name__ == '__main__':
    sys.exit(rules.with_deep_calls(lambda: main(sys.argv[1:])))
