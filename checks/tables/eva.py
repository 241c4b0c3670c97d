#!/usr/bin/env python3
"""Lets Frama-C's Eva look for undefined behaviour in the C that a built `chart_to_c` writes of charts.

    python3 checks/tables/eva.py --against CHART_TO_C CHART .. [--declared] [--jobs J]

Of each chart header and source are made, and a program that calls them in every order that docs/C.md allows: the struct holds no
value, or any bytes at all; a start may come at each call, and comes where there was none before or the last call ended with a
fault; else each input is given any value in its range, and the event is any number of its type, or with --declared `X_TICK` or that
of an input event. After each call all tests of states are called. Eva, an abstract interpreter, follows all such runs at once, and
raises an alarm where it can't exclude that C leaves the behaviour undefined: an index out of range, an overflow, a division by
zero, a value that is read before it is stored. A conversion to a signed type that changes the value, which C leaves to the
implementation, is an alarm as well.

A chart with alarms is looked at once more with more precision, which takes some ten seconds more: Eva then tells alarms that no run
raises from others by what it knows of pairs of variables, and by the last tests on the way. A line tells for each chart with alarms
what Eva says then. The program ends with status 1 where there is an alarm, an error or a warning
of Eva, where Eva doesn't come to an end or to the functions of the chart, and where there is no chart. Eva knows no type of 128
bits: a chart whose C needs one is named and left out. It needs `frama-c`, of Debian's package frama-c-base, and takes some seconds
of a processor a chart. J charts are tried at a time, as many as there are processors where nothing is said."""
import os
import re
import sys
import tempfile
from concurrent.futures import ThreadPoolExecutor
from typing import NamedTuple

import beside                                # noqa: F401, which finds the other folders of checks
import chart_rules as rules
from chart_c import LONGEST, Failed, c_name, field_of, make_c, state_name, write
from chart_check import check_chart
from programs import ended, parser_of_charts, status_text

EVA = ['frama-c', '-machdep', 'gcc_x86_64', '-eva', '-eva-precision', '3', '-eva-no-print', '-eva-show-progress',
       '-warn-signed-downcast']
AT_FIRST = ['-eva-domains', 'sign']
# How a chart with alarms is looked at once more: with what Eva knows of pairs of variables, and apart by the last eight tests.
ONCE_MORE = ['-eva-domains', 'sign,octagon', '-eva-partition-history', '8']
NEEDS_128_BITS = '__int128'
SUMMARY = re.compile(r'\[eva:summary\].*', re.DOTALL)
# A message of Eva that tells of something: its first line, and those that are set in below it.
TOLD = re.compile(r'^\[[\w:-]+\] (?:\S+: )?(?:User )?(?:Warning|Error): .*(?:\n +\S.*)*', re.MULTILINE)
DEFINED = re.compile(r'^(?:static\s+)?\w+\s+(\w+)\([^)]*\)\n\{$', re.MULTILINE)
MAIN = '''#include "%(file)s.h"
#include "__fc_builtin.h"

static uint32_t event(void)
{
    %(event)s
}

int main(void)
{
    %(name)s_chart chart;
    bool is_set = false;
    if (Frama_C_interval(0, 1)) {
        Frama_C_make_unknown((char *)&chart, sizeof chart);
    }
    while (Frama_C_interval(0, 1)) {
        if (!is_set || Frama_C_interval(0, 1)) {
            is_set = %(name)s_init(&chart);
        }
%(inputs)s
        if (Frama_C_interval(0, 1)) {
            (void)%(name)s_start(&chart);
        } else {
            (void)%(name)s_react(&chart, event());
        }
%(tests)s
    }
    return 0;
}
'''
ANY_EVENT = 'return Frama_C_unsigned_int_interval(0u, 4294967295u);'


# ---- the program that calls a chart's C

def stored(datum):
    """A line of C that stores any value in range in an input."""
    if datum.scale is None:
        value = 'Frama_C_interval(0, 1) != 0'
    elif datum.scale.sign == 's':
        end = 2 ** (datum.scale.width - 1) - 1
        value = '(__typeof__(chart.%s))Frama_C_long_long_interval(-%dLL - 1LL, %dLL)' % (field_of(datum), end, end)
    else:
        value = '(__typeof__(chart.%s))Frama_C_unsigned_long_long_interval(0uLL, %duLL)' % (field_of(datum), 2 ** datum.scale.width - 1)
    return '            chart.%s = %s;' % (field_of(datum), value)


def declared_event(chart):
    """C that gives a tick or an input event of the chart."""
    names = ['TICK', *('E_' + event.name for event in chart.events if event.kind == 'input')]
    return 'static const uint32_t events[] = {%s};\n    return events[Frama_C_interval(0, %d)];' % (
        ', '.join('%s_%s' % (c_name(chart), name) for name in names), len(names) - 1)


def main_of(chart, is_declared):
    """The program that calls the C of a chart."""
    name = c_name(chart)
    return MAIN % {
        'file': chart.root.name, 'name': name, 'event': declared_event(chart) if is_declared else ANY_EVENT,
        'inputs': '\n'.join(stored(datum) for datum in chart.data if datum.kind == 'input'),
        'tests': '\n'.join('        (void)%s_in_%s(&chart);' % (name, state_name(state)) for state in chart.states if state.parent)}


# ---- what Eva says

class Found(NamedTuple):
    """What Eva found of a chart: the lines of alarms, errors and warnings, how many functions of the source it came to, and how many
    there are; or that the chart is left out."""
    lines: list
    reached: int = 0
    functions: int = 0
    is_left_out: bool = False


def said_of(path, name, functions, answer):
    """What Eva says at its end of a source with these functions. Its status is 0 also where there are alarms."""
    summary = SUMMARY.search(answer.out)
    if answer.status != 0 or summary is None:
        raise Failed('%s: Eva did not come to an end: %s\n%s' % (path, status_text(answer), (answer.out + answer.error)[-2000:]))
    alarms = re.search(r'(\d+) alarms? generated by the analysis', summary[0])
    reached = set(re.findall(r'Done for function (\w+)', answer.out)).intersection(functions)
    lines = [' '.join(message.split()) for message in TOLD.findall(answer.out)]
    is_silent = alarms and alarms[1] == '0' and 'No errors or warnings raised during the analysis' in summary[0]
    if not is_silent and not lines:
        lines = summary[0].splitlines()
    lines += ['Eva did not come to %s' % call for call in ('%s_init' % name, '%s_start' % name, '%s_react' % name) if call not in reached]
    return Found(['%s: %s' % (path, line) for line in lines], len(reached), len(functions))


def found(path, program, is_declared):
    """What Eva finds of a chart, or a line that tells what failed."""
    try:
        return asked(path, program, is_declared)
    except (Failed, OSError) as failed:
        return Found([str(failed)])


def asked(path, program, is_declared):
    """What Eva finds of a chart."""
    with open(path, 'rb') as file:
        text = file.read().decode('latin-1')
    chart = check_chart(text)
    with tempfile.TemporaryDirectory() as folder:
        source = os.path.join(folder, make_c(program, text, folder)[0])
        with open(source, encoding='latin-1') as file:
            content = file.read()
        if NEEDS_128_BITS in content:
            return Found([], is_left_out=True)
        caller = write(folder, 'main.c', main_of(chart, is_declared))
        for precision in (AT_FIRST, ONCE_MORE):
            answer = ended([*EVA, *precision, caller, source], LONGEST, cwd=folder)
            said = said_of(path, c_name(chart), DEFINED.findall(content), answer)
            if not said.lines:
                break
        return said


def main(words):
    """Does what the words ask for, and gives the status."""
    reader = parser_of_charts(__doc__)
    reader.add_argument('--declared', action='store_true')
    options = reader.parse_args(words)
    answers = []
    with ThreadPoolExecutor(options.jobs) as several:
        for path, each in zip(options.charts, several.map(lambda path: found(path, options.against, options.declared), options.charts)):
            answers.append(each)
            if each.is_left_out:
                print('%s: left out, since its C needs a type of 128 bits' % path)
            print(''.join(line + '\n' for line in each.lines), end='', flush=True)
    looked_at = [each for each in answers if not each.is_left_out]
    print('%d charts, %d of them with alarms; Eva came to %d of %d functions' % (
        len(looked_at), sum(bool(each.lines) for each in looked_at), sum(each.reached for each in looked_at),
        sum(each.functions for each in looked_at)))
    return 1 if not looked_at or any(each.lines for each in looked_at) else 0


if __name__ == '__main__':
    sys.exit(rules.with_deep_calls(lambda: main(sys.argv[1:])))
