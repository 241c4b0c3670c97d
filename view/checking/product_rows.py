"""What flownames and flowfmu write of examples, read back against the C and run against the kept traces.

The C of a chart runs over the events and inputs of its trace, and writes the bytes of the struct after each; the ASAP2 file tells
what stands in them, which must be what the trace has. The header in C is compiled with it, and writes what it says. The unit of
co-simulation runs over the same, by the loader of unit.py."""
import json
import os
import re
import subprocess
import sys
import tempfile
from ctypes import byref, c_char, c_double, c_size_t, c_uint, c_void_p
from fractions import Fraction

from checking.calibration import read
from checking.unit import ERROR, FUNCTIONS, OK, Unit, description_faults
from chart_rules import run_rules, value_text
from common import CHECKOUT, VIEW
from common.program import read_file
from traces.lines import read_trace

NAMED = ('examples/pump/pump', 'checks/tables/c_charts/wide')
UNITS = ('examples/motor/motor', 'examples/semantics/overflow_error', 'checks/tables/c_charts/wide')
# A chart with `_` in its name, whose functions may call themselves, and events for it.
CALLING = '''chart Calls_back {
  event input GO;
  input x : uint8;
  local n : uint8;
  default -> S_1;
  junction a { [x > 3 && n < 20] { n = n + 1; } -> @b; [x > 1] -> T; }
  junction b { [n > 7] { n = n + 1; } -> @a; [x == 0] -> T; }
  state S_1 { outer GO -> @a; }
  state T { }
}
'''
CALLING_EVENTS = b'tick\n' + b'GO x=4\n' * 9
ADDRESS = 0x20000100
WARNINGS = '-std=c99 -Wall -Wextra -Wconversion -Wsign-conversion -Werror'.split(' ')


class Failed(Exception):
    """A program ended otherwise than it should; the text says how."""


def ran(words, folder):
    """What a program writes on standard output."""
    done = subprocess.run(words, cwd=folder, capture_output=True, check=False)
    if done.returncode or done.stderr:
        raise Failed('%s: status %d, %s' % (' '.join(words), done.returncode, done.stderr.decode('latin-1')[:1000]))
    return done.stdout.decode('latin-1')


def tool(name, *words):
    return [sys.executable, os.path.join(VIEW, name), *words]


def write(folder, name, text):
    with open(os.path.join(folder, name), 'w', encoding='ascii') as file:
        file.write(text)


def stems(names, folder):
    """Where the charts and their traces stand: those of the checkout, and that whose functions may call themselves."""
    stem = os.path.join(folder, 'calling')
    write(folder, 'calling.chart', CALLING)
    write(folder, 'calling.trace', run_rules(CALLING, CALLING_EVENTS).out)
    return [*(os.path.join(CHECKOUT, name) for name in names), stem]


def inputs_of(table, line):
    """The inputs of a line of the trace, each with its row of the table and its mantissa."""
    values = dict(line.values)
    for row in table['data']:
        if row['kind'] == 'input':
            text = values[row['name']]
            yield row, int(text == 'true') if row['type'] == 'bool' else int(Fraction(text) * 2 ** row['fraction'])


# ---- names

MAIN = '''#include "NAMES"
#include <stdio.h>
static CHART chart;
static void show(bool went)
{
    const unsigned char *bytes = (const unsigned char *)&chart;
    printf("%d ", went);
    for (size_t at = 0; at < sizeof chart; at++) { printf("%02x", bytes[at]); }
    for (int at = 0; at < PREFIX_names_states_count; at++) {
        if (PREFIX_names_states[at].is_active(&chart)) { printf(" %s", PREFIX_names_states[at].path); }
    }
    printf("\\n");
}
int main(void)
{
    for (int at = 0; at < PREFIX_names_events_count; at++) {
        printf("event %s %u\\n", PREFIX_names_events[at].name, (unsigned)PREFIX_names_events[at].number);
    }
    for (int at = 0; at < PREFIX_names_faults_count; at++) {
        printf("fault %s %u\\n", PREFIX_names_faults[at].name, (unsigned)PREFIX_names_faults[at].number);
    }
    for (int at = 0; at < PREFIX_names_data_count; at++) {
        printf("datum %s %s %s %.17g %.17g %.17g %u %u\\n", PREFIX_names_data[at].name, PREFIX_names_data[at].kind,
               PREFIX_names_data[at].type, PREFIX_names_data[at].step, PREFIX_names_data[at].least, PREFIX_names_data[at].greatest,
               (unsigned)PREFIX_names_data[at].offset, (unsigned)PREFIX_names_data[at].size);
    }
STEPS
    return 0;
}
'''


def main_text(table, lines):
    """A program that writes what the header of names says, and runs the lines of a trace."""
    p = table['prefix']
    numbers = {each['name']: each['constant'] for each in table['events']}
    steps = ['    %s_init(&chart);' % p, '    show(%s_start(&chart));' % p]
    for line in lines[1:]:
        for row, mantissa in inputs_of(table, line):
            steps.append('    chart.%s = %s;' % (row['field'], 'INT64_MIN' if mantissa == -2 ** 63 else '(%s)%dLL' % (
                row['c_type'], mantissa)))
        steps.append('    show(%s_react(&chart, %s));' % (p, numbers[line.event]))
    text = MAIN.replace('STEPS', '\n'.join(steps)).replace('CHART', table['struct']).replace('PREFIX', p)
    return text.replace('NAMES', table['chart'] + '_names.h')


def wrong_names(chart_to_c):
    """What is wrong with the names of some charts, and how many lines of traces were looked at."""
    return wrong_charts(NAMED, lambda stem, folder: wrong_names_of(chart_to_c, stem, folder))


def wrong_charts(names, wrong_chart):
    """What is wrong with some charts, and how many lines of traces were looked at."""
    lines, seen = [], 0
    with tempfile.TemporaryDirectory() as made:
        for stem in stems(names, made):
            with tempfile.TemporaryDirectory() as folder:
                try:
                    found, count = wrong_chart(stem, folder)
                except (Failed, ValueError, KeyError, AttributeError, OSError) as fault:
                    found, count = [repr(fault)], 0
            lines += ['%s: %s' % (os.path.basename(stem), each) for each in found]
            seen += count
    return lines, seen


def wrong_names_of(chart_to_c, stem, folder):
    chart, trace = stem + '.chart', read_trace(read_file(stem + '.trace'))
    header, source = (ran([chart_to_c, what, chart], folder) for what in ('header', 'source'))
    table = json.loads(ran(tool('flownames', chart), folder))
    write(folder, table['chart'] + '.h', header)
    write(folder, table['chart'] + '.c', source)
    given = ['--header', table['chart'] + '.h']
    write(folder, table['chart'] + '_names.h', ran(tool('flownames', chart, '--as', 'c', *given), folder))
    a2l = ran(tool('flownames', chart, '--as', 'a2l', '--address', hex(ADDRESS), '--symbol', 'chart', *given), folder)
    write(folder, 'main.c', main_text(table, trace))
    allowed = ['-D' + each for each in re.findall(r'!defined\((\w+_MAY_RECURSE)\)', header)]
    ran(['cc', *WARNINGS, *allowed, 'main.c', table['chart'] + '.c', '-o', 'main'], folder)
    told = ran(['./main'], folder).split('\n')[:-1]
    rows = [each for each in told if each.startswith(('event ', 'fault ', 'datum '))]
    lines = [] if rows == rows_of(table) else ['the header says %s' % rows]
    measurements, methods = read(a2l, ADDRESS)
    for line, wrote in zip(trace, told[len(rows):], strict=True):
        lines += wrong_line(table, measurements, methods, line, wrote.split(' '))
    return lines, len(trace)


def rows_of(table):
    """What the program writes of the names."""
    found = ['%s %s %d' % (what, each['name'], each['number']) for what, name in (('event', 'events'), ('fault', 'faults'))
             for each in table[name] if each['number'] is not None]
    return found + ['datum %s %s %s %.17g %.17g %.17g %d %d' % tuple(each[word] for word in (
        'name', 'kind', 'type', 'step', 'least', 'greatest', 'offset', 'size')) for each in table['data']]


def wrong_line(table, measurements, methods, line, wrote):
    """What the struct has otherwise than a line of the trace."""
    data, prefix = bytes.fromhex(wrote[1]), table['chart'] + '.'
    if (wrote[0] == '1') != (line.result == 'ok') or tuple(wrote[2:]) != line.states or len(data) != table['size']:
        yield 'line %d: the call or the states are others' % line.index
    values = dict(line.values)
    for name, measurement in measurements.items():
        value, is_within = measurement.value(methods, data)
        kind, _, path = name[len(prefix):].partition('.')
        path = path.replace('.', '/')
        if kind == 'child' or path == 'child':
            above = path + '/' if kind == 'child' else ''
            wanted = [each[len(above):] for each in line.states if re.fullmatch(re.escape(above) + r'\w+', each)]
            is_same = value == (wanted[0] if wanted else 'none')
        elif kind == 'in':
            is_same = (value == 'true') == (path in line.states)
        elif kind == 'chart':
            is_same = value == ('none' if line.result == 'ok' else line.result.split(' ')[0])
        else:
            is_same = (value if isinstance(value, str) else value_text(value)) == values.pop(kind)
        if not is_same or not is_within:
            yield 'line %d: %s is %s' % (line.index, name, value)
    if values:
        yield 'line %d: no measurement of %s' % (line.index, values)


# ---- units of co-simulation

def wrong_units(chart_to_c):
    """What is wrong with the units of some charts, and how many lines of traces were looked at."""
    return wrong_charts(UNITS, lambda stem, folder: wrong_unit(chart_to_c, stem, folder))


def wrong_unit(chart_to_c, stem, folder):
    file, trace = os.path.join(folder, 'unit.fmu'), read_trace(read_file(stem + '.trace'))
    ran(tool('flowfmu', stem + '.chart', '-o', file, '--chart-to-c', chart_to_c), folder)
    table = json.loads(ran(tool('flownames', stem + '.chart', '--chart-to-c', chart_to_c), folder))
    unit = Unit(file, os.path.join(folder, 'unpacked'))
    lines = description_faults(unit.tree)
    if unit.library.fmi2GetVersion() != b'2.0' or unit.library.fmi2GetTypesPlatform() != b'default':
        lines.append('the version is another one')
    if unit.instantiate('{another}') is not None:
        lines.append('another guid is taken')
    lines += ['no function %s' % name for name in FUNCTIONS if not hasattr(unit.library, 'fmi2' + name)]
    lines += sources_faults(unit.folder)
    lines += wrong_run(unit, table, trace)
    if unit.call('Reset') != OK:
        lines.append('the instance isn\'t reset')
    lines += ['again: ' + each for each in wrong_run(unit, table, trace)]
    if unit.call('Reset') == OK and unit.begin() == OK:
        lines += wrong_uses(unit, table)
    unit.free()
    return lines, 2 * len(trace)


def sources_faults(folder):
    """What a compiler says of the sources, whose functions have the prefix of the standard."""
    names = [name for name in os.listdir(os.path.join(folder, 'sources')) if name.endswith('.c')]
    ran(['cc', '-std=c99', '-Wall', '-Wextra', '-Werror', '-O1', '-c', *names], os.path.join(folder, 'sources'))
    symbols = ran(['nm', 'fmu.o'], os.path.join(folder, 'sources'))
    return [] if re.search(r' T \w+_fmi2DoStep\n', symbols) else ['the sources have other functions']


def wrong_run(unit, table, trace):
    """What the unit does otherwise than the lines of a trace."""
    lines, counts, emitted = [], {}, {}
    for line in trace:
        if line.event == 'start':
            status = unit.begin()
        else:
            for row, mantissa in inputs_of(table, line):
                unit.set(row['name'], mantissa if unit.variables[row['name']][1] != 'Real' else mantissa * row['step'])
            counts[line.event] = counts.get(line.event, 0) + 1
            unit.set(line.event, counts[line.event])
            status = unit.step()
        states = tuple(each['path'] for each in table['states'] if unit.get('in(%s)' % each['path']))
        values = tuple((row['name'], unit.get(row['name'])) for row in table['data'])
        outputs = []
        for each in table['events']:
            if each['kind'] == 'output':
                outputs += [each['name']] * (unit.get(each['name']) - emitted.get(each['name'], 0))
                emitted[each['name']] = unit.get(each['name'])
        fault = next(each['name'] for each in table['faults'] if each['number'] == unit.get('fault.number'))
        got = (status == OK, states, values, sorted(outputs), fault)
        wanted = (line.result == 'ok', line.states, tuple((name, shown(text)) for name, text in line.values), sorted(line.outputs),
                  'none' if line.result == 'ok' else line.result.split(' ')[0])
        if got != wanted:
            lines.append('line %d: %s, and %s is wanted' % (line.index, got, wanted))
    if trace[-1].result != 'ok' and (unit.step() != ERROR or not unit.logged):
        lines.append('after a fault it goes on')
    return lines


def shown(text):
    """A value of a trace as the unit has it, whose numbers are of 53 bits."""
    return text == 'true' if text in ('true', 'false') else float(Fraction(text))


def wrong_uses(unit, table):
    """What the unit takes or gives otherwise than it should, while it runs."""
    lines = []
    outside = byref(c_uint(10000))
    if unit.call('GetReal', outside, c_size_t(1), byref(c_double())) != ERROR:
        lines.append('a reference is taken that there is not')
    if unit.set('in(%s)' % table['states'][0]['path'], True) != ERROR:
        lines.append('a state is set')
    if unit.call('EnterInitializationMode') != ERROR:
        lines.append('it is initialized twice')
    unit.set('tick', 1)
    unit.step()
    if unit.set('tick', 0) != ERROR:
        lines.append('a count goes down')
    for row in table['data']:
        if row['kind'] == 'input' and unit.variables[row['name']][1] == 'Real':
            for value, wanted in ((1e300, row['greatest']), (-1e300, row['least']), (row['step'] * -0.5, -row['step']),
                                  (row['step'] * 2.75, 2 * row['step'])):
                unit.set(row['name'], value)
                if unit.get(row['name']) != max(wanted, row['least']):
                    lines.append('%r is stored in %s as %r' % (value, row['name'], unit.get(row['name'])))
            if unit.set(row['name'], float('nan')) != ERROR:
                lines.append('what is no number is stored')
    return lines + wrong_snapshot(unit)


def wrong_snapshot(unit):
    """What is wrong with snapshots: a run goes on from one as it went on before, also from its bytes."""
    state, again, size = c_void_p(), c_void_p(), c_size_t()
    names = [name for name, (_, _, each) in unit.variables.items() if each.get('causality') != 'input']
    def forward():
        unit.set('tick', unit.get('tick') + 1)
        unit.step()
        return [unit.get(name) for name in names]
    statuses = [unit.call('GetFMUstate', byref(state)), unit.call('SerializedFMUstateSize', state, byref(size))]
    data = (c_char * size.value)()
    statuses.append(unit.call('SerializeFMUstate', state, data, size))
    first = forward()
    statuses.append(unit.call('SetFMUstate', state))
    second = forward()
    statuses.append(unit.call('DeSerializeFMUstate', data, size, byref(again)))
    statuses.append(unit.call('SetFMUstate', again))
    third = forward()
    statuses += [unit.call('FreeFMUstate', byref(state)), unit.call('FreeFMUstate', byref(again))]
    is_right = first == second == third and set(statuses) == {OK} and state.value is None
    return [] if is_right else ['a snapshot goes on otherwise: %s' % statuses]
