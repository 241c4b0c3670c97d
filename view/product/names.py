"""The names of a chart with their numbers, units and ranges."""
import json

import common                                # noqa: F401, which finds the folder checks
from chart_check import ends_of
from chart_syntax import scale_text
from product.interface import NoHeader

FIELD = {'input': 'in_', 'output': 'out_', 'local': 'loc_'}


def table_of(chart, chart_sum, interface):
    """All names of a chart with that sum, as JSON has them. NoHeader where the header isn't of the chart."""
    numbers = {child: (field, number) for field, _, children in children_of(chart, interface) for number, child in children.items()}
    missing = [each.path() for each in chart.states if each.parent and each.path() not in interface.tests]
    if missing or len(interface.tests) != len(chart.states) - 1:
        raise NoHeader('its states are not those of the chart')
    if interface.sum != chart_sum:
        raise NoHeader('its sum is %s, and that of the chart %s' % (interface.sum, chart_sum))
    return {
        'chart': chart.root.name, 'sum': chart_sum, 'prefix': interface.prefix, 'struct': interface.prefix + '_chart',
        'size': interface.size,
        'events': [event_row(each, interface) for each in chart.events] + [
            {'name': 'tick', 'kind': 'tick', 'number': interface.tick(), 'constant': interface.prefix + '_TICK'}],
        'data': [datum_row(number, each, interface) for number, each in enumerate(chart.data)],
        'states': [state_row(each, interface, numbers) for each in chart.states if each.parent],
        'faults': [{'name': name, 'number': number, 'constant': '%s_FAULT_%s' % (interface.prefix, name.upper())}
                   for name, number in interface.faults().items()]}


def children_of(chart, interface):
    """For each OR the field with its active child, the OR, and its children by their numbers. The header has the fields in the
    order of the chart; it names an OR by its path, and a state may have the name of the chart."""
    homes = [each for each in chart.states if each.composition == 'or']
    fields = list(interface.children())
    if [list(names.values()) for _, names in fields] != [[child.name for child in each.children] for each in homes]:
        raise NoHeader('its states are not those of the chart')
    for (field, names), home in zip(fields, homes):
        yield field, home, dict(zip(names, home.children))


def event_row(event, interface):
    number = interface.event(event.name)
    if (number is None) != (event.kind == 'local'):
        raise NoHeader('its events are not those of the chart')
    constant = None if number is None else '%s_E_%s' % (interface.prefix, event.name)
    return {'name': event.name, 'kind': event.kind, 'number': number, 'constant': constant}


def datum_row(number, datum, interface):
    field = interface.field(FIELD[datum.kind] + datum.name)
    if interface.fields[number] != field or (field.type == 'bool') != (datum.scale is None):
        raise NoHeader('its data are not those of the chart')
    least, greatest = ends_of(datum.scale) if datum.scale else (0, 1)
    fraction = datum.scale.fraction if datum.scale else 0
    step = 2.0 ** -fraction
    return {'name': datum.name, 'kind': datum.kind, 'number': number, 'field': field.name, 'offset': field.offset,
            'size': field.size(), 'c_type': field.type, 'type': scale_text(datum.scale) if datum.scale else 'bool',
            'mode': datum.mode if datum.scale else None, 'fraction': fraction, 'step': step, 'least_mantissa': least,
            'greatest_mantissa': greatest, 'least': least * step, 'greatest': greatest * step, 'first': float(datum.first()),
            'first_mantissa': int(datum.first() * 2 ** fraction)}


def state_row(state, interface, numbers):
    field, number = numbers.get(state, (None, None))
    test = interface.tests[state.path()]
    return {'path': state.path(), 'composition': state.composition, 'test': test.function,
            'field': field.name if field else test.field or None, 'number': number, 'bits': test.bits or None}


def json_text(table):
    return json.dumps(table, indent=2) + '\n'


# ---- a header in C

STRUCTS = '''struct {p}_names_number {{
    const char *name;
    uint32_t number;
}};
struct {p}_names_datum {{
    const char *name, *kind, *type;
    double step, least, greatest; /* a value is the field times step; of 64 bits the ends are rounded */
    size_t offset, size;
}};
struct {p}_names_state {{
    const char *path;
    bool (*is_active)(const {p}_chart *m);
}};
'''


def header_text(table, interface):
    """A header in C with the names, which refuses another header of the chart and another layout of its struct."""
    p = table['prefix']
    lines = ['/* Names of the chart %s, sum %s, for logs and bench tools, written by flownames. Do not edit. */' % (
        table['chart'], table['sum']), '#ifndef FLOW__%s__NAMES' % p, '#define FLOW__%s__NAMES' % p, '',
             '#include "%s.h"' % table['chart'],
             '#include <stddef.h>', '', STRUCTS.format(p=p)]
    for what in ('events', 'faults'):
        lines += array('number', p, what, ['{"%s", %s}' % (each['name'], each['constant'])
                                           for each in table[what] if each['constant']])
    lines += array('datum', p, 'data', ['{"%s", "%s", "%s", %r, %r, %r, offsetof(%s_chart, %s), sizeof(%s)}' % (
        each['name'], each['kind'], each['type'], each['step'], each['least'], each['greatest'], p, each['field'], each['c_type'])
        for each in table['data']] or ['{NULL, NULL, NULL, 0.0, 0.0, 0.0, 0, 0}'])
    lines += array('state', p, 'states', ['{"%s", %s}' % (each['path'], each['test']) for each in table['states']])
    numbers = ['%s == %d' % (each['constant'], each['number']) for each in [*table['events'], *table['faults']] if each['constant']]
    places = ['offsetof(%s_chart, %s) == %d' % (p, each.name, each.offset) for each in interface.fields]
    sums = ['%s_SUM_%d == 0x%s' % (p, at, table['sum'][4 * at:4 * at + 4]) for at in range(4)]
    checks = ' &&\n    '.join(['sizeof(%s_chart) == %d' % (p, table['size']), *places, *numbers, *sums])
    lines += ['/* C refuses this type where the header is of another chart or has other numbers, or where the struct has another',
              '   layout than the one that flownames writes for calibration tools. */',
              'typedef char %s_names_fit[(%s) ? 1 : -1];' % (p, checks), '', '#endif']
    return '\n'.join(lines) + '\n'


def array(kind, prefix, name, rows):
    """The lines of an array with its length."""
    return ['enum { %s_names_%s_count = %d };' % (prefix, name, 0 if rows[0].startswith('{NULL') else len(rows)),
            'static const struct %s_names_%s %s_names_%s[] = {' % (prefix, kind, prefix, name),
            *('    %s,' % row for row in rows), '};', '']
