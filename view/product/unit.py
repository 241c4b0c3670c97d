"""A chart as a unit of co-simulation by the Functional Mock-up Interface 2.0: its description in XML, and its tables in C.

Inputs of the chart are inputs, and so is each input event and `tick`, as a number that counts: where it has grown since the last
step the event is processed so many times, in the order of the chart, and `tick` last. Outputs are outputs, and so is each output
event, as a number that counts. Local data and states are there to look at, a state as `in(PATH)`, and `fault.number` is 0 or the
fault that ended the run."""
import hashlib
from typing import NamedTuple, Optional
from xml.sax.saxutils import quoteattr

import common                                # noqa: F401, which finds the folder checks

REAL, INTEGER, BOOLEAN = 'Real', 'Integer', 'Boolean'
LEAST, GREATEST = -2 ** 31, 2 ** 31 - 1


class Variable(NamedTuple):
    """A variable: its name, its type, what it is to others, what is said of it, its first value where it is an input, its ends
    where it is a number of a datum, and what it is in the C: a kind and a place."""
    name: str
    type: str
    causality: str
    said: str
    start: Optional[object]
    ends: Optional[tuple]
    kind: str
    place: int


def variables_of(table):
    """The variables in the order of their references: those that go in, those that come out, those to look at."""
    data = [datum_variable(each) for each in table['data']]
    found = [each for each in data if each.causality == 'input']
    found += [Variable(each['name'], INTEGER, 'input', 'how often the event %s came' % each['name'], 0, None, 'EVENT', place)
              for place, each in enumerate(taken(table))]
    found += [each for each in data if each.causality == 'output']
    found += [Variable(each['name'], INTEGER, 'output', 'how often the event %s was emitted' % each['name'], None, None, 'OUTPUT',
                       place) for place, each in enumerate(emitted(table))]
    found.append(Variable('fault.number', INTEGER, 'output', 'the fault that ended the run: ' + ', '.join(
        '%d %s' % (each['number'], each['name']) for each in table['faults']), None, None, 'FAULT', 0))
    found += [each for each in data if each.causality == 'local']
    found += [Variable('in(%s)' % each['path'], BOOLEAN, 'local', 'whether the state is active', None, None, 'STATE', place)
              for place, each in enumerate(table['states'])]
    return found


def datum_variable(datum):
    said = '%s : %s' % (datum['name'], datum['type'])
    if datum['type'] == 'bool':
        kind, first, ends = BOOLEAN, bool(datum['first']), None
    elif not datum['fraction'] and LEAST <= datum['least_mantissa'] and datum['greatest_mantissa'] <= GREATEST:
        kind, first, ends = INTEGER, datum['first_mantissa'], (datum['least_mantissa'], datum['greatest_mantissa'])
    else:
        kind, first, ends = REAL, datum['first'], (datum['least'], datum['greatest'])
    is_input = datum['kind'] == 'input'
    return Variable(datum['name'], kind, datum['kind'], said, first if is_input else None, ends, 'DATUM', datum['number'])


def taken(table):
    return [each for each in table['events'] if each['kind'] in ('input', 'tick')]


def emitted(table):
    return [each for each in table['events'] if each['kind'] == 'output']


def guid_of(sources):
    """A name that other C of the chart doesn't have."""
    found = hashlib.sha256('\0'.join(sources).encode('latin-1')).hexdigest()
    return '{%s-%s-%s-%s-%s}' % (found[:8], found[8:12], found[12:16], found[16:20], found[20:32])


# ---- the description

def attributes(pairs):
    return ''.join(' %s=%s' % (name, quoteattr(text_of(value))) for name, value in pairs if value is not None)


def text_of(value):
    return ('true' if value else 'false') if isinstance(value, bool) else str(value)


def description(table, guid, files, version):
    """The file modelDescription.xml."""
    variables = variables_of(table)
    head = attributes([('fmiVersion', '2.0'), ('modelName', table['chart']), ('guid', guid),
                       ('description', 'the chart %s, sum %s' % (table['chart'], table['sum'])), ('generationTool', version),
                       ('variableNamingConvention', 'flat'), ('numberOfEventIndicators', 0)])
    lines = ['<?xml version="1.0" encoding="UTF-8"?>', '<fmiModelDescription%s>' % head]
    lines.append('  <CoSimulation%s>' % attributes([
        ('modelIdentifier', table['prefix']), ('canHandleVariableCommunicationStepSize', True),
        ('canNotUseMemoryManagementFunctions', True), ('canGetAndSetFMUstate', True), ('canSerializeFMUstate', True)]))
    lines += ['    <SourceFiles>', *('      <File name=%s/>' % quoteattr(name) for name in files), '    </SourceFiles>',
              '  </CoSimulation>', '  <LogCategories>', '    <Category name="logStatusError"/>', '  </LogCategories>',
              '  <ModelVariables>']
    for reference, each in enumerate(variables):
        lines += variable_lines(reference, each)
    lines += ['  </ModelVariables>', '  <ModelStructure>', '    <Outputs>']
    outputs = ['      <Unknown index="%d"/>' % (place + 1) for place, each in enumerate(variables) if each.causality == 'output']
    lines += outputs + ['    </Outputs>', '    <InitialUnknowns>', *outputs, '    </InitialUnknowns>', '  </ModelStructure>',
                        '</fmiModelDescription>']
    return '\n'.join(lines) + '\n'


def variable_lines(reference, each):
    least, greatest = each.ends or (None, None)
    yield '    <ScalarVariable%s>' % attributes([('name', each.name), ('valueReference', reference), ('description', each.said),
                                                 ('causality', each.causality), ('variability', 'discrete'),
                                                 ('initial', None if each.causality == 'input' else 'calculated')])
    yield '      <%s%s/>' % (each.type, attributes([('min', least), ('max', greatest), ('start', each.start)]))
    yield '    </ScalarVariable>'


# ---- the tables in C

TYPES = {'bool': 'FLAG', **{'%sint%d_t' % (sign, bits): '%s%d' % ('U' if sign else 'S', bits)
                            for sign in ('', 'u') for bits in (8, 16, 32, 64)}}


def model_text(table, interface, guid):
    """The file model.h."""
    p = table['prefix']
    variables, events, outputs = variables_of(table), taken(table), emitted(table)
    lines = ['/* The chart %s, for fmu.c. Written by flowfmu. Do not edit. */' % table['chart'],
             interface.allowance() + '#include "%s.h"' % table['chart'],
             '#define GUID "%s"' % guid, '#define MODEL_PREFIX %s_' % p, '#define CHART %s_chart' % p,
             '#define INIT %s_init' % p, '#define START %s_start' % p, '#define REACT %s_react' % p,
             'enum { DATA = %d, EVENTS = %d, OUTPUTS = %d, VALUES = %d };' % (
                 len(table['data']), len(events), len(outputs), len(variables))]
    lines += array('struct datum data', ['{offsetof(CHART, %s), %s, %r, %s, %dU, %s}' % (
        each['field'], TYPES[each['c_type']], each['step'], whole(each['least_mantissa']), each['greatest_mantissa'],
        'true' if each['kind'] == 'input' else 'false') for each in table['data']] or ['{0, FLAG, 1.0, 0, 1U, false}'])
    lines += array('uint32_t event_numbers', [each['constant'] for each in events])
    lines += array('uint32_t output_numbers', [each['constant'] for each in outputs] or ['0'])
    lines += array('struct value values', ['{%s, %d}' % (each.kind, each.place) for each in variables])
    lines += array('char value_types', ["'%s'" % each.type[0] for each in variables])
    lines += ['static bool is_active(const CHART *chart, unsigned state)', '{', '    switch (state) {']
    lines += ['    case %d: return %s(chart);' % (place, each['test']) for place, each in enumerate(table['states'])]
    return '\n'.join(lines + ['    default: return false;', '    }', '}']) + '\n'


def whole(number):
    """A whole number of 64 bits in C."""
    return 'INT64_MIN' if number == -2 ** 63 else str(number)


def array(head, rows):
    return ['static const %s[] = {' % head, *('    %s,' % row for row in rows), '};']
