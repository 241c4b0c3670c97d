"""Writes what a calibration tool reads of a chart's struct: a file of ASAP2, version 1.6, with a measurement for each datum, for
the active child of each OR, for each state that is a bit, and for the fault.

Addresses are those of fields that are aligned to their sizes, from the address of the struct on; the header that flownames writes
lets a C compiler refuse another layout."""
from product.names import children_of

TYPES = {'bool': 'UBYTE', 'int8_t': 'SBYTE', 'uint8_t': 'UBYTE', 'int16_t': 'SWORD', 'uint16_t': 'UWORD', 'int32_t': 'SLONG',
         'uint32_t': 'ULONG', 'int64_t': 'A_INT64', 'uint64_t': 'A_UINT64'}
ALIGNMENTS = 'ALIGNMENT_BYTE 1 ALIGNMENT_WORD 2 ALIGNMENT_LONG 4 ALIGNMENT_INT64 8'


class Writer:
    """The file of a chart whose struct stands at an address, and has a symbol where one is named."""

    def __init__(self, chart, table, interface, address, symbol, big_endian):
        self.chart, self.table, self.interface = chart, table, interface
        self.address, self.symbol, self.big_endian = address, symbol, big_endian
        self.prefix = table['chart'] + '.'
        self.methods, self.measurements, self.names = {}, [], []

    def text(self):
        for datum in self.table['data']:
            self.datum(datum)
        for field, home, children in children_of(self.chart, self.interface):
            rows = {0: 'none', **{number: child.name for number, child in children.items()}}
            name = 'child.' + home.path().replace('/', '.') if home.parent else 'chart.child'
            self.measurement(name, 'active child of %s' % (home.path() if home.parent else 'the chart'), field,
                             self.words(field.name, rows), 0, max(rows))
        for state in self.table['states']:
            if state['bits']:
                field = self.interface.field(state['field'])
                self.measurement('in.' + state['path'].replace('/', '.'), 'whether %s is active' % state['path'], field,
                                 self.words('flag', {0: 'false', 1: 'true'}), 0, 1, ' BIT_MASK 0x%X' % state['bits'])
        faults = {each['number']: each['name'] for each in self.table['faults']}
        self.measurement('chart.fault', 'the fault that ended the run', self.interface.field('fault'),
                         self.words('fault', faults), 0, max(faults))
        return self.file()

    def datum(self, datum):
        field = self.interface.field(datum['field'])
        said = '%s %s : %s' % (datum['kind'], datum['name'], datum['type'])
        method = self.words('flag', {0: 'false', 1: 'true'}) if datum['type'] == 'bool' else self.scaled(datum['fraction'])
        self.measurement(datum['name'], said, field, method, number(datum['least_mantissa'], datum['fraction']),
                         number(datum['greatest_mantissa'], datum['fraction']), ' READ_WRITE' if datum['kind'] == 'input' else '')

    def measurement(self, name, said, field, method, least, greatest, more=''):
        link = ' SYMBOL_LINK "%s" %d' % (self.symbol, field.offset) if self.symbol else ''
        self.names.append(self.prefix + name)
        self.measurements.append(
            '    /begin MEASUREMENT %s "%s"\n      %s %s 0 0 %s %s\n      ECU_ADDRESS 0x%X%s%s\n    /end MEASUREMENT' % (
                self.names[-1], said, TYPES[field.type], method, least, greatest, self.address + field.offset, link, more))

    def scaled(self, fraction):
        """The method of units of 2^-F."""
        name = '%sunits_%d' % (self.prefix, fraction)
        self.methods[name] = (
            '    /begin COMPU_METHOD %s "units of 2^-%d"\n      LINEAR "%%%d.%d" "" COEFFS_LINEAR %s 0\n    /end COMPU_METHOD' % (
                name, fraction, 20 + fraction, fraction, number(1, fraction)))
        return name

    def words(self, name, rows):
        """The method of a table of words."""
        method, table = self.prefix + 'words_' + name, self.prefix + 'table_' + name
        lines = ''.join('\n      %d "%s"' % row for row in sorted(rows.items()))
        self.methods[method] = (
            '    /begin COMPU_METHOD %s ""\n      TAB_VERB "%%5.0" "" COMPU_TAB_REF %s\n    /end COMPU_METHOD\n'
            '    /begin COMPU_VTAB %s ""\n      TAB_VERB %d%s\n    /end COMPU_VTAB' % (method, table, table, len(rows), lines))
        return method

    def file(self):
        chart = self.table['chart']
        order = 'MSB_FIRST' if self.big_endian else 'MSB_LAST'
        return '\n'.join([
            'ASAP2_VERSION 1 60', '/* Written by flownames. Do not edit. */',
            '/begin PROJECT %s "the chart %s, sum %s"' % (chart, chart, self.table['sum']),
            '  /begin MODULE %s ""' % chart, '    /begin MOD_COMMON ""', '      BYTE_ORDER %s %s' % (order, ALIGNMENTS),
            '    /end MOD_COMMON', *self.methods.values(), *self.measurements, '    /begin GROUP all_%s "" ROOT' % chart,
            '      /begin REF_MEASUREMENT %s /end REF_MEASUREMENT' % ' '.join(self.names), '    /end GROUP', '  /end MODULE',
            '/end PROJECT']) + '\n'


def number(mantissa, fraction):
    """A mantissa in units of 2^-F, with all its digits."""
    digits = str(abs(mantissa) * 5 ** fraction).rjust(fraction + 1, '0')
    whole, behind = digits[:len(digits) - fraction], digits[len(digits) - fraction:].rstrip('0')
    return ('-' if mantissa < 0 else '') + whole + ('.' + behind if behind else '')
