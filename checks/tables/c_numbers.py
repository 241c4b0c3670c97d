#!/usr/bin/env python3
"""Compares the numbers in the headers that a built `chart_to_c` writes of the examples, and the size of their C, with those that
are kept.

    python3 checks/tables/c_numbers.py --against CHART_TO_C [--write]

The table c_numbers.txt has a row for each chart of examples and of checks/tables/c_charts: `X_DEPTH`, `X_STEPS`, `X_OUTPUTS`,
`X_NOTES` and `X_CALLS` of its header, and the lines and bytes of header and source, where nothing is asked for by options. What is
proved of these numbers is that they are high enough, and of the passes that what they write runs as the chart. A header with larger
numbers than there need be, a pass that does nothing and C that is longer for it are admitted by every contract, so that a change
which brings one shows here alone.

A line tells for each row that differs what is kept and what was written, and the program ends with status 1, as where a chart has
no row or a row has no chart. With --write the table is written anew, whatever it had. Whoever changes the C so on purpose does
this, looks at what changed in the table, and says in the same commit why it is as it should be. No row says what is right: it says
what was there."""
import glob
import os
import re
import sys
import tempfile
from concurrent.futures import ThreadPoolExecutor

import beside                                # noqa: F401, which finds the other folders of checks
import chart_rules as rules
import tables
from chart_c import Failed, make_c
from chart_check import check_chart
from programs import parser

TOP = os.path.join(os.path.dirname(os.path.abspath(__file__)), '..', '..')
TABLE = os.path.join(TOP, 'checks', 'tables', 'c_numbers.txt')
CHARTS = ['examples/*/*.chart', 'checks/tables/c_charts/*.chart']
NUMBERS = ['DEPTH', 'STEPS', 'OUTPUTS', 'NOTES', 'CALLS']


def paths():
    """The charts, from the top of the checkout."""
    return sorted(os.path.relpath(path, TOP) for form in CHARTS for path in glob.glob(os.path.join(TOP, form)))


def read(folder, name):
    with open(os.path.join(folder, name), encoding='latin-1') as file:
        return file.read()


def number_of(header, name):
    """The number of that name in a header."""
    found = re.findall(r'\b%s\s=\s+([0-9]+)\b' % name, header)
    if len(found) != 1:
        raise Failed('a header has not one %s' % name)
    return int(found[0])


def row_of(path, program):
    """The row of a chart."""
    text = read(TOP, path)
    name = check_chart(text).root.name
    with tempfile.TemporaryDirectory() as folder:
        make_c(program, text, folder)
        header, source = read(folder, name + '.h'), read(folder, name + '.c')
    numbers = ['%s %d' % (each.lower(), number_of(header, '%s_%s' % (name, each))) for each in NUMBERS]
    sizes = ['%s %d lines %d bytes' % (what, text.count('\n'), len(text)) for what, text in (('header', header), ('source', source))]
    return ' '.join([path, *numbers, *sizes])


def written_rows(program):
    """The rows of all charts, as they are written now."""
    with ThreadPoolExecutor(os.cpu_count()) as several:
        return list(several.map(lambda path: row_of(path, program), paths()))


def kept_rows():
    with open(TABLE, 'rb') as file:
        return list(tables.rows(file))


def write_rows(rows):
    with open(TABLE, 'w', encoding='latin-1') as file:
        file.write(''.join(line + '\n' for line in [tables.head(len(rows), 'rows'), *rows]))
    print('%d charts, whose numbers and sizes are kept now' % len(rows))
    return 0


def compare(rows):
    """Tells where rows differ from those that are kept, and gives the status."""
    kept, written = ({line.split()[0]: line for line in lines} for lines in (kept_rows(), rows))
    differ = [path for path in sorted({*kept, *written}) if kept.get(path) != written.get(path)]
    for path in differ:
        print('  kept     %s\n  written  %s' % (kept.get(path, 'no row for %s' % path), written.get(path, 'no chart %s' % path)))
    print('%d charts, %d with other numbers or sizes%s' % (
        len(written), len(differ), '; where the change is meant, --write keeps them' if differ else ''))
    return 1 if differ else 0


def main(words):
    """Does what the words ask for, and gives the status."""
    reader = parser(__doc__)
    reader.add_argument('--against', metavar='CHART_TO_C', required=True)
    reader.add_argument('--write', action='store_true')
    options = reader.parse_args(words)
    try:
        rows = written_rows(os.path.abspath(options.against))
        return write_rows(rows) if options.write else compare(rows)
    except (Failed, OSError) as failed:
        print(failed)
        return 1


if __name__ == '__main__':
    sys.exit(rules.with_deep_calls(lambda: main(sys.argv[1:])))
