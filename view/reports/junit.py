"""Results of tests as JUnit XML, in the form that servers of continuous integration read: `testsuites` with a `testsuite` for each
chart, which has the sum of the chart as a property, a `testcase` for each event file, and in it a `failure` where the trace is
another one or an `error` where there is none."""
import xml.etree.ElementTree as tree
from collections import namedtuple

# A case of a chart: the names of both, how long it took, and lines on what is wrong: of a failure, or of an error.
Case = namedtuple('Case', 'chart name seconds failure error')


def junit_text(cases, sums):
    """The text of the file. Each chart has its sum, or an empty one where it can't be read."""
    top = tree.Element('testsuites', totals(cases))
    for chart in dict.fromkeys(case.chart for case in cases):
        some = [case for case in cases if case.chart == chart]
        suite = tree.SubElement(top, 'testsuite', {'name': printable(chart), **totals(some)})
        if sums[chart]:
            tree.SubElement(tree.SubElement(suite, 'properties'), 'property', {'name': 'sum', 'value': sums[chart]})
        for case in some:
            add_case(suite, case)
    tree.indent(top)
    return '<?xml version="1.0" encoding="UTF-8"?>\n' + tree.tostring(top, encoding='unicode') + '\n'


def add_case(suite, case):
    element = tree.SubElement(suite, 'testcase', {'classname': printable(case.chart), 'name': printable(case.name),
                                                  'time': '%.3f' % case.seconds})
    for word, kind, lines in (('failure', 'difference', case.failure), ('error', 'refused', case.error)):
        if lines:
            below = tree.SubElement(element, word, {'message': printable(lines[0]), 'type': kind})
            below.text = printable('\n'.join(lines))


def totals(cases):
    return {'tests': '%d' % len(cases), 'failures': '%d' % sum(1 for case in cases if case.failure),
            'errors': '%d' % sum(1 for case in cases if case.error), 'time': '%.3f' % sum(case.seconds for case in cases)}


def printable(text):
    """A text whose bytes that XML doesn't have are question marks."""
    return ''.join(byte if byte == '\n' or ' ' <= byte <= '~' else '?' for byte in text)
