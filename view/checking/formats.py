"""The formats of reports, read by what others wrote. JUnit XML is read by Debian's python3-junitparser. Of SARIF Debian has no
schema; but the classes of its python3-sarif-python-om are made from the schema of SARIF 2.1.0: each property must be one of its
class, and those that the schema demands must be there. What else the schema says, as of the form of a URI, isn't asked."""
import json
import os
import subprocess
import sys
import tempfile

from checking.commands import FILES, LAMP, LAMP_SUM
from common import VIEW
from common.debian import module

CLASSES = {'runs': 'Run', 'tool': 'Tool', 'driver': 'ToolComponent', 'rules': 'ReportingDescriptor', 'results': 'Result',
           'message': 'Message', 'locations': 'Location', 'physicalLocation': 'PhysicalLocation',
           'artifactLocation': 'ArtifactLocation', 'region': 'Region'}
# The words of a call, and the places and kinds of the messages.
REPORTS = [
    ('flowlint dead.chart wrong.chart', ['dead.chart 1:47 NeverTaken', 'wrong.chart 1:44 Expected']),
    ('flowlint LAMPchart', []),
    ('flowwhy wrong.chart fault.chart ticks', ['wrong.chart 1:44 Expected', 'fault.chart 1:66 zero']),
]


def sarif_faults(thing, name, classes):
    """What of a part of a SARIF log isn't as its class has it."""
    fields = {each.metadata['schema_property_name']: each for each in getattr(classes, name).__attrs_attrs__}
    for key, field in fields.items():
        if repr(field.default) == 'NOTHING' and key not in thing:
            yield '%s has no %s' % (name, key)
    for key, value in thing.items():
        if key not in fields:
            yield '%s has %s, which the schema doesn\'t' % (name, key)
        for each in value if isinstance(value, list) else [value]:
            if key in CLASSES:
                yield from sarif_faults(each, CLASSES[key], classes)
            elif isinstance(each, dict):
                yield '%s of %s isn\'t looked at' % (key, name)


def sarif_messages(log):
    """The places and kinds of the messages of a SARIF log."""
    for each in log['runs'][0]['results']:
        place = each['locations'][0]['physicalLocation']
        yield '%s %d:%d %s' % (os.path.basename(place['artifactLocation']['uri']), place['region']['startLine'],
                               place['region']['startColumn'], each['ruleId'])


def json_messages(found):
    for each in found['messages']:
        yield '%s %d:%d %s' % (os.path.basename(each['file']), each['line'], each['column'], each['kind'])


def called(words, folder, program):
    """What a tool writes on standard output."""
    tool, *rest = words.replace('LAMP', LAMP).split(' ')
    return subprocess.run([sys.executable, os.path.join(VIEW, tool), *rest], cwd=folder, capture_output=True, check=False,
                          env={**os.environ, 'FLOWC': program}).stdout.decode('latin-1')


def report_faults(folder, program, classes):
    """What is wrong with the reports in SARIF and JSON."""
    for words, wanted in REPORTS:
        log = json.loads(called(words + ' --format sarif', folder, program))
        for fault in sarif_faults(log, 'SarifLog', classes):
            yield '%s: %s' % (words, fault)
        for form, got in (('sarif', list(sarif_messages(log))),
                          ('json', list(json_messages(json.loads(called(words + ' --format json', folder, program)))))):
            if got != wanted:
                yield '%s: %s, as %s' % (words, got, form)


def junit_faults(folder, program, reader):
    """What is wrong with the results of three cases, of which one passes, one has another trace and one has none."""
    words = 'flowtrace test LAMPchart LAMPevents wanted LAMPevents other wrong.chart ticks wanted --junit results.xml'
    called(words, folder, program)
    found = reader.JUnitXml.fromfile(os.path.join(folder, 'results.xml'))
    told = ['%s: %d tests, %d failures, %d errors' % (os.path.basename(suite.name), suite.tests, suite.failures, suite.errors)
            for suite in found]
    told += ['%s: %s' % (each.name, each.value) for suite in found for each in suite.properties()]
    told += ['%s: %s' % (os.path.basename(case.name), ', '.join(type(each).__name__ + ' ' + each.message for each in case.result))
             for suite in found for case in suite]
    wanted = ['lamp.chart: 2 tests, 1 failures, 0 errors', 'wrong.chart: 1 tests, 0 failures, 1 errors', 'sum: ' + LAMP_SUM,
              'lamp.events: ',
              'lamp.events: Failure line 2, GO:', 'ticks: Error chart 1:44: 3 Expected']
    if told != wanted:
        yield 'JUnit XML is read as %s' % told
    if (found.tests, found.failures, found.errors) != (3, 1, 1):
        yield 'the sums of JUnit XML are %d, %d, %d' % (found.tests, found.failures, found.errors)


def wrong_formats(program):
    """What is wrong with the formats, and how many reports were read."""
    readers = {name: module(name) for name in ('sarif_om', 'junitparser')}
    lines = ['%s is missing: apt-get install %s' % (name, package) for name, package in (
        ('sarif_om', 'python3-sarif-python-om'), ('junitparser', 'python3-junitparser')) if readers[name] is None]
    if lines:
        return lines, 0
    with tempfile.TemporaryDirectory() as folder:
        for name, text in FILES.items():
            with open(os.path.join(folder, name), 'w', encoding='ascii') as file:
                file.write(text)
        lines = [*report_faults(folder, program, readers['sarif_om']), *junit_faults(folder, program, readers['junitparser'])]
    return lines, 2 * len(REPORTS) + 1
