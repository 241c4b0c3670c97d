"""The messages of flowwhy and flowlint as JSON and as SARIF 2.1.0, the OASIS standard for results of static analysis. They are
read from the lines that the tools write: a head that editors read, the line of the source, a mark below the place, and notes."""
import json
import os
import re
from collections import namedtuple
from urllib.parse import quote

HEAD = re.compile(r'(.*?):([0-9]+):([0-9]+): (error|warning): (\w+): (.*)')
MARK = re.compile(r' *(\^~*)')
SCHEMA = 'https://docs.oasis-open.org/sarif/sarif/v2.1.0/errata01/os/schemas/sarif-schema-2.1.0.json'
FORMATS = 'text', 'json', 'sarif'

# The place counts from 1, and the end is the column after the last one that is marked. Notes are lines.
Told = namedtuple('Told', 'file line column end level kind text notes')


def read_messages(lines):
    """The messages of the lines of a tool; lines before the first head are left out."""
    found, block = [], []
    for line in lines:
        if HEAD.fullmatch(line):
            found.append([])
            block = found[-1]
        if found and (not block or line.startswith('  ')):
            block.append(line)
    return [read_message(block) for block in found]


def read_message(lines):
    """The message of a head and of the lines below it."""
    name, line, column, level, kind, text = HEAD.fullmatch(lines[0]).groups()
    mark = MARK.fullmatch(lines[2]) if len(lines) > 2 else None
    notes = [each.strip() for each in lines[3 if mark else 1:]]
    width = len(mark[1]) if mark else 1
    return Told(name, int(line), int(column), int(column) + width, level, kind, text, notes)


def as_json(tool, messages):
    return {'tool': tool, 'messages': [each._asdict() for each in messages]}


def as_sarif(tool, messages):
    """The messages as a SARIF log of one run, whose columns are bytes of an ASCII text and so code points too."""
    kinds = sorted({each.kind for each in messages})
    return {'$schema': SCHEMA, 'version': '2.1.0', 'runs': [{
        'tool': {'driver': {'name': tool, 'rules': [{'id': kind} for kind in kinds]}},
        'columnKind': 'unicodeCodePoints',
        'results': [result_of(each, kinds) for each in messages]}]}


def result_of(message, kinds):
    region = {'startLine': message.line, 'startColumn': message.column, 'endColumn': message.end}
    place = {'artifactLocation': {'uri': uri_of(message.file)}, 'region': region}
    return {'ruleId': message.kind, 'ruleIndex': kinds.index(message.kind), 'level': message.level,
            'message': {'text': '\n'.join([message.text, *message.notes])}, 'locations': [{'physicalLocation': place}]}


def uri_of(name):
    """The URI of a file: a relative one, or one that begins with `file://`."""
    return ('file://' if os.path.isabs(name) else '') + quote(name)


def written(form, tool, messages):
    """The messages in a format."""
    return json.dumps((as_sarif if form == 'sarif' else as_json)(tool, messages), indent=1) + '\n'


def groups_of(names):
    """Files in groups: one whose name ends with `.chart` or `.code` begins a new group, as does the first one."""
    found = []
    for name in names:
        if not found or name.endswith(('.chart', '.code')):
            found.append([])
        found[-1].append(name)
    return found
