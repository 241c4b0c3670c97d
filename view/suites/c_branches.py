"""Runs event files through the C that chart_to_c writes of a chart, and tells which branches of it they take, by gcov.

The C is compiled by gcc without optimization, so that its branches are those of the conditions in the C. The trace of each file
must be that of the chart. A branch that no file takes is told with the part of the chart that its function is of, by the comment
above it."""
import gzip
import json
import os
import re
import subprocess
import tempfile
from collections import namedtuple

from chart_c import FOLDER as DRIVER, Failed, compile_driver, make_c, output_of, write

FLAGS = '-std=c99', '-O0', '--coverage'
NO_PART = 'no part of the chart alone'

# A function under its comment.
COMMENTED = re.compile(r'^/\*\s+((?:(?!\*/).)*?)\s+\*/\n(?:static\s+)?\w+\s+(\w+)\([^;{]*\)\n\{$', re.DOTALL | re.MULTILINE)

# A line of the C with branches that aren't taken: how many of how many, its text, the function, and the part of the chart that the
# function is of.
Missed = namedtuple('Missed', 'line missed of text function part')

# How many branches there are, how many are taken, and the lines with those that aren't.
Branches = namedtuple('Branches', 'all taken missed')


def branches_of(program, text, files):
    """The branches of the C of a chart text that event files take. Each file has its bytes and the trace that is wanted."""
    with tempfile.TemporaryDirectory() as folder:
        source = compiled(program, text, folder)
        for number, (events, trace) in enumerate(files):
            if run(events, folder) != trace:
                raise Failed('the C has another trace than the chart over file %d' % (number + 1))
        return told(folder, source)


def compiled(program, text, folder):
    """Compiles the C of a chart text as the program `tested`, which counts what its runs take, and gives the name of the source."""
    source, table = make_c(program, text, folder)
    output_of(['gcc', *FLAGS, '-c', source, '-o', 'chart.o'], folder)
    output_of(['gcc', '-std=c99', '-I', DRIVER, '-c', table, '-o', 'table.o'], folder)
    output_of(['gcc', '--coverage', 'chart.o', 'table.o', compile_driver(folder, 'gcc'), '-o', 'tested'], folder)
    return source


def run(events, folder):
    """The trace of that program over an event file."""
    name = write(folder, 'events', events)
    done = subprocess.run([os.path.join(folder, 'tested'), name], cwd=folder, capture_output=True, check=False)
    return done.stdout.decode('latin-1')


def counted(folder, source):
    """What gcov has counted of the source: its functions, and its lines with their branches."""
    output_of(['gcov', '--json-format', '--branch-probabilities', '--branch-counts', 'chart.o'], folder)
    name = next(each for each in os.listdir(folder) if each.endswith('.gcov.json.gz'))
    with gzip.open(os.path.join(folder, name)) as file:
        found = json.load(file)
    return next(each for each in found['files'] if os.path.basename(each['file']) == source)


def told(folder, source):
    """What gcov tells of the source."""
    of_source = counted(folder, source)
    with open(os.path.join(folder, source), encoding='latin-1') as file:
        content = file.read()
    lines, parts = content.split('\n'), parts_of(content)
    missed = []
    for line in of_source['lines']:
        left = sum(1 for branch in line['branches'] if not branch['count'])
        if left:
            number, function = line['line_number'], line.get('function_name', '')
            missed.append(Missed(number, left, len(line['branches']), statement_at(lines, number), function,
                                 parts.get(function, NO_PART)))
    count = sum(len(line['branches']) for line in of_source['lines'])
    return Branches(count, count - sum(each.missed for each in missed), missed)


def parts_of(content):
    """The comment above each function that has one, by the name of the function."""
    return {name: ' '.join(comment.split()) for comment, name in COMMENTED.findall(content.replace('\\\n', ''))}


def statement_at(lines, number):
    """The statement that begins at a line: a long one is broken at blanks."""
    last = number
    while last < len(lines) and not lines[last - 1].endswith((';', '{', '}')):
        last += 1
    return ' '.join(' '.join(lines[number - 1:last]).split())


def lines_of(branches):
    """The branches in words."""
    yield '%d of %d branches of the C' % (branches.taken, branches.all)
    for each in branches.missed:
        yield '  line %d, %d of %d: %s of %s: %s' % (each.line, each.missed, each.of, each.text, each.function, each.part)


def json_of(branches):
    return {'taken': branches.taken, 'all': branches.all, 'missed': [each._asdict() for each in branches.missed]}
