"""The charts and traces of the pages, against the examples that they name, and the examples of the warnings."""
import os
import re
import subprocess
import sys

from chart_check import check_chart
from chart_rules import run_rules
from common import CHECKOUT
from common.places import line_and_column
from common.program import read_file, run
from lint.warnings import IDLE, KINDS, warnings

SEMANTICS, CHART_TEXT, WARNINGS, TESTS = (os.path.join(CHECKOUT, 'docs', name) for name in (
    'SEMANTICS.md', 'CHART_TEXT.md', 'WARNINGS.md', 'TESTS.md'))
NAMED = re.compile(r'\(`(\w+)`\)')


def wrong_cases():
    """The cases of SEMANTICS whose chart or trace isn't that of the example that is named, and how many were looked at."""
    lines, seen = [], 0
    for part in re.split(r'\n(?=\*\*)', read_file(SEMANTICS)):
        name, block = re.match(r'\*\*.*?\*\*\s+\(`(\w+)`\)', part, re.S), re.search(r'```\n(chart .*?)```', part, re.S)
        if name and block:
            seen += 1
            stem = os.path.join(CHECKOUT, 'examples', 'semantics', name[1])
            chart, _, trace = block[1].partition('\n\n')
            if chart + '\n' != read_file(stem + '.chart') or trace != read_file(stem + '.trace'):
                lines.append('docs/SEMANTICS.md: the chart or the trace of %s isn\'t that of the example' % name[1])
    return lines or ([] if seen else ['docs/SEMANTICS.md: no case']), seen


def wrong_recipes(program):
    """The recipes whose trace isn't that of the rules or of the program, and the names of CHART_TEXT that no recipe has."""
    folder = os.path.join(CHECKOUT, 'examples', 'recipes')
    names = sorted(name[:-len('.chart')] for name in os.listdir(folder) if name.endswith('.chart'))
    text = read_file(CHART_TEXT)
    said = set(NAMED.findall(text))
    lines = ['docs/CHART_TEXT.md: no recipe is named %s' % name for name in sorted(said - set(names))]
    lines += ['examples/recipes: docs/CHART_TEXT.md doesn\'t name %s' % name for name in names if name not in said]
    for name in names:
        stem = os.path.join(folder, name)
        trace = read_file(stem + '.trace')
        by_rules = run_rules(read_file(stem + '.chart'), read_file(stem + '.events').encode('latin-1'))
        by_program = run(program, ['rules', stem + '.chart', stem + '.events'])
        if not trace or by_rules.out != trace or by_program.out.decode('latin-1') != trace:
            lines.append('examples/recipes: %s has another trace' % name)
    return lines or ([] if names else ['examples/recipes: no chart']), len(names)


def wrong_warnings():
    """The kinds of docs/WARNINGS.md whose example hasn't the warnings that it shows, or has some of the kind left where a comment
    allows it in their lines, and how many were looked at. Each kind has a section."""
    sections = {part.partition('\n')[0]: part for part in re.split(r'(?m)^### ', read_file(WARNINGS))[1:]}
    lines = ['docs/WARNINGS.md: no section %s' % kind for kind in (*KINDS, IDLE) if kind not in sections]
    for kind, part in sections.items():
        block = re.search(r'```\n(chart .*?)\n\n(.*?)\n```', part, re.S)
        if not block:
            lines.append('docs/WARNINGS.md: %s has no example' % kind)
            continue
        text = block[1] + '\n'
        told = warnings(text, check_chart(text))
        heads = ['%d:%d: warning: %s: %s' % (*line_and_column(text, each.offset), each.kind, each.text) for each in told]
        if heads != block[2].split('\n') or not any(each.kind == kind for each in told):
            lines.append('docs/WARNINGS.md: the example of %s has %s' % (kind, heads))
        elif kind != IDLE and any(each.kind in (kind, IDLE) for each in left_where_allowed(text, kind, told)):
            lines.append('docs/WARNINGS.md: a comment doesn\'t silence %s' % kind)
    return lines, len(sections)


def left_where_allowed(text, kind, told):
    """The warnings on a text in which a comment allows a kind in each line that has one of it."""
    lines = text.split('\n')
    for number in {line_and_column(text, each.offset)[0] for each in told if each.kind == kind}:
        lines[number - 1] += '  // flowlint: allow ' + kind
    allowed = '\n'.join(lines)
    return warnings(allowed, check_chart(allowed))


def wrong_calls_of_tests():
    """The calls of flowtests that docs/TESTS.md shows and that write something else, and how many there are. How long a search took
    isn't compared."""
    lines, seen = [], 0
    for block in re.findall(r'```\n\$ (view/flowtests .*?)```', read_file(TESTS), re.S):
        call, _, wanted = block.partition('\n')
        seen += 1
        environment = {name: value for name, value in os.environ.items() if name != 'FLOWC'}
        got = subprocess.run([sys.executable, *call.split(' ')], cwd=CHECKOUT, env=environment, capture_output=True, check=False)
        if without_seconds(got.stdout.decode('latin-1')) != without_seconds(wanted):
            lines.append('docs/TESTS.md: `%s` writes something else' % call)
    return lines or ([] if seen else ['docs/TESTS.md: no call']), seen


def without_seconds(text):
    return re.sub(r'[0-9.]+ of 30 seconds', '', text)
