#!/usr/bin/env python3
"""Measures which branches of the C of charts no run takes, and of what kind the tests are that decide them.

    python3 bench/branches.py CHART_TO_C [CHART_OR_FOLDER ..] [--generated N ..] [--files F] [--lines L] [--seed S]
                                         [--name] [--json] [--analyze] [--write]

CHART_TO_C is a built program. Charts are those that are named, all of the folders that are named, and the generated cases N; where
nothing is named, all of examples. The C of each is compiled by `gcc --coverage -O0` and runs over the event file beside the chart,
of a generated case the first 1,000 events, over that of long_events.py where there is one, and over F files of L lines that are
drawn from the seed S: events of the chart, and inputs within their ranges. Each trace must be that of the rules; a difference is an
error. Then a row tells what gcov counted: lines, functions, branches, and those that no run took, by their kinds.

With --name a line follows for each branch that no run took: its line in the C, its kind, the test, and whether this was never true
or never false, never the other way, as before a `?`, or never asked, where no run came to it; and its function with the part of the
chart that the comment above it names. With --json all of this is written as JSON. With --analyze `clang --analyze` and `cppcheck
--enable=all` read the C, as checks/tables/misra.py calls them, and a second table has how often they tell of stores that nothing
reads, of conditions whose answer is known, and of code that nothing reaches. With --write the tables of all examples are put into
README.md, between the marks that stand there.

A test is what stands between the `&&`, the `||` and the `?` of a statement. Its kind is found by its text, by the first that fits:

    clip, divisor, bound, refusal    where it leads to a fault, by the fault: overflow; zero; depth and steps; event
    divisor     in the function of a quotient, which rounds it
    clip        in an assignment with a `?`: a number saturates or wraps
    refusal     it reads `ready` or `fault`: whether a run goes on
    bound       it reads `used`, `outs`, `noted`, `note`, the depth or the base: steps, outputs and notes
    state       it reads `child_N`, `last_N` or `flags_N`, the home, or what a test of a state gave
    event       it reads the event
    result      it reads what a call returned
    guard       it reads data, or a local that was reckoned of data
    other       it reads nothing of these"""
import glob
import json
import os
import random
import re
import sys
import tempfile
from collections import Counter
from typing import Dict, Iterator, List, NamedTuple, Optional, Tuple

import long_events
from measuring import HERE                  # which finds the modules of checks too

sys.path += [os.path.join(HERE, os.pardir, folder) for folder in ('view', os.path.join('checks', 'random'))]

import chart_c
import chart_rules as rules
import misra
from chart_check import check_chart
from programs import parser
from random_charts import event_line
from suites.c_branches import NO_PART, compiled, counted, parts_of, run

EXAMPLES = os.path.join(HERE, os.pardir, 'examples', '*', '*.chart')
README = os.path.join(HERE, 'README.md')
KINDS = 'event', 'state', 'guard', 'clip', 'bound', 'divisor', 'refusal', 'result', 'other'
OF_FAULT = {'DEPTH': 'bound', 'STEPS': 'bound', 'OVERFLOW': 'clip', 'ZERO': 'divisor', 'EVENT': 'refusal'}
# What a test reads, by its text.
READS = [(kind, re.compile(form)) for kind, form in (
    ('refusal', r'\bm->(?:ready|fault)\b'),
    ('bound', r'\bm->(?:used|outs|noted|note)\b|\b(?:depth|base)\b'),
    ('state', r'\bm->(?:child|last|flags)_\d+\b|\b(?:home|state|b_\d+)\b'),
    ('event', r'\bevent\b'),
    ('result', r'\bresult\b'),
    ('guard', r'\bm->(?:in|out|loc)_|\b[iu]\d+_\d+\b'))]
QUOTIENT = re.compile(r'_div\d+$')
COMMENT = re.compile(r'/\*.*?\*/', re.DOTALL)
ENDS = re.compile(r'[;{}]$|^(?:case .*|default):$|^#|^$')
ASSIGNED = re.compile(r'^(?:m->)?\w+(?:\[.*?\])? = ')
HEAD = 'Chart', 'lines run', 'functions called', 'branches', 'taken', 'not taken'
# The messages of both tools, by what they tell of.
MESSAGES = {
    'stores that nothing reads': ('deadcode.DeadStores', 'unreadVariable', 'redundantAssignment', 'uselessAssignmentArg'),
    'conditions whose answer is known': ('knownConditionTrueFalse', 'identicalConditionAfterEarlyExit', 'duplicateValueTernary',
                                         'identicalInnerCondition', 'oppositeInnerCondition', 'duplicateExpression',
                                         'unsignedLessThanZero', 'multiCondition', 'duplicateCondition'),
    'code that nothing reaches': ('alpha.deadcode.UnreachableCode', 'unreachableCode', 'duplicateBreak')}


# ---- the tests of a source

class Statement(NamedTuple):
    """A statement, or the head of one, the kinds of its tests in the order in which they run, and what each gives on the way that
    leads on to what stands next."""
    text: str
    kinds: List[str]
    answers: List[Optional[bool]]


def split(content: str) -> Iterator[Tuple[int, str]]:
    """The statements of a source, each with the number of its first line. A long one goes on over several lines."""
    begin, words = 0, ''
    without = COMMENT.sub(lambda found: '\n' * found[0].count('\n'), content)
    for number, line in enumerate(without.split('\n'), 1):
        begin = begin if words else number
        words = ('%s %s' % (words, line.strip())).strip()
        if ENDS.search(words):
            if words:
                yield begin, words
            words = ''


def tests_of(text: str) -> List[str]:
    """The tests of a statement: what stands before each `&&`, `||` and `?`, and the last one, where it decides too."""
    parts = re.split(r'(&&|\|\||\?)', ASSIGNED.sub('', text))
    tests = parts[0:-1:2]
    is_last = re.match(r'(?:\} else )?(?:if|while|switch)\b', text) or parts[-2:-1] in (['&&'], ['||'])
    return tests + parts[-1:] if is_last else tests


def answers_of(text: str) -> List[Optional[bool]]:
    """What each test of a statement gives on the way that leads on to what stands next: true before `&&` and at the end, false
    before `||`; and the other way round where a group of tests with a `!` in front ends between. Before `?` it isn't known, since
    gcc may put what stands behind `:` first."""
    answers, groups, is_other = [], [[False, False]], False     # of each group that is open: whether it has a `!`, and an operator
    for found in re.finditer(r'(!?)\(|\)|&&|\|\||\?', text):
        if found[0].endswith('('):
            groups.append([found[1] == '!', False])
        elif found[0] == ')':
            is_other ^= all(groups.pop())
        else:
            answers.append(None if found[0] == '?' else (found[0] == '&&') ^ is_other)
            groups[-1][1], is_other = True, False
    return answers + [not is_other]


def kind_of(test: str) -> str:
    """The kind of a test by what it reads."""
    return next((kind for kind, form in READS if form.search(test)), 'other')


def kinds_of(text: str, behind: str, faults: Dict[str, str], is_quotient: bool) -> List[str]:
    """The kinds of the tests of a statement. What stands behind it tells whether it leads to a fault."""
    tests = tests_of(text)
    fault = re.match(r'm->fault = (\d+)u?;', behind)
    if fault and text.endswith('{'):
        return [faults[fault[1]]] * len(tests)
    if is_quotient:
        return ['divisor'] * len(tests)
    if ASSIGNED.match(text) and '?' in text:
        return ['clip'] * len(tests)
    return [kind_of(test) for test in tests]


def statements_of(content: str, header: str) -> Dict[int, Statement]:
    """The statements of a source, by the numbers of their first lines."""
    faults = {number: OF_FAULT.get(name, 'other') for name, number in re.findall(r'_FAULT_(\w+) = (\d+)', header)}
    found, is_quotient, all_of_them = {}, False, list(split(content))
    for (begin, text), (_, behind) in zip(all_of_them, all_of_them[1:] + [(0, '')]):
        head = re.match(r'(?:static )?(?:inline )?\w+ (\w+)\(.*\) \{$', text)
        is_quotient = bool(QUOTIENT.search(head[1])) if head else is_quotient
        found[begin] = Statement(text, kinds_of(text, behind, faults, is_quotient), answers_of(text))
    return found


# ---- what gcov counted

class Untaken(NamedTuple):
    """A branch that no run took, and what its test never was."""
    line: int
    kind: str
    function: str
    part: str
    test: str
    never: str


class Counts(NamedTuple):
    """What is counted of a chart: how many there are of each, how many of them ran, and the branches that didn't."""
    chart: str
    lines: int
    lines_run: int
    functions: int
    called: int
    branches: int
    untaken: List[Untaken]

    def taken(self) -> int:
        return self.branches - len(self.untaken)

    def by_kind(self) -> Counter:
        return Counter(each.kind for each in self.untaken)


def by_test(statement: Statement, branches: List[int]) -> Iterator[Tuple[str, str, str]]:
    """The kind and the text of the test of each branch of a statement that no run took, and what this test never was. gcov tells
    two branches of a test, in the order of the tests, and first the one that leads on to what stands next. Where there is another
    number of them, as of a `switch` or of what gcc reckons without a jump, the kind is that of the first test."""
    kinds, text = statement.kinds or ['other'], statement.text.rstrip(' {;')
    if len(branches) != 2 * len(kinds):
        yield from [(kinds[0], text, 'the other way' if any(branches) else 'asked')] * branches.count(0)
        return
    for place, kind in enumerate(kinds):
        counts = branches[2 * place:2 * place + 2]
        which = ', test %d of %d' % (place + 1, len(kinds)) if len(kinds) > 1 else ''
        yield from [(kind, text + which, never(statement.answers[place], *counts))] * counts.count(0)


def never(answer: Optional[bool], onward: int, elsewhere: int) -> str:
    """What a test never was that gives this answer where it leads on, by how often it led on and elsewhere."""
    if not onward and not elsewhere:
        return 'asked'
    if answer is None:
        return 'the other way'
    return 'true' if answer != bool(onward) else 'false'


def untaken_of(found: dict, content: str, header: str) -> List[Untaken]:
    """The branches of a source that no run took."""
    statements, parts = statements_of(content, header), parts_of(content)
    begins = sorted(statements)
    branches, functions = {}, {}
    for line in found['lines']:
        if line['branches']:
            begin = max(each for each in begins if each <= line['line_number'])
            branches.setdefault(begin, []).extend(each['count'] for each in line['branches'])
            functions[begin] = line.get('function_name', '')
    return [Untaken(begin, kind, functions[begin], parts.get(functions[begin], NO_PART), text, never)
            for begin in sorted(branches) for kind, text, never in by_test(statements[begin], branches[begin])]


def read(folder: str, name: str) -> str:
    with open(os.path.join(folder, name), encoding='latin-1') as file:
        return file.read()


def counts_of(chart: str, folder: str, source: str) -> Counts:
    """What gcov counted of a source."""
    found = counted(folder, source)
    untaken = untaken_of(found, read(folder, source), read(folder, source.removesuffix('.c') + '.h'))
    lines = [each['count'] > 0 for each in found['lines']]
    functions = [each['execution_count'] > 0 for each in found['functions']]
    return Counts(chart, len(lines), sum(lines), len(functions), sum(functions),
                  sum(len(each['branches']) for each in found['lines']), untaken)


# ---- the charts and their runs

class Alone:
    """A chart without an event file."""

    def __init__(self, path: str):
        self.name = path

    def texts(self):
        with open(self.name, 'rb') as file:
            return file.read().decode('latin-1'), '', None


def case_of(path: str):
    """A chart by its path, with what is kept beside it."""
    return chart_c.Kept(path) if os.path.exists(path.removesuffix('.chart') + '.trace') else Alone(path)


def cases_of(options) -> list:
    """The charts that are named, or all of examples."""
    paths = [path for word in options.charts
             for path in (sorted(glob.glob(os.path.join(word, '*.chart'))) if os.path.isdir(word) else [word])]
    if not options.charts and not options.generated:
        paths = sorted(glob.glob(EXAMPLES))
    return [*map(case_of, paths), *map(chart_c.Generated, options.generated)]


def name_of(case) -> str:
    return os.path.basename(case.name).removesuffix('.chart')


def event_files(case, text: str, options) -> Iterator[str]:
    """The event files by which a chart runs beside its own: the long one, where there is one, and those that are drawn."""
    if name_of(case) in long_events.CHARTS:
        yield long_events.text_of(name_of(case))
    draws, chart = random.Random('branches %s %s' % (options.seed, name_of(case))), check_chart(text)
    for _ in range(options.files):
        yield ''.join(event_line(draws, chart, 0) + '\n' for _ in range(options.lines))


def measured(case, options) -> Tuple[Counts, Counter]:
    """What is counted of a chart, and, where that is wanted, what both tools tell of its C."""
    text, events, expected = case.texts()
    with tempfile.TemporaryDirectory() as folder:
        source = compiled(options.program, text, folder)
        files = [(events, expected.out)] if expected else []
        files += [(each, rules.run_rules(text, each.encode('latin-1')).out) for each in event_files(case, text, options)]
        for number, (each, trace) in enumerate(files):
            if run(each, folder) != trace:
                raise chart_c.Failed('%s: the C has another trace than the chart over file %d' % (case.name, number + 1))
        path = os.path.join(folder, 'chart')
        return counts_of(name_of(case), folder, source), misra.read(path, options.program).found if options.analyze else Counter()


# ---- what is written

def head_of(all_counts: List[Counts]) -> List[str]:
    """The head of the table, which has the kind `other` only where a test is of none of the others."""
    kinds = [kind for kind in KINDS if kind != 'other' or any(each.by_kind()[kind] for each in all_counts)]
    return ['| %s |' % ' | '.join([*HEAD, *('`%s`' % kind for kind in kinds)]), '|%s' % ('---|' * (len(HEAD) + len(kinds)))]


def row(counts: Counts, columns: int) -> str:
    """The row of a chart, with so many columns."""
    cells = [counts.chart, '%s of %s' % (shown(counts.lines_run), shown(counts.lines)),
             '%s of %s' % (shown(counts.called), shown(counts.functions)),
             *map(shown, (counts.branches, counts.taken(), len(counts.untaken)))]
    return '| %s |' % ' | '.join((cells + [shown(counts.by_kind()[kind]) for kind in KINDS])[:columns])


def shown(number: int) -> str:
    return '{:,}'.format(number)


def sum_of(all_counts: List[Counts]) -> Counts:
    """The sum of all rows."""
    numbers = [sum(each[place] for each in all_counts) for place in range(1, 6)]
    return Counts('all', *numbers, [each for counts in all_counts for each in counts.untaken])


def table_of(all_counts: List[Counts]) -> List[str]:
    """The table of all charts."""
    head = head_of(all_counts)
    columns = head[0].count('|') - 1
    rows = [row(each, columns) for each in all_counts]
    return head + rows + ([row(sum_of(all_counts), columns)] if len(rows) > 1 else [])


def messages_of(told: List[Counter]) -> List[str]:
    """The table of what both tools tell: a row for each message that comes."""
    lines = ['| Told of | Message | times | in charts |', '|---|---|---|---|']
    for what, messages in MESSAGES.items():
        for each in messages:
            times = [found[each] for found in told if found[each]]
            lines += ['| %s | `%s` | %s | %d |' % (what, each, shown(sum(times)), len(times))] if times else []
    return lines


def named(counts: Counts) -> Iterator[str]:
    """The branches of a chart that no run took, in words."""
    for each in counts.untaken:
        yield '%s, line %d, %s: %s: never %s; of %s: %s' % (
            counts.chart, each.line, each.kind, each.test, each.never, each.function, each.part)


def json_of(counts: Counts, told: Counter) -> dict:
    return {**counts._asdict(), 'untaken': [each._asdict() for each in counts.untaken], 'messages': dict(told)}


def write_between(mark: str, lines: List[str]) -> None:
    """Puts lines between two marks of the page."""
    with open(README, encoding='utf-8') as file:
        text = file.read()
    begin, end = ('<!-- %s of %s of branches.py -->\n' % (word, mark) for word in ('begin', 'end'))
    before, _, behind = text.partition(begin)
    _, found, after = behind.partition(end)
    if not found:
        raise chart_c.Failed('README.md has no marks of %s' % mark)
    with open(README, 'w', encoding='utf-8') as file:
        file.write(before + begin + ''.join(line + '\n' for line in lines) + end + after)


def write_all(all_counts: List[Counts], told: List[Counter], options) -> None:
    """Writes what is wanted."""
    if options.json:
        print(json.dumps([json_of(*each) for each in zip(all_counts, told)], indent=1))
        return
    tables = {'branches': table_of(all_counts), **({'messages': messages_of(told)} if options.analyze else {})}
    for mark, lines in tables.items():
        print(''.join(line + '\n' for line in lines))
        if options.write:
            write_between(mark, lines)
    if options.name:
        print(''.join(line + '\n' for counts in all_counts for line in named(counts)), end='')


def main(words: List[str]) -> int:
    """Measures charts, and gives the status."""
    reader = parser(__doc__)
    reader.add_argument('program', metavar='CHART_TO_C', type=os.path.abspath)
    reader.add_argument('charts', metavar='CHART_OR_FOLDER', nargs='*')
    reader.add_argument('--generated', metavar='N', nargs='+', type=int, default=[])
    for option, number in (('--files', 60), ('--lines', 32)):
        reader.add_argument(option, type=int, default=number)
    reader.add_argument('--seed', default='1')
    for option in ('--name', '--json', '--analyze', '--write'):
        reader.add_argument(option, action='store_true')
    options = reader.parse_args(words)
    if options.write and (options.charts or options.generated):
        reader.error('--write is for all examples')
    found = [measured(case, options) for case in cases_of(options)]
    write_all([counts for counts, _ in found], [told for _, told in found], options)
    return 0


if __name__ == '__main__':
    sys.exit(rules.with_deep_calls(lambda: main(sys.argv[1:])))
