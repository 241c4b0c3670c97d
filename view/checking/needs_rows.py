"""What flowreq writes of the charts of needs_table.txt.

`chart TEXT` is an accepted chart, `source TEXT` the C with its comments, where there is any, and `coverage TEXT` the file that
flowtests writes of a folder of tests. An answer has a line for each row of the matrix, with ` | ` between what stands in it, or for
each tie that is wrong its place and what is said of it."""
import os
import tempfile

from checking import text_of
from common.places import line_and_column
from common.program import read_file, run
from layout.written import formatted
from needs.functions import functions_of, says
from needs.matrix import rows_of
from needs.page import requirements_in_page
from needs.tests import NotCoverage, covered
from needs.ties import ties_of

TABLE = 'needs_table.txt'
# The functions that are of no part of a chart.
OF_NONE = ('whether a state is active and has no active child', 'the first values of all data', 'the start', 'a reaction',
           'the end mark', 'the greatest whole number that is at most a / b')
EXAMPLES = ('motor/motor', 'net/monitor', 'recipes/to_history', 'semantics/default_path')


def needs_answer(block):
    """The lines of a row."""
    text, coverage = text_of(block, 'chart'), text_of(block, 'coverage')
    ties = ties_of(text)
    if ties.wrong:
        return ['%d:%d %s %s' % (*line_and_column(text, each.offset), each.kind, each.text) for each in ties.wrong]
    try:
        places = places_of(text, coverage) if coverage is not None else []
    except NotCoverage as fault:
        return [str(fault).partition('coverage.json: ')[2]]
    rows = rows_of('chart', text, ties, functions_of(text_of(block, 'source') or ''), places)
    lines = [line_of(each) for each in rows]
    same = [row[0] for row in rows_of('chart', formatted(text), ties_of(formatted(text)), [], [])]
    if sorted(same) != sorted(row[0] for row in rows):
        lines.append('the layout has other ties')
    page = requirements_in_page(ties.model)
    if any('<b>%s</b>' % each[0] not in page for each in rows if each[0]) or bool(page) != bool(ties.names):
        lines.append('the page has other ties')
    return lines


def line_of(row):
    """A row in words, without the sum of its chart."""
    return ' | '.join((row.requirement, row.chart, *row[row._fields.index('kind'):])).rstrip()


def places_of(text, coverage):
    with tempfile.TemporaryDirectory() as folder:
        with open(os.path.join(folder, 'the.coverage.json'), 'w', encoding='latin-1') as file:
            file.write(coverage)
        return covered(folder, '../the.chart', text)


def wrong_functions(chart_to_c, examples):
    """The functions of the C of some examples that no part is told by, and how many were looked at."""
    lines, seen = [], 0
    for name in EXAMPLES:
        path = examples[name]
        parts = ties_of(read_file(path)).parts
        wanted = [each for part in parts for each in part.functions]
        for words, function, _ in functions_of(run(chart_to_c, ['source', path]).out.decode('latin-1')):
            seen += 1
            if words not in OF_NONE and not any(says(words, each) for each in wanted):
                lines.append('%s: the function %s is of no part: %s' % (name, function, words))
    return lines if seen else ['no function'], seen
