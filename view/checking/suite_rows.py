"""What flowtests finds for the charts of suite_table.txt: the counts, and each goal that isn't covered with why."""
from measure.suite import met_goals
from picture.chart_model import ChartModel
from suites.report import count_text, counts_of, rows_of
from suites.search import Search

TABLE = 'suite_table.txt'
SECONDS, SEED, LONGEST = 3, 1, 400
BOUNDS = 8, 10000


def suite_answer(block):
    """The lines of a row. The files must cover what the search found."""
    text = '\n'.join(block.values('chart'))
    search = Search(ChartModel(text), SECONDS, SEED, LONGEST, *BOUNDS)
    rows = rows_of(search.parts, search.machine, search.files, search.reasons.found)
    lost = [goal for goal in met_goals(search.parts.goals, search.finder.by_key)
            if not any(row.goal is goal and row.places for row in rows)]
    lines = [count_text(kind, *found) for kind, found in counts_of(rows).items()]
    lines += ['%s: %s: %s' % (row.goal.where, row.goal.what, row.reason) for row in rows if not row.places]
    return lines + ['%s: %s: was found, and no file covers it' % (goal.where, goal.what) for goal in lost]
