"""Runs the C that a built `chart_to_c` writes of random charts by the words of docs/C_SUBSET.md alone, and compares the traces.

    python3 checks/random/main.py c_runs --against CHART_TO_C --cases N

A case is a chart with an event file and bounds, made as random_compiled.py does, without the changes that a chart would be refused
for; one in some that isn't accepted counts as a case in which nothing is compared. c_runs.py runs its C, and the trace must be that
which chart_rules.py writes of the chart. A chart takes about half a second of a processor."""
import os
import random
from collections import Counter

import beside                                # noqa: F401, which finds the other folders of checks
import chart_rules as rules
import random_charts
from c_runs import compared, words_for
from campaign import Campaign, differ
from random_compiled import bounds_of


def add_options(reader):
    reader.add_argument('--against', metavar='CHART_TO_C', type=os.path.abspath, required=True)


def compare_chart(options, number, charts):
    """Compares a random chart, where it is accepted."""
    choices = random.Random('c %s %d' % (options.seed, number))
    drawn = random_charts.accepted_text(choices)
    charts['refused' if drawn is None else 'accepted'] += 1
    if drawn is None:
        return
    text, chart = drawn
    events, bounds = random_charts.event_file(choices, chart), bounds_of(choices)
    expected = rules.run_rules(text, events.encode('latin-1'), *bounds)
    lines = compared('chart %d' % number, options.against, text, events, expected, words_for(bounds))
    differ(options, 'c %s %d %d %d' % (options.seed, number, *bounds), lines,
           {'chart': text.encode('latin-1'), 'events': events.encode('latin-1')})


def campaign(options, _folder):
    """Compares charts; main.py calls it."""
    charts = Counter()
    return Campaign(lambda number: compare_chart(options, number, charts), lambda: {'charts': charts})
