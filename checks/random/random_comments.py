"""Holds the comments of the C that a built `chart_to_c` writes of random charts against what its functions are called with.

    python3 checks/random/main.py comments --against CHART_TO_C --cases N [--largest BYTES] [--events E]

A case is a chart with bounds, made as random_c_runs.py makes them; of one that isn't accepted, or of more than BYTES bytes, nothing
is tried. comments.py says how its comments are tried. A chart takes about a second of a processor."""
import random
from collections import Counter

import beside                                # noqa: F401, which finds the other folders of checks
import comments
import random_charts
from campaign import Campaign, differ
from random_compiled import bounds_of


def add_options(reader):
    comments.add_options(reader)
    reader.add_argument('--largest', metavar='BYTES', type=int, default=0)


def compare_chart(options, comparison, number, met):
    """Tries a random chart, where it is accepted and isn't too long."""
    choices = random.Random('c %s %d' % (options.seed, number))
    drawn = random_charts.accepted_text(choices, options.largest)
    if drawn is None:
        return
    text, _ = drawn
    bounds = bounds_of(choices)
    lines, counts = comparison.compared('chart %d' % number, text, bounds, choices.randrange(1, 2 ** 63))
    met.update(counts)
    differ(options, 'c %s %d %d %d' % (options.seed, number, *bounds), lines, {'chart': text.encode('latin-1')})


def campaign(options, folder):
    """Tries charts; main.py calls it."""
    comparison, met = comments.Comparison(options, folder), Counter()
    return Campaign(lambda number: compare_chart(options, comparison, number, met), lambda: {'comments': met})
