"""What the tests of a folder cover, as flowtests writes it to the file `NAME.coverage.json` of the folder, where NAME is that of
the chart's file.

The file is an object. Its list `goals` has an object for each thing that there is to cover, with its place in the chart as `line`
and `column`, which count from 1, and the list `covered` of the places at which it comes, each an object whose `events` names the
event file. What else is there isn't read."""
import json
import os

from common.places import offset_of
from common.program import read_file


class NotCoverage(Exception):
    """The file isn't in its form; the text says why."""


def covered(folder, chart, text):
    """The places of the text of a chart's file at which something is covered, each with the names of the event files."""
    stem = os.path.splitext(os.path.basename(chart))[0]
    name = os.path.join(folder, stem + '.coverage.json')
    try:
        goals = json.loads(read_file(name))['goals']
        return [(offset_of(text, each['line'], each['column']), [place['events'] for place in each['covered']]) for each in goals]
    except (ValueError, KeyError, TypeError) as fault:
        raise NotCoverage('%s: %r; view/README.md has the form' % (name, fault)) from None


def tests_for(part, places):
    """The names of the tests in which something of a part comes, each once."""
    return list(dict.fromkeys(name for at, names in places if part.first <= at < part.end for name in names))
