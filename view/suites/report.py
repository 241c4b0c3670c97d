"""What covers what, as text and as JSON."""
from collections import namedtuple

from common.places import line_and_column, place_text
from measure.covered import VECTOR
from measure.pairs import pairs_of
from measure.parts import KINDS, PAIR, PLURALS
from measure.suite import evaluations_of
from suites.reasons import NOT_FOUND

# Where a goal is covered: a file by its number, and its line, where 0 is the start.
Place = namedtuple('Place', 'file line')

# A goal with the places that cover it, of which a pair of evaluations has two, or with the reason why none does.
Row = namedtuple('Row', 'goal places reason')


def rows_of(parts, machine, files, reasons):
    """A row for each goal of a chart, by the files as lists of lines."""
    places = {}
    for number, lines in enumerate(files):
        for line, node in enumerate(machine.run(lines).nodes()):
            for key in node.noted:
                places.setdefault(key, Place(number, line))
    evaluations = evaluations_of(places)
    return [row_of(goal, places, evaluations, reasons) for goal in parts.goals]


def row_of(goal, places, evaluations, reasons):
    if goal.kind == PAIR:
        pairs = [[places[VECTOR, goal.key[1], *one] for one in pair]
                 for pair in pairs_of(goal.key[2], evaluations.get(goal.key[1], []))]
        found = min(pairs, default=[])
    else:
        found = [places[goal.key]] if goal.key in places else []
    return Row(goal, found, None if found else reasons.get(goal.key, NOT_FOUND))


def counts_of(rows):
    """For each kind: how many goals are covered, how many can't come, and how many there are."""
    found = {}
    for kind in KINDS:
        of_kind = [row for row in rows if row.goal.kind == kind]
        if of_kind:
            found[kind] = (sum(1 for row in of_kind if row.places),
                           sum(1 for row in of_kind if not row.places and row.reason != NOT_FOUND), len(of_kind))
    return found


def count_text(kind, came, never, all_):
    """`3 of 4 states, 1 can't come`."""
    return '%d of %d %s%s' % (came, all_, PLURALS[kind], ", %d can't come" % never if never else '')


def report_text(text, files, rows, notes):
    """The report. A file has a name and its lines; notes stand at its beginning."""
    lines = list(notes)
    lines += ['%s: %d line%s' % (name, len(each), '' if len(each) == 1 else 's') for name, each in files]
    lines += [count_text(kind, *found) for kind, found in counts_of(rows).items()]
    for title, some in (('Covered', [row for row in rows if row.places]),
                        ('Not covered', [row for row in rows if not row.places])):
        if some:
            lines += ['', title]
        for row in some:
            where = ' and '.join(place_name(files, place) for place in row.places) or row.reason
            lines.append('  %s %s: %s: %s' % (place_text(text, row.goal.at), row.goal.where, row.goal.what, where))
    return ''.join(line + '\n' for line in lines)


def place_name(files, place):
    return files[place.file][0] + (' line %d' % place.line if place.line else ' at the start')


def report_json(text, files, rows, how):
    """The report as what JSON has, with how it was made."""
    return {
        **how,
        'files': [{'events': name, 'lines': len(lines)} for name, lines in files],
        'counts': {kind: dict(zip(('covered', 'impossible', 'all'), found)) for kind, found in counts_of(rows).items()},
        'goals': [goal_json(text, files, row) for row in rows],
    }


def goal_json(text, files, row):
    line, column = line_and_column(text, row.goal.at)
    found = {'kind': row.goal.kind, 'line': line, 'column': column, 'part': row.goal.where, 'goal': row.goal.what,
             'covered': [{'events': files[place.file][0], 'line': place.line} for place in row.places]}
    if not row.places:
        found['reason'] = row.reason
        found['found'] = 'no' if row.reason == NOT_FOUND else 'impossible'
    return found
