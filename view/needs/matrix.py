"""The matrix of requirements, parts, functions and tests."""
import csv
import io
from typing import NamedTuple

from common.places import line_and_column
from needs.functions import names_for
from needs.tests import tests_for

HEAD = ('requirement', 'chart', 'sum', 'kind', 'part', 'text', 'place', 'functions', 'tests')


class Row(NamedTuple):
    """A requirement and a part that has it; either may be missing."""
    requirement: str
    chart: str
    sum: str = ''
    kind: str = ''
    part: str = ''
    text: str = ''
    place: str = ''
    functions: str = ''
    tests: str = ''


def rows_of(name, text, ties, functions, places):
    """The rows of a chart: those of its requirements, and then those of parts that shall have one and have none."""
    found = [row(requirement, name, text, ties, part, functions, places)
             for requirement, parts in ties.requirements().items() for part in parts]
    return found + [row('', name, text, ties, part, functions, places) for part in ties.without()]


def row(requirement, name, text, ties, part, functions, places):
    place = '%s:%d:%d' % (name, *line_and_column(text, part.first))
    return Row(requirement, ties.model.name, ties.model.sum, part.kind, part.name, part.text, place, ' '.join(names_for(part, functions)),
               ' '.join(tests_for(part, places)))


def missing(wanted, rows):
    """The rows of requirements that no part has."""
    known = {each.requirement for each in rows}
    return [Row(each, '') for each in wanted if each not in known]


def csv_text(rows):
    """The rows as a file of values with commas between them, as RFC 4180 has it, but with ends of lines of one byte."""
    out = io.StringIO()
    writer = csv.writer(out, lineterminator='\n')
    writer.writerow(HEAD)
    writer.writerows(rows)
    return out.getvalue()


def summary(rows, has_tests):
    """What the matrix has, in words."""
    tied = {(each.chart, each.place) for each in rows if each.requirement and each.part}
    none = [each for each in rows if not each.requirement]
    names = dict.fromkeys(each.requirement for each in rows if each.requirement and each.part)
    lines = ['%d requirement%s, %d part%s tied' % (len(names), 's' * (len(names) != 1), len(tied), 's' * (len(tied) != 1))]
    lines += ['%s: the %s %s has no requirement' % (each.place, each.kind, each.part) for each in none]
    lines += ['%s: no part has this requirement' % each.requirement for each in rows if not each.part]
    if has_tests:
        covered = {each.requirement for each in rows if each.tests}
        lines += ['%s: no test covers a part of it' % name for name in names if name not in covered]
    return lines
