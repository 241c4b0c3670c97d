"""The chart, and the C that chart_to_c writes of it, for the commands that need both."""
import sys

import common                                # noqa: F401, which finds the folder checks
from chart_check import check_chart
from chart_syntax import Fault
from common.chart_sum import sum_of_text
from common.program import REFUSED, find_chart_to_c, read_file, run
from product.interface import Interface, NoHeader


class Refused(Exception):
    """What is said of a file that can't be used."""


def read_chart(name):
    """The chart of a file, and its sum. Refused where it has a fault."""
    text = read_file(name)
    try:
        return check_chart(text), sum_of_text(text)
    except Fault as fault:
        raise Refused('%s\n%s: the chart is refused; flowwhy says why' % (fault.written(text), name)) from None


def made(program, what, name, options=()):
    """What chart_to_c writes: the header or the source. Refused where it writes none."""
    ran = run(program, [what, *options, name])
    if ran.status:
        raise Refused('%s %s %s: %s' % (program, what, name, ran.line))
    return ran.out.decode('latin-1')


def interface_of(name, header, chart_to_c):
    """What a header offers: the named one, or that of chart_to_c."""
    return Interface(read_file(header) if header else made(find_chart_to_c(chart_to_c), 'header', name))


def refusing(work):
    """Does some work, and gives its status, or that of a refusal after its line."""
    try:
        return work()
    except (Refused, NoHeader) as refused:
        sys.stderr.write('%s%s\n' % ('the header isn\'t the chart\'s: ' if isinstance(refused, NoHeader) else '', refused))
        return REFUSED
