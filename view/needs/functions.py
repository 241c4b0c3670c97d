"""The functions of a chart's C, by the comments above them.

A function whose words end with `and what is equal to it` also serves parts that are done alike, whose words stand nowhere."""
import re

import common                                # noqa: F401, which finds the folder checks
from chart_check import Datum

FUNCTION = re.compile(r'/\* ([^*]*) \*/\n(?:static )?\w+ (\w+)\([^)]*\)\n\{\n(.*?)\n\}\n', re.DOTALL)
FIELD = {'input': 'in', 'output': 'out', 'local': 'loc'}


def functions_of(source):
    """The functions of a source, each as its words, its name and its body."""
    return [(' '.join(found[1].split()), found[2], found[3]) for found in FUNCTION.finditer(source)]


def names_for(part, functions):
    """The names of the functions that do a part of the chart, or that read or store a datum."""
    if isinstance(part.thing, Datum):
        field = re.compile(r'->%s_%s\b' % (FIELD[part.thing.kind], part.thing.name))
        return [name for _, name, body in functions if field.search(body)]
    return [name for words, name, _ in functions if any(says(words, wanted) for wanted in part.functions)]


def says(words, wanted):
    """Whether the words of a function are of a part, by words that the part is told by."""
    at = words.find(wanted)
    return at >= 0 and (wanted.endswith(' ') or not re.match(r'[\w/]', words[at + len(wanted):]))
