"""Writes the canonical layout of a chart text with its comments."""
import re

import common                                # noqa: F401, which finds the folder checks
from chart_syntax import Fault, canonical_text, read_chart
from layout.comments import END, Belonging
from layout.parts import TAIL, keys_of, placed

STEP = '  '


def formatted(text):
    """The canonical text with the comments of a text. Fault where the text has one."""
    tree, parts = placed(text)
    keys, lines = keys_of(tree), canonical_text(tree).splitlines()
    comments = Belonging(text, parts).without(set(keys))
    out = []
    for key, line in zip(keys, lines, strict=True):
        blanks = line[:len(line) - len(line.lstrip())] + (STEP if key[0] == TAIL else '')
        out += [blanks + each.text for each in comments.before.get(key, [])]
        behind = comments.behind.get(key)
        out.append(line + ' ' + behind.text if behind else line)
    return ''.join(line + '\n' for line in out + [each.text for each in comments.before.get(END, [])])


def without_comments(text):
    """A text in this layout without its comments: lines of comments alone are gone."""
    lines = [line.partition('//') for line in text.split('\n')[:-1]]
    return ''.join(before.rstrip() + '\n' for before, slashes, _ in lines if before.strip() or not slashes)


def belonging(text):
    """The comments of each part in the order of the canonical text, and those of the end."""
    tree, parts = placed(text)
    keys = keys_of(tree)
    comments = Belonging(text, parts).without(set(keys))
    return [[each.text for each in comments.of(key)] for key in [*keys, END]]


def all_comments(text):
    """The comments of a text, sorted: in a text that can be read two slashes begin one wherever they stand."""
    return sorted(each.rstrip() for each in re.findall('//[^\n]*', text))


def wrong_layout(text, out):
    """What is wrong with the layout of a text, or None: without comments it must be the canonical text, each comment must be there
    and belong to what it belonged to, and it must be its own layout."""
    if without_comments(out) != canonical_text(read_chart(text)):
        return 'without its comments it isn\'t the canonical text'
    if all_comments(text) != all_comments(out):
        return 'the comments aren\'t those of the text'
    try:
        again, same = formatted(out), belonging(out) == belonging(text)
    except Fault as fault:
        return 'it is refused: %s' % fault.written(out)
    if not same:
        return 'a comment belongs to something else'
    return None if again == out else 'it has another layout itself'
