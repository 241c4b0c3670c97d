"""The check of flowwhy, flowlint and flowtrace: tables with their answers, and the examples."""
import os

import common                                # noqa: F401, which finds the folder checks
import tables

FOLDER = os.path.dirname(os.path.abspath(__file__))


class Wrong(Exception):
    """A table that is empty, cut, or not in its form."""


def blocks_of(name):
    """The blocks of a table, of which each has an answer."""
    with open(os.path.join(FOLDER, name), 'rb') as file:
        try:
            found = list(tables.blocks(file))
        except SystemExit as refused:
            raise Wrong('%s: %s' % (name, refused)) from refused
    empty = [each.name for each in found if not each.expected]
    if empty:
        raise Wrong('%s: the blocks %s have no answer' % (name, ', '.join(empty)))
    return found


def text_of(block, word):
    """The text of a part, a character for each byte, or None where there is none."""
    found = block.values(word)
    return tables.unescaped(found[0]).decode('latin-1') if found else None


def differences(block, got):
    """Lines that say how the answer to a block differs from the table."""
    if got == block.expected:
        return []
    lines = ['block %s' % block.name]
    lines += ['  table     %s' % line for line in block.expected if line not in got]
    lines += ['  answered  %s' % line for line in got if line not in block.expected]
    return lines if len(lines) > 1 else lines + ['  the lines differ in order or number']


def written_again(name, answer):
    """The text of a table with the answers that are given now. Its head is made anew."""
    with open(os.path.join(FOLDER, name), 'rb') as file:
        found = list(tables.blocks_of(tables.lines_of(file)))
    out = [tables.head(len(found), 'blocks')]
    for block in found:
        out += ['', 'block ' + block.name] + ['%s %s' % part for part in block.parts]
        out += ['> ' + line for line in answer(block)]
    return ''.join(line + '\n' for line in [*out, '', tables.END])
