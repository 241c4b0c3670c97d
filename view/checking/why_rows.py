"""What flowwhy says of the texts of why_table.txt.

`chart TEXT`, `code TEXT` and `events TEXT` are the files. An answer has flowc's own line, the head of each message, and what is
to be written; with the part `whole` it has all lines."""
import os
import tempfile

from checking import text_of
from chart_syntax import RESERVED, SYMBOLS, Fault, read_chart
from why.answer import answer
from why.asked import asked_at

TABLE = 'why_table.txt'


def why_answer(program, block):
    """The lines of a row."""
    with tempfile.TemporaryDirectory() as folder:
        names = []
        for word in ('chart', 'code', 'events'):
            text = text_of(block, word)
            if text is not None:
                names.append(os.path.join(folder, word))
                with open(names[-1], 'wb') as file:
                    file.write(text.encode('latin-1'))
        with open(os.devnull, 'wb') as nowhere:
            ran, lines = answer(program, names, out=nowhere)
    lines = [line.replace(folder + os.sep, '').rstrip() for line in lines]
    if not block.values('whole'):
        lines = lines[:1] + [line for line in lines[1:] if ': error: ' in line or line.startswith(('  write: ', '  hint: '))]
    return ['status %d' % ran.status] + lines


# What may stand at a place, told by the reader, against what the reader accepts there when it is tried.
TRIED = {'name': 'N', 'number': '1', 'a type': 'bool', 'end': ''}


def wrong_expectations(text):
    """The kinds of tokens that are told to stand at the fault of a text and are refused there, or the other way round."""
    try:
        read_chart(text)
        return []
    except Fault as fault:
        if fault.number != 3:
            return []
        before = text[:fault.offset]
    asked = asked_at(text, len(before)).asked
    kinds = ['name', 'number', 'a type', *sorted(RESERVED), *SYMBOLS]
    return [kind for kind in kinds if (kind in asked) != continues(before, TRIED.get(kind, kind), kind, asked)]


def continues(before, token, kind, asked):
    """Whether the token may follow the text, by trying it. A type is a name: where any name may stand, none is looked for."""
    if kind == 'name' and 'a type' in asked or kind == 'a type' and 'name' in asked:
        return False
    try:
        read_chart(before + ' ' + token + ' ')
    except Fault as fault:
        return fault.number != 3 or fault.offset > len(before) + len(token)
    return True
