"""Messages with a place in a file, in the form that editors read, with the line of the source and a mark below it."""
import re
from typing import NamedTuple, Optional

WIDEST = 120                # longer lines of the source are cut
TOKEN = re.compile(r'[A-Za-z_][A-Za-z0-9_]*|[0-9]+(?:\.[0-9]+)?[A-Za-z0-9_]*|->|[=!<>]=|&&|\|\||[^ \t\r\n]')


class Message(NamedTuple):
    """What is said of a place. `kind` is the name of a fault or a warning, and `notes` are lines below the source."""
    offset: int
    kind: str
    text: str
    notes: tuple = ()
    end: Optional[int] = None


def line_and_column(text, offset):
    """Both count from 1, and a column is a byte."""
    start = text.rfind('\n', 0, offset) + 1
    return text.count('\n', 0, offset) + 1, offset - start + 1


def offset_of(text, line, column=1):
    """The place of a line and a column."""
    start = 0
    for _ in range(line - 1):
        start = text.find('\n', start) + 1
    return start + column - 1


def place_text(text, offset):
    """A place in words."""
    return 'line %d, column %d' % line_and_column(text, offset)


def token_end(text, offset):
    """Where the word, the number or the symbol ends that begins at a place."""
    found = TOKEN.match(text, offset)
    return found.end() if found else offset + 1


def shown(text):
    """A text in which each byte that isn't printable is a question mark, and a tab is a blank."""
    return ''.join(' ' if byte == '\t' else byte if ' ' <= byte <= '~' else '?' for byte in text)


def source_lines(text, offset, end):
    """The line of the source with the place, and a line that marks it from there to its end."""
    start = text.rfind('\n', 0, offset) + 1
    stop = text.find('\n', offset)
    line = text[start:len(text) if stop < 0 else stop].rstrip('\r')
    at, width = offset - start, max(1, min(end, start + len(line)) - offset)
    cut = max(0, at - WIDEST // 2) if len(line) > WIDEST else 0
    line, width = line[cut:cut + WIDEST], min(width, WIDEST // 2)
    return ['  ' + shown(line).rstrip(), '  ' + ' ' * (at - cut) + '^' + '~' * (width - 1)]


def written(name, text, message, level='error'):
    """The lines of a message of a file."""
    line, column = line_and_column(text, message.offset)
    end = message.end if message.end is not None else token_end(text, message.offset)
    lines = ['%s:%d:%d: %s: %s: %s' % (name, line, column, level, message.kind, message.text)]
    return lines + source_lines(text, message.offset, end) + ['  ' + note for note in message.notes]


def written_without_place(name, kind, said, notes=()):
    """The lines of a message of a whole file, which editors find at its beginning."""
    return ['%s:1:1: error: %s: %s' % (name, kind, said)] + ['  ' + note for note in notes]
