"""A chart text while it is written: what can't be read yet is replaced by blanks, so that all else can be read."""
import common                                # noqa: F401, which finds the folder checks
from chart_syntax import Fault, read_chart
from common.places import token_end
from why.asked import asked_at, innermost

MOST = 100                                   # so many places are mended at most
LISTS = ('outer', 'inner', 'default')


def mended(text):
    """A text that can be read, of which each token stands where it stands in the text, and its tree; or None."""
    for _ in range(MOST):
        try:
            return text, read_chart(text)
        except Fault as fault:
            text = without(text, fault)
            if text is None:
                return None
    return None


def mended_before(text, offset):
    """A text up to an offset, in which all that can't be read before it is mended."""
    text = text[:offset]
    for _ in range(MOST):
        reader = asked_at(text, len(text))
        if not hasattr(reader, 'token') or reader.token.kind == 'end':
            break
        try:
            read_chart(text)
        except Fault as fault:
            cut = without(text, fault)
            if cut is None:
                break
            text = cut[:offset]
    return text


def without(text, fault):
    """The text without what has a fault, or None where nothing can be done."""
    at = fault.offset
    if fault.number in (1, 2):
        return blanked(text, at, token_end(text, at) if fault.number == 2 else at + 1)
    if fault.number in (4, 5):
        return text[:at] + '0' + blanked(text, at, token_end(text, at))[at + 1:]
    if fault.number != 3:
        return None
    reader = asked_at(text, at)
    if 'end' in reader.asked:
        return blanked(text, at, len(text))
    first = item_start(reader, at)
    if at == len(text):
        return text + '}' if first == at else blanked(text, first, at)
    last = reader.taken[-1].end if reader.taken else 0
    if first < at and (text[at] == '}' or '\n' in text[last:at]):
        return blanked(text, first, last)
    return blanked(text, first, item_end(text, at))


def item_start(reader, at):
    """Where the statement, the transition, the declaration or the word begins that isn't whole."""
    found = innermost(reader, 'event', 'datum', 'statement', 'transition', 'block', 'state', 'junction')
    if found and found[0] in ('event', 'datum', 'statement'):
        return found[1]
    if found and found[0] == 'transition':
        before = [each for each in reader.taken if each.offset < found[1]]
        return before[-1].offset if before and before[-1].kind in LISTS else found[1]
    first = at
    for token in reversed(reader.taken):
        if token.kind in (';', '{', '}'):
            break
        first = token.offset
    return first


def item_end(text, at):
    """Behind the next `;` of the line, or before its next brace or its end, with one byte at least."""
    end = at + 1
    while end < len(text) and text[end - 1] != ';' and text[end] not in '}\n':
        end += 1
    return end


def blanked(text, first, end):
    """The text with blanks from one place to another, where lines end as before; None where nothing would change."""
    blanks = ''.join(each if each in '\r\n' else ' ' for each in text[first:end])
    return None if blanks == text[first:end] else text[:first] + blanks + text[end:]
