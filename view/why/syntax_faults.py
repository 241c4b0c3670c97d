"""What is said of the faults 1 to 8, which the reader finds."""
import re
from fractions import Fraction
from math import floor

import common                                # noqa: F401, which finds the folder checks
from chart_rules import value_text
from chart_syntax import (DEEPEST, KINDS, LONGEST_NAME, LONGEST_TEXT, MOST_DIGITS, RESERVED, WITH_HISTORY, Fault, number_of,
                          number_token)
from common.guesses import closest
from common.places import Message, place_text, token_end
from why.asked import asked_at, innermost, kinds_in_words
from why.spellings import HISTORY, advice

TYPOGRAPHY = {'2013': '-', '2014': '-', '2212': '-', '2192': '->', '2264': '<=', '2265': '>=', '2260': '!=', '201c': 'no quotes',
              '201d': 'no quotes', '2018': 'no quotes', '2019': 'no quotes', '00a0': 'a blank', '00d7': '*', '00b7': '*'}
ITEMS = ('entry', 'during', 'exit', 'outer', 'inner', 'default', 'history', 'junction', 'state', 'event', 'input', 'output',
         'local')


WORD = re.compile(r'//[^\n]*|\w+(?:\.[0-9]\w*)?')


def syntax_messages(text, fault):
    """The message of the fault of the reader. Where that is of a number, all numbers after it that have one are told too."""
    messages = [syntax_message(text, fault)]
    if text[fault.offset:fault.offset + 1].isdigit():
        messages += [syntax_message(text, each) for each in faulty_numbers(text, fault.offset) if each.offset > fault.offset]
    return messages


def faulty_numbers(text, offset):
    """The faults of the numbers of a text from a place on."""
    for word in WORD.finditer(text, offset):
        if word[0][0].isdigit():
            try:
                number_of(number_token(text, word.start()))
            except Fault as fault:
                yield fault


def syntax_message(text, fault):
    """The message of the fault of the reader."""
    reader = asked_at(text, fault.offset)
    tell = {1: bad_byte, 2: bad_token, 3: expected, 4: too_long, 5: not_binary}.get(fault.number, limit)
    said, notes = tell(text, fault, reader)
    return Message(fault.offset, KINDS[fault.number] + (' ' + fault.limit if fault.limit else ''), said, tuple(notes))


def expected_note(reader):
    words = kinds_in_words(reader.asked)
    return 'may stand here: ' + ('  '.join(words) if words else 'nothing')


def advice_note(said):
    """The line of an advice."""
    return 'write: ' + said[len('write '):] if said.startswith('write ') else 'hint: ' + said


def bad_byte(text, fault, reader):
    data = text[fault.offset:fault.offset + 4].encode('latin-1')
    notes = ['a text has the bytes 9, 10, 13 and 32 to 126 alone, in comments too']
    for length in (2, 3, 4):
        try:
            character = data[:length].decode('utf-8')
        except UnicodeDecodeError:
            continue
        if len(character) == 1:
            write = TYPOGRAPHY.get('%04x' % ord(character))
            notes.append('write: %s in place of the character U+%04X' % (write or 'something else', ord(character)))
            break
    return 'the byte %d (0x%02x) stands in no text' % (data[0], data[0]), notes


def bad_token(text, fault, reader):
    after = text[fault.offset:fault.offset + 400]
    word = re.match(r'[A-Za-z]\w*', after)
    if word:
        return 'a name of %d bytes' % len(word[0]), ['a name has at most %d bytes' % LONGEST_NAME]
    number = re.match(r'[0-9]+(\.[0-9]+)?(q?)\w*', after)
    if number:
        return 'the number %s has no such form' % number[0], ['write: ' + number_advice(after)]
    found = advice(reader, text, fault.offset)
    if found is None and after[0] == '_':
        found = 'a name begins with a letter'
    notes = [advice_note(found)] if found else []
    return 'no token begins with %s' % after[0], notes + [expected_note(reader)]


def number_advice(after):
    """What to write instead of a number that goes on with letters."""
    power = re.match(r'([0-9]+(?:\.[0-9]+)?)[eE]([-+]?[0-9]{1,2})\b', after)
    if power:
        value = Fraction(power[1]) * Fraction(10) ** int(power[2])
        return 'the digits, as ' + (value_text(value) if is_decimal(value) else str(value))
    hexadecimal = re.match(r'0[xX]([0-9A-Fa-f]+)\b', after)
    if hexadecimal:
        return 'the decimal digits, %d' % int(hexadecimal[1], 16)
    binary = re.match(r'0[bB]([01]+)\b', after)
    if binary:
        return 'the decimal digits, %d' % int(binary[1], 2)
    suffix = re.match(r'([0-9]+(?:\.[0-9]+)?)(?:[uUlLfF]{1,3}|[us](?:8|16|32|64))\b', after)
    if suffix:
        return '%s; a number has no suffix' % suffix[1]
    if re.match(r'[0-9]+(?:\.[0-9]+)?q', after):
        return 'one or two digits of value 0 to 32 after q, which say how many bits stand after the point, as 0.1q8'
    return 'a blank or an operator after the number; units stand in comments, and a name begins with a letter'


def is_decimal(value):
    rest = value.denominator
    for prime in (2, 5):
        while rest % prime == 0:
            rest //= prime
    return rest == 1


def too_long(text, fault, reader):
    digits = re.match(r'[0-9.]+', text[fault.offset:])[0].replace('.', '')
    if len(digits) > MOST_DIGITS:
        return 'a number of %d digits' % len(digits), ['a number has at most %d digits' % MOST_DIGITS]
    return 'the number is too large', ['as a whole number times 2^-F its whole number must be under 2^99']


def not_binary(text, fault, reader):
    digits = re.match(r'[0-9]+\.[0-9]+', text[fault.offset:])[0]
    value = Fraction(digits)
    shown = []
    for bits in (8, 16, 32):
        mantissa = floor(value * 2 ** bits)
        shown.append('%sq%d, which is %d/%d' % (digits, bits, mantissa, 2 ** bits))
    return '%s is no whole number of 2^-32' % digits, [
        'write: how many bits it shall have after the point: ' + ', or '.join(shown),
        'it is rounded down there; in a comparison q32 costs nothing']


def limit(text, fault, reader):
    if fault.number == 6:
        return 'the text has %d bytes' % len(text), ['a text has at most %d bytes' % LONGEST_TEXT]
    if fault.number == 7:
        return 'a state stands in %d others' % DEEPEST, ['states nest at most %d deep, the chart not counted' % DEEPEST]
    return 'one more of the %s than there may be' % fault.limit, ['there are at most %d' % WITH_HISTORY.limits[fault.limit]]


# ---- a token that doesn't continue a text

def expected(text, fault, reader):
    """What is said where a token doesn't continue the text before it."""
    if fault.offset >= len(text):
        write = unclosed(text, reader)
        notes = ['write: ' + write] if write else []
        return 'the text ends too early' + within_text(text, reader), notes + [expected_note(reader)]
    found = found_text(text, fault.offset)
    write = chart_advice(text, fault.offset, reader)
    said = write or misspelt(text, fault, reader) or advice(reader, text, fault.offset) or missing(reader, found)
    notes = ([advice_note(said)] if said else []) + ['found: ' + found, expected_note(reader)]
    return '%s doesn\'t continue the text%s' % (found, within_text(text, reader)), notes


def found_text(text, offset):
    token = text[offset:token_end(text, offset)]
    if token in RESERVED:
        return 'the reserved word %s' % token
    return ('the name %s' if re.match('[A-Za-z]', token) else 'the number %s' if token[0].isdigit() else '%s') % token


def within_text(text, reader):
    """In what the place is, in words."""
    last = innermost(reader, 'state', 'junction', 'chart')
    if last is None:
        return ''
    name = re.compile(last[0] + r'\s+([A-Za-z]\w*)').match(text, last[1])
    inside = innermost(reader, 'transition', 'statement', 'datum', 'event')
    said = ' in the %s %s' % (last[0], name[1]) if name else ''
    if inside is None or inside[1] < last[1]:
        return said
    return ', in %s %s' % ('an' if inside[0] == 'event' else 'a', inside[0]) + said


def unclosed(text, reader):
    """What is open at the end of the text."""
    last = innermost(reader, 'chart', 'state', 'junction', 'block')
    if 'end' in reader.asked or last is None or '}' not in reader.asked:
        return None
    suspect = outdented(text)
    if suspect:
        return '} before line %d, if what begins in line %d ends there' % suspect
    what = 'the block' if last[0] == 'block' else 'the ' + last[0]
    return '} for %s that begins at %s' % (what, place_text(text, last[1]))


def outdented(text):
    """The first line that stands no further in than a line before it whose brace is open, and that line; or None."""
    opened = []
    for number, line in enumerate(text.split('\n'), 1):
        line = line.partition('//')[0]
        depth = len(line) - len(line.lstrip())
        if opened and line.strip() and line.lstrip()[0] != '}' and depth <= opened[-1][1]:
            return number, opened[-1][0]
        for byte in line:
            if byte == '{':
                opened.append((number, depth))
            elif byte == '}' and opened:
                opened.pop()
    return None


def chart_advice(text, offset, reader):
    """What to write where the text begins otherwise, goes on after its end, or has an item where it may not stand."""
    word = text[offset:token_end(text, offset)]
    if word == 'junction' and reader.taken and reader.taken[-1].kind == 'history':
        return HISTORY
    if 'chart' in reader.asked and not reader.taken:
        return 'write `chart NAME {` at the beginning'
    if reader.asked == {'end'}:
        return 'write nothing after the last }: one } before is too many, or what stands here belongs in front of it'
    if word in ITEMS and not reader.asked & set(ITEMS) and ';' in reader.asked:
        return 'write ; before %s' % word
    if word in ('outer', 'exit') and not innermost(reader, 'state', 'junction') and 'inner' in reader.asked:
        return 'the chart itself is never left: %s stands in a state' % word
    if word in ('entry', 'during', 'exit') and 'inner' in reader.asked:
        return 'write all in one pair of braces: %s stands once in a state' % word
    if word == 'history' and 'inner' in reader.asked:
        return 'history stands once in a state'
    return None


def missing(reader, found):
    """What is missing before the token that was found."""
    if reader.asked == {'name'} and reader.taken[-1].kind in ('chart', 'state', 'junction'):
        return 'write a name after the word %s' % reader.taken[-1].text
    if ')' in reader.asked and found in (';', ']', '}'):
        return 'write ) before it: an opening parenthesis isn\'t closed'
    if {'number', '('} <= reader.asked and not re.match('the', found):
        return 'write an operand before it: a number, a name, or an expression in parentheses'
    return None


def misspelt(text, fault, reader):
    """The word that may have been meant."""
    word = re.compile(r'[A-Za-z]\w*').match(text, fault.offset)
    if not word or word[0] == 'function':
        return None
    known = closest(word[0], sorted(each for each in reader.asked if each.isalpha() and each in RESERVED), 0.8)
    return 'write ' + known if known else None
