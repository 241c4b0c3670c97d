#!/usr/bin/env python3
"""Checks of the reference itself that don't fit a table.

    python3 checks/tables/code_rows.py

Each proper prefix of the text of the lamp, the first block of code_table.txt, is Truncated, and is so in both formats. For
each line, doubling its first byte makes that line a BadLine. `upgrade` of the lamp is its text with `flowcode 2` in front,
and `upgrade` of that gives it again. Each text of code_table.txt that reads at all prints as itself.

A text of 268,435,457 bytes is TextTooLong, and one of 268,435,456 bytes isn't. The three limits of an event file are tried
at small values as well, where every length of a line and of a file can be tried: what stops a file is found byte by byte
then. The status is 1 where anything is wrong."""
import itertools
import sys

import beside                                # noqa: F401, which finds the other folders of checks
import code_text as ct
import declarations as de
import event_files as ev
from answers import code_texts
from demands import Wrong, demand
from programs import Ended

FORMAT_2 = b'flowcode 2'                # the first line of a text, in each format as long


def refusal(text):
    try:
        ct.read_code(text)
    except ct.Refused as refused:
        return refused.text
    return 'none'


def demand_refusal(text, expected, what):
    found = refusal(text)
    demand(found == expected, '%s: %s instead of %s' % (what, found, expected))


def lamp_texts(lamp):
    """How many prefixes and doubled bytes of the text of the lamp are refused as they should be."""
    count = 0
    newer = FORMAT_2 + lamp[len(FORMAT_2):]
    for text in (lamp, newer):
        for length in range(len(text)):
            demand_refusal(text[:length], 'code: 2 Truncated', 'the first %d bytes of the lamp' % length)
            count += 1
        lines = text.split(b'\n')[:-1]
        for at, line in enumerate(lines):
            doubled = b'\n'.join(lines[:at] + [line[:1] + line] + lines[at + 1:]) + b'\n'
            demand_refusal(doubled, 'code %d: 1 BadLine' % (at + 1), 'the doubled byte of line %d of the lamp' % (at + 1))
            count += 1
        demand(ct.upgrade(text) == Ended(newer.decode(), '', 0), 'the lamp is upgraded to another text')
    return count


def printed_texts(texts):
    """How many of the texts can be read; each of them must print as itself."""
    count = 0
    for name, text in texts.items():
        try:
            code = ct.read_text(text)
        except ct.Refused:
            continue
        demand(ct.print_code(code, int(text[9:10])) == text, 'the text %s prints as another one' % name)
        demand(ct.read_text(ct.print_code(code)) == code, 'the text %s is read as another code when it is printed' % name)
        count += 1
    return count


def long_texts():
    """Texts at the limit of bytes."""
    text = (FORMAT_2 + b'\n').ljust(ct.MOST_BYTES, b'\0')
    demand_refusal(text, 'code: 2 Truncated', 'a text at the limit of bytes')
    demand_refusal(text + b'\n', 'code: 5 TextTooLong', 'a text over the limit of bytes')


def byte_by_byte(data, limits):
    """The lines of a file and its stop, found by walking over its bytes."""
    found, line, number, at = [], b'', 1, 0
    for at, byte in enumerate(data, 1):
        if at > limits.file:
            return found, ev.FILE_TOO_LONG
        if byte == 10:
            # A line counts only where the file's limit doesn't cut it, which the walk has already seen here.
            found.append((number, line[:-1] if line[-1:] == b'\r' else line))
            line, number = b'', number + 1
            continue
        line += bytes([byte])
        if len(line) > limits.line:
            return found, ev.Stop(number, 1)
    if line:
        found.append((number, line[:-1] if line[-1:] == b'\r' else line))
    return found, ev.END


def short_files():
    """All files of up to 9 bytes, each of which ends a line or is a letter."""
    for length in range(10):
        for number in range(2 ** length):
            yield bytes(10 if number >> bit & 1 else 97 for bit in range(length))


def small_limits():
    """How many short files were tried at small limits of a line and of a file."""
    count = 0
    for line, file in itertools.product(range(4), range(9)):
        limits = ev.Limits(line, file, 2)
        for data in short_files():
            items = list(ev.lines(data, limits))
            demand((items[:-1], items[-1]) == byte_by_byte(data, limits), '%r at %s stops elsewhere' % (data, limits))
            count += 1
    return count


def two_events():
    """Files where the limit of events is two."""
    declared = de.Declarations([de.State(None, 'leaf', 'R')])
    for data, stop in ((b'tick\n#\ntick\n\n', 'end'), (b'tick\ntick\n\ntick', '5 TooManyLines'),
                       (b'tick\ntick\nx', '3: 2 UnknownEvent')):
        found = list(ev.reactions(declared, data, ev.Limits(9, 99, 2)))[-1].text
        demand(found == stop, '%r stops with %s instead of %s' % (data, found, stop))


def main():
    texts = code_texts()
    try:
        print('%d prefixes and doubled bytes' % lamp_texts(texts['lamp']))
        print('%d texts print as themselves' % printed_texts(texts))
        long_texts()
        print('%d files at small limits' % small_limits())
        two_events()
    except Wrong as wrong:
        print('wrong: %s' % wrong)
        return 1
    return 0


if __name__ == '__main__':
    sys.exit(main())
