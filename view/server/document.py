"""A text that is open in an editor.

The protocol counts lines from 0, which end with bytes 10, 13 or both, and in a line the 16-bit units of UTF-16 from 0. The readers
take a text with a character for each byte of UTF-8. Both are the same in a text of ASCII."""
import re
from bisect import bisect_right

LINE_END = re.compile('\r\n|\n|\r')


class Document:
    """A text with its name and its version."""

    def __init__(self, uri, version, text):
        self.uri, self.version = uri, version
        self.set_text(text)

    def set_text(self, text):
        self.text = text
        self.bytes = text.encode('utf-8', 'replace').decode('latin-1')
        self.is_ascii = len(self.bytes) == len(text)
        self.starts = [0] + [found.end() for found in LINE_END.finditer(text)]

    def change(self, changes, version):
        """Takes changes as the protocol writes them, in their order."""
        for each in changes:
            if each.get('range') is None:
                self.set_text(each['text'])
            else:
                first, end = (self.place(each['range'][word]) for word in ('start', 'end'))
                self.set_text(self.text[:first] + each['text'] + self.text[end:])
        self.version = version

    # -- places in the text of characters

    def line_end(self, line):
        """Where a line ends, without the bytes that end it."""
        end = self.starts[line + 1] if line + 1 < len(self.starts) else len(self.text)
        while end > self.starts[line] and self.text[end - 1] in '\r\n':
            end -= 1
        return end

    def place(self, position):
        """The place of a position. Behind the end of a line it is that end, and behind the last line the end of the text."""
        line, units = position['line'], position['character']
        if line >= len(self.starts):
            return len(self.text)
        start, end = self.starts[line], self.line_end(line)
        if self.is_ascii:
            return min(start + units, end)
        place = start
        while place < end and units > 0:
            units -= 2 if ord(self.text[place]) > 0xffff else 1
            place += 1
        return place

    # -- offsets in the text of bytes

    def offset(self, position):
        """The offset of a position."""
        place = self.place(position)
        return place if self.is_ascii else len(self.text[:place].encode('utf-8', 'replace'))

    def position(self, offset):
        """The position of an offset."""
        offset = max(0, min(offset, len(self.bytes)))
        place = offset
        if not self.is_ascii:
            place = len(self.bytes[:offset].encode('latin-1').decode('utf-8', 'ignore'))
        line = bisect_right(self.starts, place) - 1
        before = self.text[self.starts[line]:place]
        return {'line': line, 'character': len(before.encode('utf-16-le', 'surrogatepass')) // 2}

    def range(self, first, end):
        """What goes from one offset to another, with the whole of a character of which it has a part."""
        while end < len(self.bytes) and '\x80' <= self.bytes[end] <= '\xbf':
            end += 1
        return {'start': self.position(first), 'end': self.position(end)}

    def whole(self):
        return self.range(0, len(self.bytes))
