"""The comments of a chart text, and the part to which each belongs.

A comment within a part belongs to it, and so does one behind its last token in the same line. Any other belongs to the part that
comes next, which may be a closing brace, or to the end of the text."""
from bisect import bisect_right
from typing import NamedTuple

import common                                # noqa: F401, which finds the folder checks
from chart_syntax import next_token

END = 'end'                                  # stands for a part where a comment belongs to the end of the text


class Comment(NamedTuple):
    """A comment with its two slashes and without the blanks at its end."""
    offset: int
    text: str
    follows: bool                            # whether a token stands before it in its line


def comments_of(text):
    """The comments of a text that has no fault of tokens, in their order."""
    offset, line, token_line, found = 0, 0, -1, []
    while True:
        while offset < len(text) and text[offset] in ' \t\r\n':
            line += text[offset] == '\n'
            offset += 1
        if text.startswith('//', offset):
            end = text.find('\n', offset)
            end = len(text) if end < 0 else end
            found.append(Comment(offset, text[offset:end].rstrip(), token_line == line))
            offset = end
        elif offset == len(text):
            return found
        else:
            offset, token_line = next_token(text, offset).end, line


class Belonging:
    """The comments of each part by its key: those before it, in lines of their own, and the one behind it, if any."""

    def __init__(self, text, parts):
        self.before, self.behind = {}, {}
        keys = sorted(parts, key=lambda key: parts[key].first)
        firsts = [parts[key].first for key in keys]
        for comment in comments_of(text):
            last = bisect_right(firsts, comment.offset) - 1
            if last >= 0 and comment.offset < parts[keys[last]].end:
                self.before.setdefault(keys[last], []).append(comment)
            elif comment.follows:
                self.behind[keys[last]] = comment
            else:
                self.before.setdefault(keys[last + 1] if last + 1 < len(keys) else END, []).append(comment)
        self.keys = keys

    def of(self, key):
        """All comments of a part, in the order of the text."""
        return self.before.get(key, []) + ([self.behind[key]] if key in self.behind else [])

    def without(self, written):
        """The same where only these parts are written: what belongs to another one is put before the next part of the text."""
        waiting = []
        for key in self.keys:
            if key not in written:
                waiting += self.of(key)
                self.before.pop(key, None), self.behind.pop(key, None)
            elif waiting:
                self.before[key] = waiting + self.before.get(key, [])
                waiting = []
        return self
