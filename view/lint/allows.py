"""Comments that silence warnings.

`// flowlint: allow KIND, KIND` holds for the line in which it stands; alone in its line it holds for the next line that isn't a
comment alone, and in front of the word `chart` for the whole text."""
import re

COMMENT = re.compile(r'//([^\n]*)')
ALLOW = re.compile(r'\s*flowlint:\s*allow\s+([\w, ]*)')


class Allowed:
    """What a text allows: for each comment its place, its words, and the line that it is for, or 0 for all."""

    def __init__(self, text):
        self.comments = []
        lines = text.split('\n')
        head = next((number for number, line in enumerate(lines) if COMMENT.sub('', line).strip()), len(lines))
        start = 0
        for number, line in enumerate(lines):
            found = COMMENT.search(line)
            allow = ALLOW.match(found[1]) if found else None
            if allow:
                words = re.findall(r'\w+', allow[1])
                self.comments.append((start + found.start(), words, self.line_of(lines, number, head)))
            start += len(line) + 1
        self.used = set()

    @staticmethod
    def line_of(lines, number, head):
        """The line, counted from 1, that a comment is for, or 0 for the whole text."""
        if number < head:
            return 0
        while number < len(lines) - 1 and not COMMENT.sub('', lines[number]).strip():
            number += 1
        return number + 1

    def silences(self, kind, line):
        """Whether a comment allows this kind in this line."""
        found = False
        for at, words, place in self.comments:
            if kind in words and place in (0, line):
                self.used.add((at, kind))
                found = True
        return found

    def idle(self):
        """The words that silence nothing, each with the place of its comment."""
        return [(at, word) for at, words, _ in self.comments for word in words if (at, word) not in self.used]
