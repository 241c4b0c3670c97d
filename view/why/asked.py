"""What may stand at a place of a chart text, and in what it stands, by the questions that the reader of checks asks there."""
import common                                # noqa: F401, which finds the folder checks
from chart_syntax import Fault, Language, Reader, RESERVED, SYMBOLS

# The order in which what may stand there is told.
ORDER = ['a name', 'a number', 'a type', 'true', 'false', 'in', *sorted(RESERVED - {'true', 'false', 'in'}), *SYMBOLS,
         'the end of the text']
WORDS = {'name': 'a name', 'number': 'a number', 'end': 'the end of the text'}
ENDLESS = Language(True, 1024)
ENDLESS.limits = {limit: 10 ** 9 for limit in ENDLESS.limits}


class Asking(Reader):
    """A reader that notes what it asks for since it took the last token, what it is within, and the tokens that it took."""

    def __init__(self, text):
        self.asked, self.within, self.taken = set(), [], []
        super().__init__(text, ENDLESS)

    def at(self, *kinds):
        self.asked.update(kinds)
        return super().at(*kinds)

    def take(self, *kinds):
        token = self.token
        text = super().take(*kinds)
        self.taken.append(token)
        self.asked = set()
        return text

    def sort(self):
        self.asked.add('a type')
        return super().sort()


def noting(word):
    """A method of the reader that notes what it reads while it does."""
    def method(self, *given):
        self.within.append((word, self.token.offset))
        read = getattr(Reader, word)(self, *given)
        self.within.pop()
        return read
    return method


for each in ('chart', 'event', 'datum', 'state', 'junction', 'transition', 'block', 'statement', 'whole_expression', 'path'):
    setattr(Asking, each, noting(each))


def asked_at(text, offset):
    """The reader as it stands before a place up to which the text has no fault."""
    reader = None
    try:
        reader = Asking.__new__(Asking)
        reader.__init__(text[:offset])
        reader.chart()
    except Fault:
        pass
    return reader


def kinds_in_words(asked):
    """What may stand there, in words, in a fixed order."""
    words = {WORDS.get(kind, kind) for kind in asked}
    return sorted(words, key=lambda word: ORDER.index(word) if word in ORDER else len(ORDER))


def is_within(reader, word):
    """Whether the place is in one of these."""
    return any(each == word for each, _ in reader.within)


def innermost(reader, *words):
    """The last of these in which the place is, and where that begins, or None."""
    return next((each for each in reversed(reader.within) if each[0] in words), None)
