"""Which name may have been meant, and lists of names in words."""
import difflib

MOST_NAMES = 12


def closest(word, names, likeness=0.6):
    """The name that is most like a word, or None where none is."""
    names = list(dict.fromkeys(names))
    for each in names:
        if each.lower() == word.lower():
            return each
    lower = {each.lower(): each for each in reversed(names)}
    found = difflib.get_close_matches(word.lower(), list(lower), 1, likeness)
    return lower[found[0]] if found else None


def meant(word, names):
    """`; did you mean NAME?`, or nothing."""
    found = closest(word, names)
    return '; did you mean %s?' % found if found else ''


def listed(names, none='none'):
    """Some names in one line."""
    names = list(dict.fromkeys(names))
    if not names:
        return none
    rest = len(names) - MOST_NAMES
    return ', '.join(names[:MOST_NAMES]) + (' and %d more' % rest if rest > 0 else '')
