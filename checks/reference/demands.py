"""What a check demands while it runs, for scripts that have no answer of their own for it. It has none of the rules of the
product, so the references may share it."""


class Wrong(Exception):
    """Something that must hold doesn't; the text says what."""


def demand(condition, what):
    """Ends the check where the condition doesn't hold, under `python3 -O` too. `what` says what doesn't hold."""
    if not condition:
        raise Wrong(what)
