"""MC/DC by unique cause. A condition decides where two evaluations of its decision have different outcomes, it has a different
value in each, and each other condition has the same value in both or isn't evaluated in one of them, as `&&` and `||` leave it
out."""


def is_pair(place, one, other):
    """Whether two evaluations, each its values and its outcome, show that the condition at that place decides."""
    (values, outcome), (others, opposite) = one, other
    if outcome == opposite or values[place] is None or others[place] is None or values[place] == others[place]:
        return False
    return all(a is None or b is None or a == b for at, (a, b) in enumerate(zip(values, others)) if at != place)


def pairs_of(place, evaluations):
    """All pairs for the condition at a place, the evaluation in which the decision is true before the other."""
    true = [each for each in evaluations if each[1] and each[0][place] is not None]
    false = [each for each in evaluations if not each[1] and each[0][place] is not None]
    return [(one, other) for one in true for other in false if is_pair(place, one, other)]


def has_pair(place, evaluations):
    return bool(pairs_of(place, evaluations))
