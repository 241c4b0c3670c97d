"""Where two traces differ first, in words."""


def first_difference(wanted, got):
    """Lines that tell in words where two traces differ first, or none where they are the same."""
    for one, other in zip(wanted, got):
        if one != other:
            return ['line %d, %s:' % (one.index, one.event)] + ['  ' + each for each in differences(one, other)]
    if len(wanted) == len(got):
        return []
    longer, which = (wanted, 'the second trace ends') if len(wanted) > len(got) else (got, 'the first trace ends')
    line = longer[min(len(wanted), len(got))]
    return ['line %d, %s: %s before it' % (line.index, line.event, which)]


def differences(wanted, got):
    """What of two lines differs, in words."""
    if wanted.event != got.event:
        yield 'the event is %s, and %s was wanted' % (got.event, wanted.event)
    missing = [each for each in wanted.states if each not in got.states]
    extra = [each for each in got.states if each not in wanted.states]
    if missing:
        yield '%s not active, and %s wanted' % (were(missing, 'is', 'are'), was(missing))
    if extra:
        yield '%s active, and %s not wanted' % (were(extra, 'is', 'are'), was(extra))
    if not missing and not extra and wanted.states != got.states:
        yield 'the states stand in another order'
    one, other = dict(wanted.values), dict(got.values)
    for name in dict.fromkeys([*one, *other]):
        if name not in other or name not in one:
            yield '%s stands in one of the traces alone' % name
        elif one[name] != other[name]:
            yield '%s is %s, and %s was wanted' % (name, other[name], one[name])
    if wanted.outputs != got.outputs:
        yield '%s emitted, and %s wanted' % (emitted(got.outputs), emitted(wanted.outputs))
    if wanted.result != got.result:
        yield 'the result is %s, and %s was wanted' % (got.result, wanted.result)


def were(names, one, more):
    return '%s %s' % (', '.join(names), one if len(names) == 1 else more)


def was(names):
    return 'was' if len(names) == 1 else 'were'


def emitted(names):
    if not names:
        return 'nothing was'
    return '%s %s' % (', '.join(names), was(names))
