"""Charts, as the server asks of a language. All offsets count the bytes of a text."""
import re
from typing import NamedTuple

import chart_syntax as syntax
from chart_check import Datum, Event, Junction, State, check_chart
from chart_rules import value_text
from chart_syntax import LONGEST_NAME, RESERVED, Fault, Scale, fraction_of, mantissa_of, number_of
from fractions import Fraction
from layout.comments import Belonging
from layout.parts import HEAD, ITEM, TAIL, placed
from layout.written import formatted, wrong_layout
from lint.warnings import warnings
from server.chart_names import Index, kind_of, states_of
from server.mended import mended, mended_before
from why.answer import chart_messages
from why.asked import asked_at, innermost
from why.types import range_text

SUFFIX = '.chart'
TRIGGERS = ['@', '/', '>', '[', '{']         # an editor asks for completions after these, too
WORD = re.compile(r'[A-Za-z0-9_]*\Z')
TYPES = ['bool'] + ['%sint%d' % (sign, width) for width in (8, 16, 32, 64) for sign in ('', 'u')] + ['sfix16_En8', 'ufix16_En8']
COMPOSITIONS = {'or': 'an OR of %d', 'and': 'an AND of %d', 'leaf': 'a leaf'}


class Refused(Exception):
    """Why something can't be done, for who asked for it."""


class Symbol(NamedTuple):
    """What an outline shows of a thing: from where to where it goes, and the place of its name."""
    name: str
    kind: str
    detail: str
    first: int
    end: int
    at: int
    inside: tuple = ()


class Offer(NamedTuple):
    """A word that may be written at a place."""
    word: str
    kind: str
    detail: str


# ---- what is wrong

def problems(text):
    """The messages of flowwhy, or of an accepted chart those of flowlint, each with its source and its level."""
    found = chart_messages(text)
    if found:
        return [('flowwhy', 'error', each) for each in found]
    return [('flowlint', 'warning', each) for each in warnings(text, check_chart(text))]


# ---- names

class Read(NamedTuple):
    """A chart with its names: the text that was read, its tree, and the names of it."""
    text: str
    tree: object
    index: Index


def read(text):
    """What can be read of a text, or None."""
    found = mended(text)
    return Read(*found, Index(found[1])) if found else None


def renamed(text, offset, new):
    """The places of the thing that is named at an offset, as pairs of where a name begins and ends. Refused where a new name is
    none, or would let some name denote something else."""
    try:
        tree = syntax.read_chart(text)
    except Fault as fault:
        raise Refused('the text is refused at %s' % fault.written(text)) from None
    index = Index(tree)
    use = index.at(offset)
    if use is None:
        raise Refused('no name that is declared stands here')
    if not re.fullmatch('[A-Za-z][A-Za-z0-9_]*', new) or new in RESERVED or len(new) > LONGEST_NAME:
        raise Refused('%s is no name: a letter, and then letters, digits and underscores, at most %d, and no reserved word' % (
            new, LONGEST_NAME))
    places = [(each.at, each.end()) for each in index.uses_of(use.thing)]
    after = text
    for first, end in reversed(places):
        after = after[:first] + new + after[end:]
    changed = Index(syntax.read_chart(after))
    if len(changed.faults) != len(index.faults) or changed.meaning() != index.meaning():
        raise Refused('with the name %s some name would denote something else' % new)
    return places


# ---- the outline

def outline(text):
    """The symbols of a chart: its events, data, states and junctions."""
    found = mended(text)
    if not found:
        return []
    tree, parts = placed(found[0])
    declared = [Symbol(each.name.text, 'event', each.kind, *parts[ITEM, each.name.at], each.name.at) for each in tree.events]
    declared += [Symbol(each.name.text, 'datum', syntax.datum_text(each).partition(' : ')[2].rstrip(';'),
                        *parts[ITEM, each.name.at], each.name.at) for each in tree.data]
    return [state_symbol(tree.root, parts, 'chart', tuple(declared))]


def state_symbol(state, parts, kind, declared=()):
    at = state.name.at
    inside = list(declared)
    for each in state.junctions:
        inside.append(Symbol(each.name.text, 'junction', '', parts[HEAD, each.name.at].first, parts[TAIL, each.name.at].end,
                             each.name.at))
    inside += [state_symbol(each, parts, 'state') for each in state.states]
    composition = state.composition()
    return Symbol(state.name.text, kind, '' if composition == 'leaf' else composition, parts[HEAD, at].first, parts[TAIL, at].end,
                  at, tuple(inside))


# ---- what is known of a name

def hover(text, offset):
    """What is known of the name or the number at an offset, as the lines of a text and the place of it, or None."""
    found = read(text)
    if not found:
        return None
    use = found.index.at(offset)
    if use:
        return ['```flowchart', declaration(found, use.thing), '```', *comments(found, use.thing), *known(found, use.thing)], \
            use.at, use.end()
    return number_hover(text, offset)


def number_hover(text, offset):
    """What a number is exactly."""
    for match in re.finditer(r'(?<![\w.])[0-9]+(?:\.[0-9]+)?(?:q[0-9]{1,2})?(?![\w])', text):
        if match.start() <= offset <= match.end() and '//' not in text[text.rfind('\n', 0, match.start()) + 1:match.start()]:
            try:
                number = number_of(syntax.next_token(text, match.start()))
            except Fault:
                return None
            bits, mantissa = fraction_of(number), mantissa_of(number)
            return ['%s is %s, as %d / 2^%d' % (match[0], value_text(Fraction(mantissa, 2 ** bits)), mantissa, bits)], *match.span()
    return None


def declaration(found, thing):
    """How a thing is declared, in a line."""
    if isinstance(thing, Datum):
        return syntax.datum_text(next(each for each in found.tree.data if each.name.at == thing.at))
    if isinstance(thing, Event):
        return 'event %s %s;' % (thing.kind, thing.name)
    if isinstance(thing, Junction):
        return 'junction %s' % thing.name
    word = '' if thing.composition == 'leaf' else ' ' + thing.composition
    return '%s %s%s' % (kind_of(thing), thing.path() if thing.parent else thing.name, word)


def comments(found, thing):
    """The comments that belong to the declaration of a thing."""
    _, parts = placed(found.text)
    belonging = Belonging(found.text, parts)
    key = (ITEM if isinstance(thing, (Datum, Event)) else HEAD, thing.at)
    lines = [each.text[2:].strip() for each in belonging.of(key)]
    return [*lines, ''] if lines else []


def known(found, thing):
    """What is known of a thing, in lines."""
    chart, uses = found.index.chart, len(found.index.uses_of(thing)) - 1
    if isinstance(thing, Datum):
        assigned = sum(getattr(each, 'datum', None) is thing for block in chart.blocks() for each in block)
        lines = [range_text(thing.scale) + '; ' + mode_text(thing)] if isinstance(thing.scale, Scale) else []
        return lines + ['assigned %s, read %s' % (times(assigned), times(uses - assigned))]
    if isinstance(thing, Event):
        triggers = sum(each.event is thing for each in chart.transitions())
        done = '' if thing.kind == 'input' else '%s %s' % ('sent' if thing.kind == 'local' else 'emitted', times(uses - triggers))
        heard = '' if thing.kind == 'output' else 'the event of %s' % counted(triggers, 'transition')
        return ['; '.join(filter(None, (heard, done)))]
    leading = 'the destination of %s' % counted(sum(each.destination is thing for each in chart.transitions()), 'transition')
    if isinstance(thing, Junction):
        return ['with %s; %s' % (counted(len(thing.transitions), 'transition'), leading)]
    what = COMPOSITIONS[thing.composition]
    what = what % len(thing.children) if '%' in what else what
    return [what + (' with history' if thing.history_at is not None else '') + ('; ' + leading if thing.parent else '')]


def mode_text(datum):
    return {'saturate': 'saturates at its ends', 'wrap': 'wraps round', 'error': 'ends the run where it overflows'}[datum.mode]


def times(number):
    return 'once' if number == 1 else 'nowhere' if number == 0 else '%d times' % number


def counted(number, what):
    return '%s %s%s' % (number or 'no', what, '' if number == 1 else 's')


# ---- completion

def completions(text, offset):
    """The words that may be written at an offset, in place of the part of a word that stands before it, and where that begins."""
    first = offset - len(WORD.search(text[:offset])[0])
    if '//' in text[text.rfind('\n', 0, first) + 1:first]:
        return [], first
    before = mended_before(text, first)
    reader = asked_at(before, len(before))
    found = read(text)
    offers = [Offer(each, 'word', '') for each in sorted(reader.asked & RESERVED)]
    if 'a type' in reader.asked:
        offers = [Offer(each, 'type', '') for each in TYPES]
    elif 'name' in reader.asked and found:
        offers = names_at(reader, found.index) + offers
    return list({each.word: each for each in reversed(offers)}.values())[::-1], first


def names_at(reader, index):
    """The names that may stand before the token at hand."""
    chart, last = index.chart, reader.taken[-1].kind if reader.taken else ''
    state = state_at(reader, chart)
    within = innermost(reader, 'path', 'whole_expression', 'statement', 'block', 'transition', 'event', 'datum', 'junction')
    kind = within[0] if within else ''
    if last == '@':
        return [offer(each) for place in [state, *state.ancestors()] for each in place.junctions]
    if last in ('send', 'emit'):
        return [offer(each) for each in chart.events if each.kind == {'send': 'local', 'emit': 'output'}[last]]
    if kind == 'path':
        path = [each.text for each in reader.taken if each.offset >= within[1] and each.kind == 'name']
        return [offer(each) for each in states_after(state, path)]
    if kind == 'whole_expression':
        return [offer(each) for each in chart.data]
    if kind in ('statement', 'block'):
        return [offer(each) for each in chart.data if each.kind != 'input']
    if kind == 'transition' or kind == 'junction' and last != 'junction':
        return [offer(each) for each in chart.events if each.kind != 'output']
    return []


def state_at(reader, chart):
    """The state in which a reader stands."""
    heads = {at for word, at in reader.within if word == 'state'}
    names = {after.offset for token, after in zip(reader.taken, reader.taken[1:]) if token.offset in heads}
    return max((each for each in chart.states if each.at in names), key=lambda each: each.at, default=chart.root)


def states_after(state, path):
    """The states that may be the next name of a path in a state."""
    if not path:
        return [each for place in [state, *state.ancestors()] for each in place.children]
    found = list(states_of(state, path))
    return found[-1].children if len(found) == len(path) else []


def offer(thing):
    if isinstance(thing, Datum):
        detail = '%s %s' % (thing.kind, syntax.scale_text(thing.scale) if thing.scale else 'bool')
    else:
        detail = thing.kind if isinstance(thing, Event) else thing.path() if isinstance(thing, State) else ''
    return Offer(thing.name, kind_of(thing), detail)


# ---- layout

def layout(text):
    """The canonical layout with its comments. Refused where the text can't be read."""
    try:
        out = formatted(text)
    except Fault as fault:
        raise Refused('the text is refused at %s' % fault.written(text)) from None
    wrong = wrong_layout(text, out)
    if wrong:
        raise Refused('the layout isn\'t right: %s' % wrong)
    return out
