r"""What to write instead of a usual spelling of Stateflow, where the reader stops at it.

A row has the places in which it holds, a pattern for the text before the place, a pattern for the text from there on, and the
advice, in which {0}, {1} and so on are what the groups of both patterns matched. The first row that fits is taken."""
import re

import common                                # noqa: F401, which finds the folder checks
from chart_syntax import RESERVED
from why.asked import innermost, is_within
from why.calls import call_advice
from why.types import type_advice

NAME = r'([A-Za-z]\w*)'
FREE = r'(?!(?:%s)\b)' % '|'.join(sorted(RESERVED))
PATH = r'([A-Za-z]\w*(?:/[A-Za-z]\w*)*)'
UNTIL = r'\s*([^;}\n]*?)\s*(?:[;}\n]|$)'
TWO_TRANSITIONS = 'write it twice, `outer {0} .. -> S;` and the same with the other event: a transition names one event at most'
ON = 'write `inner {0} {{ {1}; }} -> @next;`, `junction next {{ [false] -> @never; }}` and `junction never {{ }}`'
IF = ('there is no if in an action: write a junction with a transition for each way, '
      '`junction test {{ [c] {{ a; }} -> S; {{ b; }} -> S; }}`; in place of a during action write `inner -> @test;` in the state, '
      'with `-> @end;` in place of `-> S;`, and `junction end {{ }}`')
LOOP = ('there is no loop in an action: write a junction that leads back to itself, '
        '`junction each {{ [i < n] {{ i = i + 1; }} -> @each; -> S; }}`')
COMMENT = 'write // before a comment, which goes to the end of the line'
DECLARED = 'write this declaration directly in the chart, in front of its states'
HISTORY = 'write `history;` in the state, and lead to the state: `-> S;` enters the child of S that was active last'
ONE_GUARD = ': a transition has one guard'
SENT = 'a local event is broadcast by `send {0};`, and an output event emitted by `emit {0};`'
BITS = 'there are no operators on bits; for a shift multiply or divide by a power of 2'
BEFORE_NAMES = ('state', 'junction', 'event', 'input', 'output', 'local', 'chart', '@', '->', 'send', 'emit', 'to', '/', '=', '(')
WORD_OF_ACTION = r'(?:entry|during|exit|en|du|ex)'
ACTIONS = {'en': 'entry', 'entry': 'entry', 'du': 'during', 'during': 'during', 'ex': 'exit', 'exit': 'exit'}

BEFORE_OTHERS = [
    (r'->\s*@?\s*$', r'history\b', 'write `-> S;`, and `history;` in S: the child of S that was active last is entered'),
    (r'\bjunction\s+\w+\s*$', r'history\b', HISTORY),
]
PATHS = [
    (r'(?:->|\bto\b|\bin\s*\()\s*' + PATH + r'\s*$', r'\.' + NAME, 'write `{0}/{1}`: a path has / between its names'),
]
IN_ACTION = [
    (NAME + r'\s*$', r'\+\+', 'write `{0} = {0} + 1;`'),
    (NAME + r'\s*$', r'--', 'write `{0} = {0} - 1;`'),
    (NAME + r'\s*$', r'([-+*/])=' + UNTIL, 'write `{0} = {0} {1} {2};`, with the value in parentheses where it has operators'),
    (NAME + r'\s*$', r'[&|^%]=|<<=|>>=', BITS),
    (NAME + r'\s*$', r':=?\s*=' + UNTIL, 'write `{0} = {1};`'),
    (r'(?:[{;}]|/)\s*' + NAME + r'\s*$', r'==' + UNTIL, 'write `{0} = {1};`, since `==` compares'),
    (r'=\s*[^;{}=]*$', r'=(?!=)', 'write one assignment after the other: an assignment has no value'),
    (NAME + r'\s*$', r'\.\s*' + NAME, 'write `{0}_{1}`, a datum of the chart: data have one name, and stand in the chart alone'),
    (NAME + r'\s*$', r'\[', 'there are no arrays: declare a datum for each element'),
    (r'\bsend\s*$', r'\(\s*' + NAME + r'\s*,\s*([\w.]+)\s*\)', 'write `send {0} to {1};`, with / where a path has a point'),
    (r'\bsend\s*$', r'\(\s*' + NAME + r'\s*\)', 'write `send {0};`, or `emit {0};` of an output event'),
    (r'\bemit\s*$', r'\(\s*' + NAME + r'\s*\)', 'write `emit {0};`'),
    (r'\bsend\s+' + NAME + r'\s*$', r',\s*([\w./]+)', 'write `send {0} to {1};`'),
    (r'[;{]\s*$', r'/(?![*/])', 'write }} before it: the condition action ends, and the transition action has braces of its own'),
    (r'\b(?:send|emit)\s+[\w/\s]*$', r'\}', 'write ; before it: ; stands after each statement, also after the last one'),
    (r'\bif\s*$', r'\(|' + NAME, IF),
    (r'\b(?:else|elseif|switch|case)\s*$', r'', IF),
    (r'\b(?:while|for|do)\s*$', r'', LOOP),
    (r'\b(?:return|break|continue)\s*$', r'', 'an action is a list of assignments, sends and emits, which runs to its end'),
    (r'\b(?:u?int\d+(?:_[tT])?|double|single|float|bool|boolean)\s*$', NAME,
     'data are declared in the chart alone: write `local {0} : TYPE;` there'),
    (r'(?:[{;}]|/)\s*' + NAME + r'\s*$', r'[;}]', SENT),
    (r'=\s*[^;{}]*$', r',\s*' + NAME + r'\s*=', '; stands after each statement: write `; {0} = ..`'),
    (r'=\s*[^;{}]*[\w)]\s*$', r'\}', '; stands after each statement, also after the last one: write it before this }}'),
    (r'=\s*[^;{}]*[\w)]\s*\n\s*$', NAME + r'\s*=', '; stands after each statement: one is missing before {0}'),
]
IN_EXPRESSION = [
    (NAME + r'\s*$', r'&\s*1\b', 'for whole numbers the lowest bit is `{0} - {0} / 2 * 2`'),
    (r'', r'&', 'write `&&` for flags; ' + BITS),
    (r'', r'\|', 'write `||` for flags; ' + BITS),
    (r'', r'~=', 'write `!=`'),
    (r'', r'~', 'write `!`'),
    (r'<\s*$', r'>', 'write `!=`'),
    (r'<\s*$|>\s*$', r'[<>]', BITS),
    (r'', r'=>', 'write `>=`'),
    (r'<\s*$', r'=', 'write `<=`'),
    (r'', r'===', 'write `==`'),
    (NAME + r'\s*$', r'=(?!=)', '`=` assigns; to compare write `{0} == ..`'),
    (r'[)\]\d]\s*$', r'=(?!=)', '`=` assigns; to compare write `==`'),
    (r'', r'\bnot\b', 'write `!`'),
    (r'\bnot\s*$', r'[A-Za-z(]', 'write `!`'),
    (r'', r'and\b', 'write `&&`'),
    (r'', r'or\b', 'write `||`'),
    (r'[-+*/(=]\s*$', r'\+', 'a number has no sign +: leave it out'),
    (r'([A-Za-z]\w*)\s*$', r'%\s*' + NAME, 'for whole numbers from 0 on write `{0} - {0} / {1} * {1}`'),
    (r'([A-Za-z]\w*)\s*$', r'%\s*(\d+)', 'for whole numbers from 0 on write `{0} - {0} / {1} * {1}`'),
    (r'[\w)]\s*$', r'%%?', 'for whole numbers from 0 on the rest of a / b is `a - a / b * b`; a comment begins with //'),
    (r'[\w)]\s*$', r'\*\*|\^|\.\^', 'there are no powers: write the product, as `a * a`'),
    (r'', r'\?', 'there is no ? :. Write a junction with a transition for each way, '
     '`junction pick {{ [c] {{ x = a; }} -> S; {{ x = b; }} -> S; }}`'),
    (r'[<>]=?[^\[{(&|;]*$|[!=]=[^\[{(&|;]*$', r'([<>]=?|[!=]=)', 'comparisons don\'t follow one another: write '
     '`a {0} b && b {0} c`, or parentheses round the first'),
    (NAME + r'\s*$', r"'|\.'", 'there are no vectors'),
    (r'\b(\d+)\s*$', r',\s*(\d+)', 'a number has a point: write `{0}.{1}`'),
    (r'\d\s*$', r'\.(?!\d)', 'digits stand on both sides of a point: leave the point out, or write .0'),
    (r'', r'\.(\d+)', 'digits stand on both sides of a point: write `0.{0}`'),
    (NAME + r'\s*$', r'\[', 'there are no arrays: declare a datum for each element'),
    (r'', r'[\'"]', 'there are no texts: number the cases, and compare numbers'),
    (r'=\s*$', r'\{', 'there are no lists of values'),
    (r'\bin\s*$', PATH, 'write `in({0})`'),
    (NAME + r'\s*$', r'\.\s*' + NAME, 'write `{0}_{1}`, a datum of the chart: data have one name, and stand in the chart alone'),
    (r'', r'tick\b', 'whether nothing but time passes can\'t be asked: write an input event of your own, as `event input STEP;`'),
    (r'[\[(=!<>+\-*&|]\s*$', r'(' + '|'.join(sorted(RESERVED - {'true', 'false', 'in'})) + r')\b',
     '`{0}` is a reserved word, and names no datum: write the name that is declared, or declare another, such as {0}_1'),
]
IN_TRANSITION = [
    (r'\b(?:outer|inner|default)\s*$', r'tick\b',
     '`tick` can\'t be named: leave the event out, which fits at every event, also at '
     'tick and at what is sent; for time declare an input event, as `event input STEP;`'),
    (r'\[([^\[\]|]*)\]\s*$', r'(?:&&?\s*)?\[([^\[\]|]*)\]', 'write `[{0} && {1}]`' + ONE_GUARD),
    (r'\[([^\[\]]*)\]\s*$', r'\|\|?\s*\[([^\[\]]*)\]', 'write `[{0} || {1}]`' + ONE_GUARD),
    (r'\[[^\[\]]*\]\s*$', r'(?:&&?\s*)?\[', 'write one bracket with all conditions, as `[(a || b) && c]`'),
    (r'\[([^\[\]]*)\]\s*$', r'(?:&&?|\|\|?)\s*' + NAME, 'write {1} in the same bracket, if it is a flag, or in front of the '
     'bracket, if it is an event'),
    (r'\b(?:outer|inner|default)\s+' + NAME + r'\s*$', r'&&?\s*\[', 'write `{0} [..]`: the guard follows the event'),
    (r'\b(?:outer|inner|default)\s+' + NAME + r'\s*$', r'\|\|?|,|or\b|&', TWO_TRANSITIONS),
    (r'\b(?:outer|inner|default)\s+(?:not\s*)?$', r'[!~]',
     'a transition names one event that fits; there is none for all others'),
    (NAME + r'\s*$', r'\.' + NAME, 'write `{1}` alone: an event has one name, and is declared in the chart alone'),
    (r'->\s*' + PATH + r'\s*/\s*$', r'\{', 'the transition action stands before the arrow: write `/ {{ .. }} -> {0};`'),
    (r'->\s*@?' + PATH + r'\s*$', r'\[', 'the guard stands before the arrow: write `[..] -> {0};`'),
    (r'->\s*@?' + PATH + r'\s*$', r'\{', 'the actions stand before the arrow: write `{{ .. }} -> {0};`'),
    (r'->\s*' + PATH + r'\s*$', r'=', 'an action stands before the arrow and in braces: write `/ {{ x = ..; }} -> S;`'),
    (r'->\s*$', r'\(|"|\'', 'an arrow leads to the name of a state, or to @ and the name of a junction'),
    (r'\]\s*$', NAME, 'the order is event, guard, actions, arrow: write the event before the bracket, or the action in braces'),
    (r'\}\s*$', r'\[', 'the order is event, guard, actions, arrow: write the guard before the action'),
    (r'/\s*$', r'(?:send|emit|' + NAME + r'\s*(?:[=(;]|[-+*/]=|\+\+|--))', 'an action stands in braces: write `/ {{ ..; }}`'),
    (r'\bdefault\s+' + NAME + r'\s*$', r';', 'write `default -> {0};`'),
    (r'\b(?:outer|inner)\s+' + NAME + r'\s*$', r';',
     'an arrow and a destination are missing: write `{0} -> S;`, and where it shall '
     'stay in the state `inner {0} -> @end;` with `junction end {{ }}`'),
    (r'[\]}]\s*$', r';',
     'an arrow and a destination are missing: write `-> S;`, or `-> @end;` with `junction end {{ }}` for one that '
     'stays in the state'),
    (r'\b(?:outer|inner|default)\s+' + NAME + r'\s*$', r'@', 'an arrow is missing: write `-> @`'),
    (r'', r'--+>|=+>|~>', 'an arrow is `->`'),
    (r'\b(?:outer|inner|default)\s+(?:from|on|to|when)\s*$', NAME, 'write the event alone: `outer E -> S;`'),
    (r'->\s*@?' + PATH + r'\s*$', r'', '; stands after the destination'),
]
IN_STATE = [
    (r'\b(entry|during|exit)\s*$', r':\s*((?:' + WORD_OF_ACTION + r'\s*:\s*)+)' + UNTIL, None),
    (r'\b(entry|during|exit)\s*$', r':' + UNTIL, 'write `{0} {{ {1}; }}`'),
    (r'\b(?:entry|during|exit)\s*$', r',', 'write one action for each, as `entry {{ a; }} during {{ a; }}`'),
    (r'\b(entry|during|exit)\s*$', NAME, 'an action stands in braces: write `{0} {{ {1} ..; }}`'),
    (r'', r'((?:' + WORD_OF_ACTION + r'\s*:\s*){2,})' + UNTIL, None),
    (r'', r'(en|du|ex)\s*:' + UNTIL, None),
    (r'', r'(' + WORD_OF_ACTION + r'(?:\s*,\s*' + WORD_OF_ACTION + r')+)\s*:' + UNTIL, None),
    (r'', r'on\s+' + NAME + r'\s*:' + UNTIL, ON),
    (r'', r'on\s+(after|every|before|at)\s*(\([^)]*\))', None),
    (r'', r'(?:bind)\b', 'there is no bind'),
    (r'', r'truthtable\b', 'there are no truth tables: write a junction with a transition for each column, in their order, '
     '`junction decide {{ [a && !b] {{ y = 1; }} -> @decided; {{ y = 0; }} -> @decided; }}` with `junction decided {{ }}`'),
    (r'', r'(?:function|eml|simfcn)\b', 'there are no functions: a region that is sent to takes their place, as '
     '`state Calc {{ inner CALL {{ y = x * x; }} -> @done; junction done {{ }} }}` and `send CALL to Calc;`'),
    (r'\b(?:input|output|local)\s*$', r'event\s+' + NAME, 'the word event comes first: write `event input {0};`'),
    (r'\bevent\s+(input|local|output)\s+' + NAME + r'\s*$', r',\s*' + NAME,
     'write `event {0} {1}; event {0} {2};`, one for each'),
    (r'\b(input|local|output)\s+' + NAME + r'\s*$', r',', 'write one declaration for each, as `{0} {1} : int16;`'),
    (r':\s*\w+\s*$', r'\[', 'there are no arrays: declare a datum for each element'),
    (r'', r'(and|or)\s+state\s+' + NAME, 'write `state {1} {0} {{`'),
    (r'\bevent\s*$', NAME + r'\s*;', 'write `event input {0};`, `event local {0};` or `event output {0};`'),
    (r'\b(input|output|local)\s+(bool|boolean|u?int\d*(?:_[tT])?|double|single|float|[su]fix\w+)\s*$', NAME,
     'the name comes first: write `{0} {2} : {1};`'),
    (r'\b(input|output|local)\s+' + NAME + r'\s*$', r'[;=]', 'a type is missing: write `{0} {1} : int16;`'),
    (r'', r'(?:data\s+|var\s+)?(bool|boolean|u?int\d*(?:_[tT])?|double|single|float|[su]fix\w+)\s+' + NAME,
     'a declaration begins with input, output '
     'or local: write `local {1} : {0};`'),
    (r'', r'(?:data|var|parameter|param|constant|const|define|persistent)\b\s*' + NAME,
     'a constant or a parameter is a datum that '
     'nothing assigns: write `local {0} : int16 = 3;`'),
    (r'', r'#', COMMENT),
    (r'', r'/\*|%|--', COMMENT),
    (r'', r'(?:initial|start)\b', 'write `default -> S;`'),
    (r'', r'H\s*;', 'write `history;`'),
    (r'\bhistory\s*$', r'', 'write `history;`'),
    (r'', r'(?:transition|trans)\b', 'a transition stands in the state that it leaves: write `outer E -> S;` there'),
    (r'\bjunction\s+\w+\s*\{[^{}]*$', r'(outer|inner|default)\b',
     'write the transition without the word {0}, which stands in states '
     'alone'),
    (r'', FREE + NAME + r'\s*-+>',
     'write `outer {0} -> S;`: a transition begins with outer, inner or default, and stands in the state that it '
     'leaves'),
    (r'', r'->', 'a transition begins with outer, inner or default: write `outer -> S;`, or `default -> S;`'),
    (r'', FREE + NAME + r'\s*[\[{/]', 'a transition begins with outer, inner or default: write `outer {0} .. -> S;`'),
    (r'', r'\[', 'a transition begins with outer, inner or default: write `outer [..] -> S;`'),
    (r'', NAME + r'\s*(?:=(?!=)|\+\+|\+=|-=)',
     'an assignment stands in an action: write `entry {{ {0} = ..; }}`, or during or exit'),
    (r'\bjunction\s+' + NAME + r'\s*$', r';', 'write `junction {0} {{ }}` for an empty junction'),
    (r'\bjunction\s*$', r'\{', 'a junction has a name: write `junction j {{ .. }}`'),
    (r'\bstate\s+' + NAME + r'\s*$', r';', 'write `state {0} {{ }}`'),
    (r'\bstate\s+' + NAME + r'\s*$', r'\(', 'write `state {0} or {{ .. }}` or `state {0} and {{ .. }}`'),
    (r'\bstate\s+' + NAME + r'\s*$', r'(?:OR|exclusive|XOR)\b', 'write `state {0} or {{ .. }}`'),
    (r'\bstate\s+' + NAME + r'\s*$', r'(?:AND|parallel)\b', 'write `state {0} and {{ .. }}`'),
    (r'', r'(?:substate|region|subchart|box)\b', 'write `state NAME {{ .. }}`, in a state with the word `and` for regions'),
    (r'', r'states\b', 'write one `state NAME {{ .. }}` for each'),
]


def fitting(rows, before, after):
    """The advice of the first row that fits, with what its patterns matched, or None."""
    for first, second, advice in rows:
        found, rest = re.search(first + r'\Z', before, re.S) if first else True, re.match(second, after, re.S)
        if found and rest:
            groups = (list(found.groups()) if first else []) + list(rest.groups())
            if advice is None:
                return words_of_state(groups)
            return advice.format(*('' if each is None else ' '.join(each.split()) for each in groups))
    return None


def words_of_state(groups):
    """The advice for `en, du: a` and `en: du: a`, and for temporal logic after `on`."""
    *words, last = groups
    if last.startswith('('):
        return call_advice(*words, last, 'on')
    names = dict.fromkeys(ACTIONS[each] for each in re.findall(r'\w+', ' '.join(words)))
    said = 'write `%s`' % ' '.join('%s { %s; }' % (name, last) for name in names)
    return said + (', or only the last of these, if no more is meant' if ':' in ''.join(words) or len(words) > 1 else '')


def reserved_advice(reader, after):
    """The advice where a reserved word stands as a name."""
    found = re.match(r'[A-Za-z]\w*', after)
    if found and found[0] in RESERVED and 'name' in reader.asked and found[0] not in reader.asked:
        before = reader.taken[-1].kind if reader.taken else ''
        if found[0] == 'event' and before in ('input', 'output', 'local'):
            return None
        if before in BEFORE_NAMES:
            return 'write another name, such as %s_1: `%s` is a reserved word' % (found[0], found[0])
    return None


def is_in_expression(reader):
    """Whether an operand or an operator is expected."""
    return is_within(reader, 'whole_expression') or '&&' in reader.asked


def rows_for(reader):
    """The rows that hold at a place."""
    rows = PATHS + (IN_EXPRESSION if is_in_expression(reader) else [])
    if is_within(reader, 'block') and reader.asked != {'{'}:
        rows = PATHS + IN_ACTION[:9] + rows + IN_ACTION[9:]
    elif is_within(reader, 'transition'):
        rows = rows + IN_TRANSITION
    else:
        rows = rows + IN_STATE
    return rows + [('', r'/\*|%', COMMENT)]


def arrow_advice(text, after):
    """The advice for a transition between two states that is written as `A -> B`."""
    found = re.match(NAME + r'\s*-+>\s*([\w./]+)', after)
    if found and re.search(r'\bstate\s+%s\b' % found[1], text) and not re.search(r'\bevent\s+\w+\s+%s\b' % found[1], text):
        goal = found[2].replace('.', '/')
        return 'write `outer -> %s;` in %s: a transition stands in the state that it leaves' % (goal, found[1])
    return None


def kind_of(text, name):
    """How an event or a datum of that name is declared in a text that may have faults, as `event local` or `input`, or None."""
    found = re.search(r'\b(event\s+)?(input|local|output)\s+%s\b' % name, text)
    return found and ('event ' if found[1] else '') + found[2]


def event_advice(text, before, after):
    """What to write instead of a statement that is an event, as `L` or `B.L`, or None where none stands there."""
    head, rest = re.search(r'[{;}/]\s*' + NAME + r'\s*\Z', before), re.match(r'((?:\.[A-Za-z]\w*)*)\s*[;}]', after)
    if not head or not rest:
        return None
    *path, event = [head[1], *rest[1].split('.')[1:]]
    kind = kind_of(text, event)
    if kind == 'event output':
        return 'write `emit %s;`' % event
    if path:
        return 'write `send %s to %s;`' % (event, '/'.join(path))
    if kind == 'event local':
        return 'write `send %s;`' % event
    return 'write `%s = ..;`: a datum alone is no action' % event if kind in ('local', 'output') else None


def place_of(reader, before):
    """Where a call stands: `guard` for a guard or a value, else the word before the transition of which it is the event."""
    if is_in_expression(reader):
        return 'guard'
    found = re.search(r'\b(outer|inner|default)\s+\w+\s*\Z', before)
    return found[1] if found else 'outer'


def advice(reader, text, offset):
    """What to write at a place, or None where nothing usual stands there. The text before it has no fault."""
    before, after = text[:offset], text[offset:offset + 400]
    found = None
    called = re.search(NAME + r'\s*\Z', before[-200:])
    if re.match(r'\(', after) and called and called[1] not in RESERVED:
        found = call_advice(called[1], after, place_of(reader, before[-200:]))
    if found is None and is_within(reader, 'block'):
        found = event_advice(text, before[-200:], after)
    if found is None and 'a type' in reader.asked:
        found = type_advice(after)
    if found is None and 'input' not in reader.asked and not is_within(reader, 'block') and innermost(reader, 'state'):
        found = DECLARED if re.match(r'(?:event|input|output|local)\b', after) else None
    if found is None and 'outer' in reader.asked | {'outer'} and not is_within(reader, 'transition'):
        found = arrow_advice(text, after)
    return (found or fitting(BEFORE_OTHERS, before[-200:], after) or reserved_advice(reader, after)
            or fitting(rows_for(reader), before[-2000:], after))
