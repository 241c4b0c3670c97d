"""What is said of a code text that is refused."""
import re

from common.places import Message, offset_of

REFUSAL = re.compile(r'code ([0-9]+): ([0-9]+) (\w+)')
OF_TEXT = re.compile(r'code: ([0-9]+) (\w+)')
OF_FORM = re.compile(r'code: 6 Form ([0-9]+) (\w+) ([0-9]+)\.([0-9]+)')
LINES = {'states': 's PARENT COMP NAME', 'data': 'd KIND SCALE MODE INIT NAME', 'events': 'e KIND NAME'}
HEADS = ('states N', 'data N', 'events N', 'procs N START REACT')
FORMS = {
    'BadNumber': 'the instruction names a procedure, a state, a datum or an event that isn\'t there',
    'SkipOut': 'it would skip past the end of its procedure',
    'CallNotLower': 'a call names a procedure with a lower number than its own',
    'CodeTypes': 'the types of its parts don\'t fit',
    'TooHigh': 'the procedure calls too deep',
    'TooMuchWork': 'the procedure has too much work',
    'TooManyProcs': 'there are too many procedures, or one is too long',
    'NoRet': 'the last instruction of a procedure is a ret',
    'BadTable': 'the tables of states, data and events don\'t fit together',
    'BadKeep': 'keep and last name a state whose parent is an or',
}
PAGE = 'docs/CODE.md says which code is accepted'


def code_message(text, line):
    """The message of flowc's line about a code text, or None."""
    form = OF_FORM.fullmatch(line)
    if form:
        at = offset_of(text, 2) if form[2] == 'BadTable' else instruction_at(text, int(form[3]), int(form[4]))
        said = FORMS.get(form[2], 'the code isn\'t well formed')
        return Message(at, form[2], said, ('procedure %s, place %s; %s' % (form[3], form[4], PAGE),), line_end(text, at))
    found = REFUSAL.fullmatch(line)
    if found:
        at = offset_of(text, int(found[1]))
        if found[3] == 'Trailing':
            return Message(at, found[3], 'something follows the line end', ('write: nothing after it',), line_end(text, at))
        notes = ('the line that stands here is `%s`' % wanted_line(text, int(found[1])), PAGE)
        return Message(at, found[3], 'no such line stands here', notes, line_end(text, at))
    of_text = OF_TEXT.fullmatch(line)
    if not of_text:
        return None
    if of_text[2] == 'Truncated':
        lines = text.count('\n') + 1
        return Message(len(text), of_text[2], 'the text ends too early',
                       ('the line that is missing is `%s`, and each line ends with byte 10' % wanted_line(text, lines),))
    said = {'Version': 'the first line names no format that is known', 'TextTooLong': 'the text is too long'}
    note = {'Version': 'write: flowcode 2', 'TextTooLong': 'a code text has at most 268435456 bytes'}
    return Message(0, of_text[2], said.get(of_text[2], 'the code is refused'), (note.get(of_text[2], PAGE),), line_end(text, 0))


def line_end(text, at):
    stop = text.find('\n', at)
    return len(text) if stop < 0 else max(at + 1, stop)


def instruction_at(text, procedure, place):
    """Where the instruction of a procedure stands, or the line of the procedure where it has none."""
    seen = -1
    heads = re.compile(r'^p [0-9]+$', re.M)
    for head in heads.finditer(text):
        seen += 1
        if seen == procedure:
            at = head.end() + 1
            for _ in range(place):
                at = text.find('\n', at) + 1
            return at
    return 0


def wanted_line(text, number):
    """The form of the line of that number, by the lines before it."""
    lines = text.split('\n')[:number - 1]
    wanted = ['flowcode 2']
    heads = iter(HEADS)
    for line in lines:
        kind = wanted.pop(0)
        count = re.match(r'\w+ ([0-9]+)', line)
        count = int(count[1]) if count else 0
        word = kind.split(' ')[0]
        if word in LINES:
            wanted += [LINES[word]] * min(count, 2000)
        elif word == 'procs':
            wanted += ['p N'] * min(count, 300000) + ['end']
        elif word == 'p':
            wanted[:0] = ['an instruction'] * min(count, 1000000)
        if not wanted:
            wanted = [next(heads, 'end')]
    return wanted[0]
