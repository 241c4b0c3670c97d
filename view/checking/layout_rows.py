"""What flowfmt writes of the charts of layout_table.txt, of the examples and of random charts.

`chart TEXT` is a text. An answer has the lines that are written, or the line of the refusal."""
import random

from checking import text_of
from chart_syntax import WITH_HISTORY, Fault, next_token
from common.program import read_file, run
from layout.written import formatted, without_comments, wrong_layout
from random_charts import made_text

TABLE = 'layout_table.txt'
RANDOM_CHARTS = 30
LIKELY = 0.15                                # how likely a comment is put before a token


def layout_answer(block):
    """The lines of a row."""
    text = text_of(block, 'chart')
    try:
        out = formatted(text)
    except Fault as fault:
        return [fault.written(text)]
    wrong = wrong_layout(text, out)
    return out.replace('\r', '\\r').split('\n')[:-1] + (['wrong: ' + wrong] if wrong else [])


def wrong_examples(program, examples):
    """The examples whose layout isn't right, or isn't that of flowc without its comments."""
    lines = []
    for name, path in examples.items():
        text = read_file(path)
        out = formatted(text)
        wrong = wrong_layout(text, out)
        if run(program, ['fmt', path]).out.decode('latin-1') != without_comments(out):
            wrong = 'flowc fmt writes something else'
        if wrong:
            lines.append('%s: %s' % (name, wrong))
    return lines


def with_comments(choices, text):
    """A text with comments at random places, each of which says which one it is."""
    pieces, offset, number = [], 0, 0
    while True:
        token = next_token(text, offset)
        pieces.append(text[offset:token.offset])
        if choices.random() < LIKELY:
            number += 1
            before, behind = choices.choice(['', ' ', '\n']), choices.choice(['', ' ', ' // } ;', '\r', '\r.'])
            pieces.append('%s// %d%s\n' % (before, number, behind))
        pieces.append(text[token.offset:token.end])
        if token.kind == 'end':
            return ''.join(pieces)
        offset = token.end


def wrong_random(seed):
    """What is wrong with the layout of a random chart with random comments, or None; and whether it could be read."""
    choices = random.Random('layout %s' % seed)
    text = made_text(choices, WITH_HISTORY)
    try:
        text = with_comments(choices, text)
        return wrong_layout(text, formatted(text)), True
    except Fault:
        return None, False


def wrong_random_layouts():
    """The random charts whose layout isn't right, and how many could be read."""
    lines, seen = [], 0
    for number in range(RANDOM_CHARTS):
        wrong, readable = wrong_random(number)
        seen += readable
        if wrong:
            lines.append('random chart %d: %s' % (number, wrong))
    return lines if seen else ['no random chart could be read'], seen
