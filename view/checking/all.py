"""All parts of the check."""
import sys

from checking import desk
from checking import Wrong, blocks_of, differences, text_of, written_again
from checking import lint_rows, suite_rows, trace_rows, why_rows
from checking.commands import wrong_calls
from checking.formats import wrong_formats
from checking.pages import wrong_calls_of_tests, wrong_cases, wrong_recipes, wrong_warnings

ROWS_OF_WHY = 100           # flowwhy is checked over at least so many texts


def answers(program):
    """What answers each table."""
    return {why_rows.TABLE: lambda block: why_rows.why_answer(program, block), lint_rows.TABLE: lint_rows.lint_answer,
            trace_rows.TABLE: trace_rows.trace_answer, suite_rows.TABLE: suite_rows.suite_answer}


def parts(program):
    """Each part as its name, how much of what it looked at, and the lines on what is wrong."""
    blocks = {}
    for name, answer in answers(program).items():
        blocks[name] = blocks_of(name)
        lines = [line for block in blocks[name] for line in differences(block, answer(block))]
        if name == lint_rows.TABLE:
            lines += lint_rows.kinds_without_rows(blocks[name])
        if name == why_rows.TABLE and len(blocks[name]) < ROWS_OF_WHY:
            lines.append('under %d rows' % ROWS_OF_WHY)
        yield name, '%d rows' % len(blocks[name]), lines
    texts = [text_of(block, 'chart') for block in blocks[why_rows.TABLE] if block.values('chart')]
    lines = ['%s: %s' % (wrong, text) for text in texts for wrong in why_rows.wrong_expectations(text)]
    yield 'what may stand at a fault, tried', '%d texts' % len(texts), lines
    examples = lint_rows.examples()
    none = [] if examples else ['no example']
    yield 'warnings on the examples', '%d charts' % len(examples), lint_rows.wrong_examples() + none
    yield 'round trips of the traces', '%d traces' % len(examples), trace_rows.wrong_round_trips(examples) + none
    yield from desk.parts(program, examples)
    lines, seen = wrong_cases()
    yield 'cases of docs/SEMANTICS.md', '%d cases' % seen, lines
    lines, seen = wrong_recipes(program)
    yield 'recipes of docs/CHART_TEXT.md', '%d charts' % seen, lines
    lines, seen = wrong_warnings()
    yield 'examples of docs/WARNINGS.md', '%d kinds' % seen, lines
    lines, seen = wrong_calls(program)
    yield 'calls of the tools', '%d calls' % seen, lines
    lines, seen = wrong_calls_of_tests()
    yield 'calls of docs/TESTS.md', '%d calls' % seen, lines
    lines, seen = wrong_formats(program)
    yield 'reports in other formats', '%d reports' % seen, lines


def checked(program):
    """Writes a line for each part, and what is wrong, and gives the status."""
    status = 0
    try:
        for name, count, lines in parts(program):
            print('%s: %s, %s' % (name, count, 'all as they should be' if not lines else '%d lines differ' % len(lines)))
            for line in lines:
                print('  ' + line)
            status = 1 if lines else status
    except Wrong as wrong:
        print(wrong)
        return 1
    return status


def rewritten(program, name):
    """Writes a table with the answers that are given now."""
    sys.stdout.write(written_again(name, {**answers(program), **desk.ANSWERS}[name]))
    return 0
