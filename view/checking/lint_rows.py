"""What flowlint says of the charts of lint_table.txt, and of the examples.

`chart TEXT` is a chart that is accepted. An answer is `LINE:COLUMN KIND`, or `none`. Each kind has a row with a warning of it,
and a row named KIND_not without one."""
import glob
import os

from checking import text_of
from chart_check import check_chart
from common import CHECKOUT
from common.places import line_and_column
from common.program import read_file
from lint.warnings import IDLE, KINDS, warnings

TABLE = 'lint_table.txt'
# The warnings on the examples, which are meant: in these charts a rule is shown by what flowlint warns of.
MEANT = {
    'recipes/at_the_start': ['DefaultTests', 'DefaultTests', 'NeverUsed'],
    'recipes/if_else': ['DefaultTests'],
    'recipes/quotients': ['CoarseLiteral'],
    'semantics/broadcast_in_entry': ['OnlyWritten'],
    'semantics/broadcast_in_exit': ['NotHeard'],
    'semantics/default_path': ['DefaultTests', 'NeverEntered'],
    'semantics/depth_fault': ['NotHeard'],
    'semantics/directed_send': ['NotHeard'],
    'semantics/empty_junction': ['NeverEntered', 'NeverTaken'],
    'semantics/left_and_entered_again': ['NeverEntered'],
    'semantics/no_transition_fits': ['NeverUsed'],
    'semantics/numbers': ['OnlyWritten'] * 5,
    'semantics/overflow_error': ['OnlyWritten'],
    'semantics/steps_fault': ['EndlessCycle'],
}


def told(text):
    """The warnings of a text, as their places and kinds."""
    return ['%d:%d %s' % (*line_and_column(text, each.offset), each.kind) for each in warnings(text, check_chart(text))]


def lint_answer(block):
    return told(text_of(block, 'chart')) or ['none']


def kinds_without_rows(blocks):
    """The kinds that no row shows, or no row shows the lack of."""
    with_it = {line.split(' ')[1] for block in blocks for line in block.expected if ' ' in line}
    without = {block.name.split('_not')[0] for block in blocks
               if '_not' in block.name and not any(block.name.split('_not')[0] in line for line in block.expected)}
    return ['no row has the warning %s' % kind for kind in (*KINDS, IDLE) if kind not in with_it] + [
        'no row named %s_not is without it' % kind for kind in (*KINDS, IDLE) if kind not in without]


def examples():
    """The charts of the examples, by folder and name."""
    return {path[len(CHECKOUT) + len('/examples/'):-len('.chart')]: path
            for path in sorted(glob.glob(os.path.join(CHECKOUT, 'examples', '*', '*.chart')))}


def wrong_examples():
    """The examples whose warnings aren't those that are meant."""
    found = examples()
    lines = ['%s: no such example' % name for name in MEANT if name not in found]
    for name, path in found.items():
        kinds = sorted(line.split(' ')[1] for line in told(read_file(path)))
        if kinds != MEANT.get(name, []):
            lines.append('%s: warns %s, and %s is meant' % (name, kinds, MEANT.get(name, [])))
    return lines
