"""The parts of the check that are of flowfmt, flowls, flowreq, flownames and flowfmu."""
from checking import blocks_of, differences, layout_rows, needs_rows, product_rows, server_rows
from checking.commands import wrong_calls
from checking.desk_calls import CALLS, FILES
from common.program import find_chart_to_c

ANSWERS = {layout_rows.TABLE: layout_rows.layout_answer, server_rows.TABLE: server_rows.server_answer,
           needs_rows.TABLE: needs_rows.needs_answer}


def parts(program, examples):
    """Each part as its name, how much of what it looked at, and the lines on what is wrong."""
    for name, answer in ANSWERS.items():
        blocks = blocks_of(name)
        lines = [line for block in blocks for line in differences(block, answer(block))]
        yield name, '%d rows' % len(blocks), lines + (server_rows.words_without_rows(blocks) if name == server_rows.TABLE else [])
    chart_to_c = find_chart_to_c(None)
    none = [] if examples else ['no example']
    yield 'layouts of the examples', '%d charts' % len(examples), layout_rows.wrong_examples(program, examples) + none
    for name, what, work in (
            ('layouts of random charts', 'charts', layout_rows.wrong_random_layouts),
            ('sessions of flowls', 'sessions', server_rows.wrong_talks),
            ('parts of which functions are', 'functions', lambda: needs_rows.wrong_functions(chart_to_c, examples)),
            ('names read back against the C', 'lines', lambda: product_rows.wrong_names(chart_to_c)),
            ('units of co-simulation', 'lines', lambda: product_rows.wrong_units(chart_to_c)),
            ('calls of the tools at the desk', 'calls', lambda: wrong_calls(program, CALLS, FILES))):
        lines, seen = work()
        yield name, '%d %s' % (seen, what), lines
