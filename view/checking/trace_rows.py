"""What flowtrace makes of the changes of trace_table.txt, and of the traces of the examples.

`chart TEXT` is the chart. `changes TEXT` is expanded, and `trace TEXT` is shown; with `wanted TEXT` it is compared with that. The
answer has the lines that are written, or what is wrong."""
from checking import text_of
from chart_check import check_chart
from common.program import read_file
from traces.changes import changes_of, trace_of
from traces.compare import first_difference
from traces.lines import BadLine, is_trace, read_trace

TABLE = 'trace_table.txt'


def lines_of(chart, text):
    return read_trace(text) if is_trace(text) else trace_of(chart, text)


def trace_answer(block):
    """The lines of a row."""
    chart = check_chart(text_of(block, 'chart'))
    given, shown, wanted = (text_of(block, word) for word in ('changes', 'trace', 'wanted'))
    try:
        if wanted is not None:
            return first_difference(lines_of(chart, wanted), lines_of(chart, given or shown)) or ['the same']
        if shown is not None:
            return list(changes_of(chart, read_trace(shown)))
        return [line.text().rstrip('\n') for line in trace_of(chart, given)]
    except BadLine as fault:
        return ['line %d: %s' % (fault.number, fault.said)]


def round_trip(chart, trace):
    """What is wrong with the way from a trace to changes and back, or None."""
    try:
        changes = ''.join(line + '\n' for line in changes_of(chart, read_trace(trace)))
        if ''.join(line.text() for line in trace_of(chart, changes)) != trace:
            return 'the trace isn\'t given back'
        unnumbered = ''.join(line.split(' ', 1)[1] + '\n' for line in changes.split('\n') if line)
        if ''.join(line.text() for line in trace_of(chart, unnumbered)) != trace:
            return 'the trace isn\'t given back without numbers'
    except BadLine as fault:
        return 'the trace isn\'t read: line %d: %s' % (fault.number, fault.said)
    return None


def wrong_round_trips(examples):
    """The examples whose traces flowtrace doesn't give back."""
    lines = []
    for name, path in examples.items():
        wrong = round_trip(check_chart(read_file(path)), read_file(path[:-len('.chart')] + '.trace'))
        if wrong:
            lines.append('%s: %s' % (name, wrong))
    return lines
