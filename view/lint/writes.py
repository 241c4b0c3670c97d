"""Outputs that two regions assign, and assignments without an effect."""
import common                                # noqa: F401, which finds the folder checks
from chart_check import Assign, Between, Emit, Read
from lint.counts import blocks_with_states, may_be_together, step_of
from lint.uses import parts_of


def by_two_regions(chart):
    """The outputs that two regions of an AND assign, each with both states and the later statement. A count that both of them
    count is none."""
    first = {}
    for state, block in blocks_with_states(chart):
        for statement in block:
            if isinstance(statement, Assign) and statement.datum.kind == 'output' and not step_of(statement):
                for each in first.setdefault(statement.datum, {}):
                    if are_parallel(each, state):
                        yield statement, each, state
                        break
                first[statement.datum][state] = True


def are_parallel(first, second):
    """Whether two states are in two regions of an AND."""
    return may_be_together(first, second) and not (first is second or first.is_below(second) or second.is_below(first))


def reads(expression, datum):
    return any(each == Read(datum) for each in parts_of(expression))


def may_fault(statement):
    """Whether the value, or that it doesn't fit, may end the run."""
    return statement.datum.mode == 'error' or any(isinstance(each, Between) and each.operator == '/'
                                                  for each in parts_of(statement.value))


def without_effect(chart):
    """The assignments of a datum to itself, and those after which the same action assigns it again before anything reads it; each
    with the second assignment, or None."""
    for block in chart.blocks():
        for place, statement in enumerate(block):
            if isinstance(statement, Assign) and statement.value == Read(statement.datum):
                yield statement, None
            elif isinstance(statement, Assign) and not may_fault(statement):
                again = overwritten(statement, block[place + 1:])
                if again:
                    yield statement, again


def overwritten(statement, rest):
    """The next assignment of the same datum, where nothing before it reads the datum or sends, or None."""
    for each in rest:
        if isinstance(each, Assign):
            if reads(each.value, statement.datum) or may_fault(each):
                return None
            if each.datum is statement.datum:
                return each
        elif not isinstance(each, Emit):
            return None
    return None
