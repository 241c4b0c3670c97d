#!/usr/bin/env python3
r"""Bounds that no run of a chart overruns, from the rules of the language alone.

    python3 checks/reference/bounds.py CHART                                  writes what `flowc bounds CHART` writes
    python3 checks/reference/bounds.py --table [--check] < checks/tables/bounds_table.txt
    python3 checks/reference/bounds.py --against PROGRAM < checks/tables/bounds_table.txt

The answer is `depth D steps N` or `no bounds`, with status 0. A text that `check` refuses is refused in the same way. Where it is
`depth D steps N`, no start and no event of the chart ends with the fault `depth` or `steps` under bounds that are at least these.
`no bounds` doesn't say that a run of the chart meets such a fault under every bound.

A need is a pair of a depth and of steps: how much deeper than where it begins a piece of work may send, and how many steps it may
pay. A depth over 32 is 33, and steps over 50,000 are 50,001. Work that is done *in turn* needs the greatest of the depths and the
sum of the steps; *either* work needs the greatest of the depths and the greatest of the steps. *One more* than a need is one more
in both numbers.

Cells
    There is a cell for each event and each junction, and three for each event and each state: what it may need to visit the
    junction, to exit the state, to enter it, and to process it, while that event is the current one. The start and `tick` count as
    events. A transition is open under an event where it names that event or none.

    block           in turn: a step for an emit; one more than processing the root under E for `send E`; one more than
                    processing S under E for `send E to S`; nothing for an assignment
    list            in turn over its open transitions: the condition action; a step and the transition action, where that isn't
                    empty; a step and the cell of the junction, where the destination is one
    junction        its list
    exit of s       in turn: the exit action; of an OR either child's exit, of an AND each child's exit in turn
    enter s         in turn: the entry action; the default list; of an OR either child's entering, of an AND each in turn
    process s       in turn: the outer list; the during action; the inner list; and either of these: the children's processing, of
                    an OR either, of an AND each in turn; for each state that the outer or the inner list reaches by open
                    transitions, a firing with the home of that list and that state
    firing, home P  in turn: the default list of P; either exit of the children of P; either entering of the children of P

    The home of an outer list of s with destination d is the lowest state of which both are strictly below; that of an inner list
    of s is s.

    All cells begin with depth 0 and no step. Each is raised to what is said of it above, with the others as they stand, until
    nothing changes. Only the cells that those below ask for are looked at. What is said of a cell is at least each cell that it
    asks for, so this ends early where one of them is over 32 or over 50,000.

Bounds
    The greatest of the cells of entering the root at the start, and of processing the root under `tick` and under each input
    event; each of both numbers is at least 1. Where the depth is over 32 or the steps are over 50,000 there are no bounds.

A table has the form of tables.py, in blocks. The parts `chart TEXT` of a block are the lines of its chart text. The answer is the
line of the bounds, or that of the refusal. With `--against PROGRAM` nothing is answered: PROGRAM does `bounds` on each text, and
where that isn't the answer worked out by hand or not that of this program, it is written and the status is 1."""
import sys
from collections import namedtuple

import tables
from chart_check import Emit, Junction, Send, State, check_chart, home_of
from chart_syntax import Fault
from programs import Ended, differences, run

MOST_DEPTH, MOST_STEPS = 32, 50000
START, TICK = 'start', 'tick'                                # these count as events, beside those of the chart
JUNCTION, EXIT, ENTER, PROCESS = range(4)                    # the kinds of cells, in the order in which they are raised

Need = namedtuple('Need', 'depth steps')
Cell = namedtuple('Cell', 'event kind thing')                # the thing is a junction or a state
# What is done in turn: so many steps that are paid, the numbers of cells, those of cells of which one more is needed, and of each
# list of work either.
Work = namedtuple('Work', 'steps cells sends choices')
NOTHING, STEP = Work(0, [], [], []), Work(1, [], [], [])


def in_turn(works):
    made = Work(sum(work.steps for work in works), [], [], [])
    for work in works:
        made.cells.extend(work.cells)
        made.sends.extend(work.sends)
        made.choices.extend(work.choices)
    return made


def either(works):
    return Work(0, [], [], [works]) if works else NOTHING


def is_over(need):
    return need[0] > MOST_DEPTH or need[1] > MOST_STEPS


def need_of(work, needs):
    """The need of some work, by the needs of the cells."""
    depth, steps = 0, work.steps
    for number in work.cells:
        depth, steps = max(depth, needs[number][0]), steps + needs[number][1]
    for number in work.sends:
        depth, steps = max(depth, needs[number][0] + 1), steps + needs[number][1] + 1
    for choice in work.choices:
        found = [need_of(each, needs) for each in choice]
        depth, steps = max(depth, max(each[0] for each in found)), steps + max(each[1] for each in found)
    return min(depth, MOST_DEPTH + 1), min(steps, MOST_STEPS + 1)


def asked(work):
    """The numbers of the cells that some work asks for."""
    return set(work.cells).union(work.sends, *(asked(each) for choice in work.choices for each in choice))


def open_transitions(event, transitions):
    return [each for each in transitions if each.event is None or each.event is event]


def reached_states(event, transitions):
    """The states to which open transitions of a list lead, also through junctions."""
    states, junctions, waiting = [], set(), open_transitions(event, transitions)
    while waiting:
        destination = waiting.pop().destination
        if isinstance(destination, State):
            states.append(destination)
        elif destination not in junctions:
            junctions.add(destination)
            waiting += open_transitions(event, destination.transitions)
    return states


def homes(event, state):
    """The homes of the firings that the outer and the inner list of a state may find, each once."""
    return {home_of(state, kind, destination): True
            for kind in ('outer', 'inner') for destination in reached_states(event, state.lists[kind])}


class Cells:
    """The cells of a chart that those of the root ask for. Each has a number."""

    def __init__(self, chart):
        self.numbers, self.cells, self.works = {}, [], []
        inputs = [event for event in chart.events if event.kind == 'input']
        self.roots = [self.number(START, ENTER, chart.root)]
        self.roots += [self.number(event, PROCESS, chart.root) for event in [TICK] + inputs]
        while len(self.works) < len(self.cells):
            self.works.append(self.said_of(*self.cells[len(self.works)]))

    def number(self, event, kind, thing):
        cell = Cell(event, kind, thing)
        if cell not in self.numbers:
            self.numbers[cell] = len(self.cells)
            self.cells.append(cell)
        return self.numbers[cell]

    def bounds(self):
        """The greatest of the cells of the root, at least 1 in both numbers, or None."""
        needs = self.raised()
        if needs is None:
            return None
        return Need(*(max([1] + [needs[root][part] for root in self.roots]) for part in (0, 1)))

    def raised(self):
        """The needs of the cells, each raised until nothing changes, or None where one of them comes to be over its limit."""
        needs, askers = [(0, 0)] * len(self.cells), [[] for _ in self.cells]
        waiting = [{}, {}, {}, {}]                           # the cells to be looked at, by their kinds
        for number, cell in enumerate(self.cells):
            waiting[cell.kind][number] = True
            for other in asked(self.works[number]):
                askers[other].append(number)
        while any(waiting):
            number, _ = next(numbers for numbers in waiting if numbers).popitem()
            need = need_of(self.works[number], needs)
            if is_over(need):
                return None
            if need != needs[number]:
                needs[number] = need
                for asker in askers[number]:
                    waiting[self.cells[asker].kind][asker] = True
        return needs

    # -- what is said of each cell, and of its parts

    def said_of(self, event, kind, thing):
        if kind == JUNCTION:
            return self.list(event, thing.transitions)
        if kind == EXIT:
            return in_turn([self.block(thing.blocks['exit']), self.children(event, EXIT, thing)])
        if kind == ENTER:
            return in_turn([self.block(thing.blocks['entry']), self.list(event, thing.lists['default']),
                            self.children(event, ENTER, thing)])
        inside = [self.children(event, PROCESS, thing)] + [self.firing(event, home) for home in homes(event, thing)]
        return in_turn([self.list(event, thing.lists['outer']), self.block(thing.blocks['during']),
                        self.list(event, thing.lists['inner']), either(inside)])

    def cell(self, event, kind, thing):
        return Work(0, [self.number(event, kind, thing)], [], [])

    def block(self, block):
        return in_turn([self.statement(statement) for statement in block])

    def statement(self, statement):
        if isinstance(statement, Send):
            return Work(0, [], [self.number(statement.event, PROCESS, statement.to)], [])
        return STEP if isinstance(statement, Emit) else NOTHING

    def list(self, event, transitions):
        return in_turn([self.transition(event, each) for each in open_transitions(event, transitions)])

    def transition(self, event, transition):
        parts = [self.block(transition.condition)]
        if transition.action:
            parts += [STEP, self.block(transition.action)]
        if isinstance(transition.destination, Junction):
            parts += [STEP, self.cell(event, JUNCTION, transition.destination)]
        return in_turn(parts)

    def children(self, event, kind, state):
        works = [self.cell(event, kind, child) for child in state.children]
        return in_turn(works) if state.composition == 'and' else either(works)

    def firing(self, event, home):
        return in_turn([self.list(event, home.lists['default'])]
                       + [either([self.cell(event, kind, child) for child in home.children]) for kind in (EXIT, ENTER)])


def bounds_of(chart):
    """The bounds of a checked chart, or None."""
    return Cells(chart).bounds()


def bounds_line(need):
    return 'no bounds' if need is None else 'depth %d steps %d' % need


def answer(text):
    """The answer of the command to a chart text, a character for each byte."""
    try:
        return Ended(bounds_line(bounds_of(check_chart(text))) + '\n', '', 0)
    except Fault as fault:
        return Ended('', fault.written(text) + '\n', 1)


# ---- the table

def text_of(block):
    return ''.join(tables.unescaped(line).decode('latin-1') + '\n' for line in block.values('chart'))


def answer_lines(block):
    found = answer(text_of(block))
    return (found.out + found.error).split('\n')[:-1]


def wrong_lines(block, program):
    """Where the program's answer to a block is another one than that of this program or the one worked out by hand."""
    text = text_of(block)
    told = run(program, ['bounds', 'chart'], {'chart': text.encode('latin-1')})
    lines = differences(block.name, answer(text), told)
    by_hand = ''.join(line + '\n' for line in block.expected)
    if told.out + told.error != by_hand:
        lines.append('%s: by hand %r, written %r' % (block.name, by_hand, told.out + told.error))
    return lines


def main(words):
    """Does what the words ask for, and gives the status."""
    if words in (['--table'], ['--table', '--check']):
        return tables.answer_table(sys.stdin.buffer, answer_lines, '--check' in words)
    if words[:1] == ['--against'] and len(words) == 2:
        wrong = [line for block in tables.blocks(sys.stdin.buffer) for line in wrong_lines(block, words[1])]
        sys.stdout.writelines(line + '\n' for line in wrong)
        return 1 if wrong else 0
    if len(words) != 1 or words[0].startswith('-'):
        sys.exit(__doc__)
    with open(words[0], 'rb') as file:
        found = answer(file.read().decode('latin-1'))
    sys.stdout.write(found.out)
    sys.stderr.write(found.error)
    return found.status


if __name__ == '__main__':
    sys.exit(main(sys.argv[1:]))
