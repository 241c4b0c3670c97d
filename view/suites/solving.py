"""Other inputs by solving. A run over unknown inputs gives its path condition; the flags that it asked for are negated one by one,
z3 looks for inputs with which the run goes as before up to there and then otherwise, and the rules run these."""
import time
from collections import Counter
from fractions import Fraction

from suites.inputs import events_of, inputs_read
from suites.paths import traced
from suites.z3_found import z3

LONGEST_CHECK = 300         # milliseconds for one question
MOST_TRIES = 3              # so often a way is asked for from one set of active states
TAILS = 2, 4, 8, 24         # so many lines at the end of a run have unknown inputs


class Solving:
    """Questions to z3, for a finder."""

    def __init__(self, finder):
        self.finder, self.machine = finder, finder.machine
        self.inputs, self.events = inputs_read(finder.parts.chart), events_of(finder.parts.chart)
        self.tries, self.asked = Counter(), set()
        self.questions = 0
        self.solver = z3.Solver() if z3 else None
        if z3:
            self.solver.set('timeout', LONGEST_CHECK)

    def go(self, until):
        """Solves until that time: first one line after the nodes that were new, then the last lines of runs to what is missing."""
        if not z3 or not self.inputs:
            return
        for node in self.finder.kept[::-1]:
            for event in self.events:
                if self.is_over(until):
                    return
                if (node, event) not in self.asked:
                    self.asked.add((node, event))
                    self.one_line(node, event, until)
        self.tails(until)

    def is_over(self, until):
        return self.finder.is_over() or time.process_time() > until

    def one_line(self, node, event, until):
        """Goes all ways of one line after a node."""
        if node.length >= self.finder.longest:
            return
        self.finder.give(self.machine.step(node, event, {}))
        waiting = [{}]
        while waiting and not self.is_over(until):
            values = waiting.pop()
            lines = [(event, values)]
            for found in self.others(node, lines, (node.active, event), 0, until):
                self.finder.give(self.machine.step(node, *found[0]))
                waiting.append(found[0][1])

    def tails(self, until):
        """Asks for other inputs of several lines, where they may decide what is missing."""
        for number, nodes in self.finder.evaluated().items():
            for node in nodes:
                run = node.nodes()
                for count in TAILS:
                    begin = max(0, len(run) - 1 - count)
                    if self.is_over(until):
                        return
                    if len(run) > 1 and (node, number, begin) not in self.asked:
                        self.asked.add((node, number, begin))
                        lines = [(each.event, each.inputs) for each in run[begin + 1:]]
                        for found in self.others(run[begin], lines, (node, number, begin), len(lines) - 1, until, number):
                            self.give_all(run[begin], found)

    def give_all(self, node, lines):
        for event, inputs in lines:
            if node.result != 'ok':
                break
            node = self.machine.step(node, event, inputs)
            self.finder.give(node)

    def others(self, node, lines, origin, first, until, decision=None):
        """Lines with other inputs, one answer for each flag that was asked in the line with that place or after it."""
        path, unknown, starts = traced(self.machine, node, lines, self.inputs)
        begin = starts[first] if first < len(starts) else len(path.asked)
        solver, found, way = self.solver, [], ()
        solver.push()
        solver.add(*unknown.ranges)
        for place, (term, value, what) in enumerate(path.asked):
            if self.is_over(until):
                break
            if place >= begin and (decision is None or what == decision) and self.is_worth(origin, way, place, value):
                solver.push()
                solver.add(z3.Not(term) if value else term)
                self.questions += 1
                if solver.check() == z3.sat:
                    found.append(self.lines_of(solver.model(), unknown, lines))
                solver.pop()
            solver.add(term if value else z3.Not(term))
            way = hash((way, term.hash(), value))
        solver.pop()
        return found

    def is_worth(self, origin, way, place, value):
        """Whether that flag wasn't asked often enough after the same way."""
        key = origin, way, place, value
        self.tries[key] += 1
        return self.tries[key] <= MOST_TRIES

    @staticmethod
    def lines_of(model, unknown, lines):
        """The lines with the inputs of an answer; those that it leaves open stay."""
        found = [(event, dict(inputs)) for event, inputs in lines]
        for (place, datum), term in unknown.terms.items():
            value = model[term]
            if value is not None:
                found[place][1][datum] = z3.is_true(value) if datum.scale is None else Fraction(value.as_long(),
                                                                                                2 ** datum.scale.fraction)
        return found
