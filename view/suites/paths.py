"""A run of the rules over inputs that are unknown from some line on, and its path condition."""
from chart_check import ends_of
from measure.covered import Covered
from suites.numbers import Flag, Number, Path, value_of
from suites.z3_found import z3


class Traced(Covered):
    """The rules over unknown inputs. What is asked for is told by the decision of a condition or by the number of an assignment."""

    def __init__(self, parts, depth, steps, path):
        super().__init__(parts, depth, steps)
        self.path = path

    def truth(self, found, role):
        self.path.what = role.condition[0]
        value = bool(found)
        self.path.what = None
        return value

    def number(self, mantissa, fraction):
        if isinstance(mantissa, Number):
            return Number(self.path, mantissa.concrete / 2 ** fraction, mantissa.term, fraction)
        return super().number(mantissa, fraction)


class Unknown:
    """The inputs of some lines as terms, with what their types allow."""

    def __init__(self, path, inputs):
        self.path, self.inputs = path, inputs
        self.terms, self.ranges = {}, []

    def line(self, place, values):
        """The inputs of a line, unknown ones with these values in this run."""
        found = {}
        for datum in self.inputs:
            name = '%s@%d' % (datum.name, place)
            if datum.scale is None:
                term = self.terms[place, datum] = z3.Bool(name)
                found[datum] = Flag(self.path, values[datum], lambda term=term: term)
            else:
                term = self.terms[place, datum] = z3.Int(name)
                least, greatest = ends_of(datum.scale)
                self.ranges += [term >= least, term <= greatest]
                found[datum] = Number(self.path, values[datum], term, datum.scale.fraction)
        return found


def traced(machine, node, lines, inputs):
    """The path and the unknown inputs of some lines after a node, whose other inputs are as they were."""
    rules, path = machine.rules, Path()
    run = Traced(rules.parts, rules.most_depth, rules.most_steps, path)
    run.active, run.remembered = set(node.active), dict(node.remembered)
    run.values = dict(zip(rules.chart.data, node.values))
    unknown = Unknown(path, inputs)
    values = {datum: value_of(run.values[datum]) for datum in inputs}
    starts = []
    for place, (event, given) in enumerate(lines):
        values.update({datum: value for datum, value in given.items() if datum in values})
        starts.append(len(path.asked))
        others = {datum: value for datum, value in given.items() if datum not in values}
        if run.react(event, {**others, **unknown.line(place, values)}) != 'ok':
            break
    return path, unknown, starts
