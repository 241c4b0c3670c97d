"""Why a goal doesn't come. `proved` is what a prover of charts says; each other reason is an argument of this tool, outside of all
proofs.

    constant        the guard hangs on no datum and no state
    never taken     flowlint tells that the transition is never enabled
    never true      the guard of the transition is never true, by one of the others
    never reached   no way leads to the state, the list or the junction, as flowlint tells; transitions whose guard is always false
                    and those that are never taken lead nowhere
    no values       z3 finds no values of the data with which the decision is so, whatever states are active
    all worlds      every world that a run can come to was tried, as all_worlds.py does"""
import time

from chart_check import Junction
from lint.dead import never_taken
from lint.reach import Reached
from measure.parts import CLIP, FAULT, OUTCOME, PAIR, STATE, TRANSITION, VALUE, is_shut

from suites.decisions import impossible
from suites.z3_found import z3

NOT_FOUND = 'not found within the limit'


def proved(model):
    """The goals that a prover of charts has proved impossible, by their keys, each with its words. There is no such prover yet:
    what `chart_prove` says of a chart is to be read here, and here alone."""
    del model
    return {}


class Reasons:
    """The reasons of a chart, by the keys of its goals. Those that are known before any run are found at once."""

    def __init__(self, parts):
        self.parts, self.chart = parts, parts.chart
        self.asked = set()
        self.found = {**parts.never, **proved(parts.model)}
        dead = never_taken(self.chart)
        shut = {each.at: (each, None) for each in self.chart.transitions() if is_shut(each)}
        reached = Reached(self.chart, {**dead, **shut})
        self.transitions(dead, reached)
        for state in self.chart.states[1:]:
            if state not in reached.states:
                self.say((STATE, parts.state_numbers[state]), 'no way leads to this state')

    def say(self, key, why):
        self.found.setdefault(key, why)

    def transitions(self, dead, reached):
        """The transitions that never run, with their decisions and assignments."""
        for each in self.parts.model.transitions:
            why = self.why_never(each, reached)
            for goal in self.parts.goals:
                if why and goal.owner == each.id:
                    self.say(goal.key, why)
            if each.resolved.at in dead:
                self.not_enabled(each.id, 'never taken, as flowlint tells')

    def not_enabled(self, owner, why):
        """Says why for what would come if a transition were enabled. Its guard may be evaluated, and may divide by 0."""
        for goal in self.parts.goals:
            if goal.owner == owner and (goal.kind in (TRANSITION, PAIR, CLIP) or goal.key[0:2] == (FAULT, 'overflow')
                                        or goal.kind == OUTCOME and goal.key[2]):
                self.say(goal.key, why)

    def never_true(self):
        """Says of the transitions whose guards are found to be never true that they never run."""
        for decision in self.parts.decisions:
            if decision.is_guard and (OUTCOME, decision.number, True) in self.found:
                self.not_enabled(decision.owner, 'its guard is never true')

    def why_never(self, each, reached):
        if isinstance(each.owner, Junction):
            return '' if each.owner in reached.junctions else 'no way leads to its junction'
        return '' if (each.owner, each.kind) in reached.done else 'no way leads to its list'

    def ask_z3(self, goals, until):
        """Asks z3 of the goals of decisions that are missing, each once, until that time."""
        for goal in goals:
            if z3 and goal.kind in (OUTCOME, VALUE, PAIR) and goal.key not in self.asked and time.process_time() < until:
                self.asked.add(goal.key)
                if impossible(self.parts, goal):
                    self.say(goal.key, 'no values of the data give it, says z3')
        self.never_true()

    def all_worlds(self, worlds, goals):
        """Takes what all worlds tell of the goals that are missing."""
        if worlds.is_whole:
            for goal in goals:
                if worlds.tells(goal):
                    self.say(goal.key, 'in none of the worlds that a run can come to, which are {:,}'.format(len(worlds.seen)))
