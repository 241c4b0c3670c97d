"""Runs by chance: short walks from worlds that were new, or that came nearest to what is missing. A line is often given again, up
to many times, since counters count lines."""
import random

from suites.inputs import events_of, held, inputs_read, tried_values

LONGEST_WALK = 12
LONGEST_REPEAT = 300


class Walks:
    """Walks of a finder, by a seed."""

    def __init__(self, finder, seed):
        chart = finder.parts.chart
        self.finder, self.machine = finder, finder.machine
        self.choices = random.Random(seed)
        self.events, self.inputs = events_of(chart), inputs_read(chart)
        self.tried = {datum: tried_values(chart, datum) for datum in self.inputs}
        self.numbers = [datum for datum in chart.data if datum.scale]
        self.places = {datum: place for place, datum in enumerate(chart.data)}

    def go(self, rounds):
        """Walks so many times, or until nothing is missing or the time is over."""
        for _ in range(rounds):
            if self.finder.is_over():
                return
            self.walk(self.beginning())

    def beginning(self):
        """A node to begin at."""
        finder, chance = self.finder, self.choices.random()
        if finder.near and chance < 0.4:
            return self.choices.choice(list(finder.near.values()))
        if chance < 0.7:
            return self.choices.choice(finder.kept[-40:] or [finder.start])
        return self.choices.choice(finder.kept) if chance < 0.95 and finder.kept else finder.start

    def walk(self, node):
        choices, left = self.choices, self.choices.randint(1, LONGEST_WALK)
        while left and node.result == 'ok' and node.length < self.finder.longest:
            left -= 1
            if node.before and choices.random() < 0.25:
                node = self.again(node, node.event, self.repeats())
            else:
                node = self.again(node, choices.choice(self.events), 1, self.values(node))

    def repeats(self):
        return self.choices.choice((1, 2, 3, 5, 10, 30, LONGEST_REPEAT))

    def again(self, node, event, times, inputs=None):
        """Gives a line some times, as long as something changes."""
        for _ in range(times):
            if node.result != 'ok' or node.length >= self.finder.longest:
                break
            after = self.machine.step(node, event, inputs or {})
            is_new = self.finder.give(after)
            if times > 1 and not is_new and after.world() == node.world():
                return after
            node = after
        return node

    def values(self, node):
        """Other values of some inputs."""
        choices = self.choices
        if not self.inputs or choices.random() < 0.4:
            return {}
        some = choices.sample(self.inputs, choices.randint(1, min(3, len(self.inputs))))
        return {datum: self.value(datum, node) for datum in some}

    def value(self, datum, node):
        if datum.scale and self.numbers and self.choices.random() < 0.2:
            other = node.values[self.places[self.choices.choice(self.numbers)]]
            return held(datum, other + self.choices.randint(-1, 1) * held(datum, 1))
        return self.choices.choice(self.tried[datum])
