"""The whole search for a chart: by chance, over all worlds where these are few, by solving, and then the reduction."""
import time

from measure.parts import Parts
from suites.all_worlds import AllWorlds
from suites.finder import Finder
from suites.reasons import Reasons
from suites.reduction import Reduction
from suites.solving import Solving
from suites.walks import Walks
from suites.worlds import Guided, Machine

WALKS = 100                 # so many walks are gone before the clock and the others are asked
REDUCTION = 0.25            # the part of the time that is kept for the reduction
FIRST = 0.15                # the part in which runs go by chance alone
STILL = 0.35                # the search ends where nothing new came in this part


class Search:
    """What was found for a chart: the files as lists of lines, and the reasons of what doesn't come."""

    def __init__(self, model, seconds, seed, longest, depth, steps):
        begun = time.process_time()
        self.parts = Parts(model, depth, steps)
        self.machine = Machine(Guided(self.parts, depth, steps))
        self.finder = Finder(self.parts, self.machine, longest, begun + seconds * (1 - REDUCTION))
        self.reasons = Reasons(self.parts)
        self.exclude()
        self.walks, self.solving = Walks(self.finder, seed), Solving(self.finder)
        self.worlds = AllWorlds(self.finder)
        self.find(begun, seconds)
        self.reasons.ask_z3(self.finder.open_goals(), time.process_time() + seconds / 20)
        self.files = Reduction(self.finder, max(begun + seconds, time.process_time() + seconds * REDUCTION / 2)).files
        self.seconds = time.process_time() - begun

    def exclude(self):
        """Tells the finder what can't come, so that nothing looks for it."""
        self.finder.excluded = set(self.reasons.found)

    def find(self, begun, seconds):
        finder = self.finder
        while not finder.is_over() and time.process_time() < begun + seconds * FIRST:
            self.walks.go(WALKS)
        if not finder.is_over():
            self.reasons.ask_z3(finder.open_goals(), time.process_time() + seconds / 10)
            self.exclude()
            self.all_worlds(self.worlds, begun + seconds * (1 - REDUCTION) / 2)
            if self.worlds.is_whole and not finder.is_over():
                self.all_worlds(AllWorlds(finder, exact=True), time.process_time() + seconds / 10)
        finder.last_gain = time.process_time()
        while not finder.is_over() and time.process_time() < finder.last_gain + seconds * STILL:
            self.walks.go(WALKS)
            self.solving.go(time.process_time() + seconds / 40)

    def all_worlds(self, worlds, until):
        """Tries all worlds, and takes what they tell."""
        worlds.go(until)
        self.reasons.all_worlds(worlds, self.finder.missing)
        self.exclude()
