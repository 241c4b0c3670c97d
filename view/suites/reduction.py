"""Makes few and short files of what was found. First the keys are chosen that the goals need, of a condition the pair of
evaluations that adds fewest. Then files are put together of the shortest runs to these keys, each run going on where the last one
ended, as long as that covers something. At last lines are left out of each file as long as the files still cover all."""
import time

from measure.covered import VECTOR
from measure.pairs import pairs_of
from measure.parts import PAIR
from measure.suite import evaluations_of, met_goals

MOST_TRIED = 12             # so many runs are tried to go on with
LONGEST_FILE = 200          # a file isn't made longer by another run, which may be longer itself
FINEST = 60                 # of a long file no smaller part is left out than one of so many


def needed(goals, by_key):
    """The keys that the goals which come need."""
    evaluations = evaluations_of(by_key)
    keys = set()
    for goal in met_goals(goals, by_key):
        if goal.kind != PAIR:
            keys.add(goal.key)
    for goal in met_goals(goals, by_key):
        if goal.kind == PAIR:
            number = goal.key[1]
            pairs = [[(VECTOR, number, *one) for one in pair] for pair in pairs_of(goal.key[2], evaluations[number])]
            keys.update(min(pairs, key=lambda pair: (sum(1 for key in pair if key not in keys),
                                                     sum(by_key[key].length for key in pair))))
    return keys


class Reduction:
    """Files that cover the keys, as lists of lines."""

    def __init__(self, finder, until):
        self.finder, self.machine, self.until = finder, finder.machine, until
        self.keys = needed(finder.parts.goals, finder.by_key)
        self.runs = list({id(node): node for node in (finder.by_key[key] for key in self.keys)}.values())
        self.files = self.trimmed(self.joined())

    def joined(self):
        """Files that cover all keys, each as its lines."""
        files, left = [], set(self.keys) - self.finder.start.noted
        while left:
            node, covered = self.grown(left)
            files.append(node.lines())
            left -= covered
        return files or [[]]

    def grown(self, left):
        """The end of a file that covers some of what is left, and what it covers."""
        node, covered = self.finder.start, set()
        while node.result == 'ok' and node.length < LONGEST_FILE:
            best = self.best_run(node, left - covered)
            if best is None:
                break
            covered |= best.covered() & left
            node = best
        return node, covered

    def best_run(self, node, left):
        """The end of the run that goes on from a node and covers most of what is left by its lines. A run that ends with a fault
        closes the file, so it comes after the others."""
        promising = sorted(((len(run.covered() & left), run) for run in self.runs), key=lambda pair: (
            pair[1].result != 'ok', -pair[0] / (pair[1].length + 1)))
        best, best_gain = None, 0
        for gain, run in [pair for pair in promising if pair[0]][:MOST_TRIED]:
            if time.process_time() > self.until and best is not None:
                break
            if best is not None and run.result != 'ok' and best.result == 'ok':
                break
            end = self.machine.run(run.lines(), node)
            gain = len(end.covered() & left) / (end.length - node.length + 1)
            if gain > best_gain:
                best, best_gain = end, gain
        if best is None and node is self.finder.start and promising:
            return max(promising, key=lambda pair: pair[0])[1]
        return best

    def trimmed(self, files):
        """The files without lines that nothing needs. What a file must cover is what the others don't."""
        covered = [self.machine.run(lines).covered() & self.keys for lines in files]
        for place in sorted(range(len(files)), key=lambda place: len(covered[place])):
            others = set().union(*(each for at, each in enumerate(covered) if at != place))
            files[place] = self.shorter(files[place], self.keys - others)
            covered[place] = self.machine.run(files[place]).covered() & self.keys if files[place] else set()
        left = [lines for lines in files if lines]
        return sorted(left, key=len) if left else [[]]

    def shorter(self, lines, wanted):
        """Lines from which no more are left out that aren't needed for what is wanted, in halves, quarters and so on."""
        if wanted <= self.finder.start.noted:
            return []
        size = max(1, len(lines) // 2)
        while size > len(lines) // (2 * FINEST) and time.process_time() < self.until:
            at = 0
            while at < len(lines) and time.process_time() < self.until:
                fewer = lines[:at] + lines[at + size:]
                if wanted <= self.machine.run(fewer).covered():
                    lines = fewer
                else:
                    at += size
            size //= 2
        return self.simpler(lines, wanted) if len(lines) <= 2 * FINEST else lines

    def simpler(self, lines, wanted):
        """Lines without inputs that nothing needs."""
        for place, (event, inputs) in enumerate(lines):
            for datum in list(inputs):
                if time.process_time() > self.until:
                    return lines
                fewer = {each: value for each, value in inputs.items() if each is not datum}
                changed = lines[:place] + [(event, fewer)] + lines[place + 1:]
                if wanted <= self.machine.run(changed).covered():
                    lines, inputs = changed, fewer
        return lines
