"""Runs the tools of the folder view over random charts, for a check that .ci/run doesn't make.

    python3 checks/random/main.py tools --seed 1 --cases 1000 --against PROGRAM [--runs K] [--tests SECONDS]

A case is a chart of random_charts.py with an event file. flowwhy explains whatever PROGRAM refuses of it, and its first message
must be that of PROGRAM's line. Of an accepted chart flowlint gives its warnings, and then the chart runs over random event files
by the rules: no transition may be enabled that flowlint calls never taken, no state be entered and no junction with transitions
be visited that it calls never reached; a search that comes to a junction which it calls endless must end with a fault; no condition
may be otherwise than it says that it always is; no during action may run that it calls never run, and no state beside one be
entered of which it says that nothing leaves it. flowtrace must give back each trace. With `--tests SECONDS` flowtests searches so
long for each accepted chart, and no run may cover what it says can't come."""
import os
import random
import sys
from collections import Counter

sys.path.insert(0, os.path.join(os.path.dirname(os.path.abspath(__file__)), '..', '..', 'view'))
import beside                                # noqa: F401, which finds the other folders of checks
import chart_rules as rules                                                       # noqa: E402
from campaign import Campaign                                                     # noqa: E402
from chart_syntax import WITH_HISTORY                                             # noqa: E402
from checking.layout_rows import wrong_random                                      # noqa: E402
from checking.server_rows import wrong_answers                                    # noqa: E402
from checking.trace_rows import round_trip                                        # noqa: E402
from lint.conditions import Conditions                                            # noqa: E402
from lint.cycles import endless                                                   # noqa: E402
from lint.dead import never_run, never_taken                                      # noqa: E402
from lint.reach import Reached                                                    # noqa: E402
from lint.warnings import warnings                                                # noqa: E402
from lint.ways import without_way_out                                             # noqa: E402
from measure.covered import Covered                                               # noqa: E402
from measure.suite import met_goals                                               # noqa: E402
from picture.chart_model import ChartModel                                        # noqa: E402
from suites.search import Search                                                  # noqa: E402
from random_charts import event_file, made_case                                   # noqa: E402
from why.answer import answer                                                     # noqa: E402


class Noting(rules.Rules):
    """The rules, which note the transitions that they try and those that are enabled, and what contradicts what flowlint says."""

    def __init__(self, chart, depth, steps, said):
        super().__init__(chart, depth, steps)
        self.tried, self.enabled, self.said, self.wrong = set(), set(), said, set()

    def value(self, expression):
        found = super().value(expression)
        if self.said.constants.get(id(expression), found) is not found:
            self.wrong.add('a condition is otherwise than it always is')
        return found

    def block(self, life, statements):
        if id(statements) in self.said.blocks:
            self.wrong.add('a during action runs that never does')
        return super().block(life, statements)

    def enter(self, state, goal):
        before = self.marked[state]
        for trap in self.said.traps:
            if trap.parent is state.parent and trap is not state and self.marked[trap] and before == self.marked[state]:
                super().enter(state, goal)
                if self.marked[state] > before:
                    self.wrong.add('a state is left that nothing leaves')
                return None
        return super().enter(state, goal)

    def is_enabled(self, transition):
        self.tried.add(transition.at)
        found = super().is_enabled(transition)
        if found:
            self.enabled.add(transition.at)
        return found


class Said:
    """What flowlint says of a chart that a run may contradict."""

    def __init__(self, chart, dead, reached):
        self.constants = {id(expression): value for _, expression, value, _ in Conditions(chart).constants()}
        self.blocks = {id(state.blocks['during']) for state in never_run(chart)}
        self.traps = list(without_way_out(chart, reached, dead))


def wrong_runs(text, chart, seed, depth, steps, runs, counts):
    """What is wrong with the warnings and the traces of a chart."""
    for each in warnings(text, chart):
        counts['warning ' + each.kind] += 1
    dead, circling = never_taken(chart), {each.transitions[0].at for each in endless(chart)}
    reached = Reached(chart, dead)
    said = Said(chart, dead, reached)
    hidden = {each.transitions[0].at for each in chart.junctions if each not in reached.junctions and each.transitions}
    choices = random.Random('%s runs' % seed)
    for _ in range(runs):
        noted = Noting(chart, depth, steps, said)
        ended = rules.run_events(noted, event_file(choices, chart).encode('latin-1'))
        result = ended.out.split('\n')[-2].split(' ')[5]
        counts['runs'] += 1
        counts['run ends with %s' % result] += 1
        yield from noted.wrong
        if noted.enabled & set(dead):
            yield 'a transition is enabled that is never taken'
        if any(each not in reached.states for each in noted.marked):
            yield 'a state is entered that never is'
        if noted.tried & hidden:
            yield 'a junction is visited that never is'
        if noted.tried & circling and result == 'ok':
            yield 'a cycle ends that never does'
        wrong = round_trip(chart, ended.out)
        if wrong:
            yield wrong


def wrong_tests(text, seed, depth, steps, seconds, runs, counts):
    """What random runs cover though flowtests says that it can't come."""
    search = Search(ChartModel(text), seconds, 1, 100, depth, steps)
    choices, noted = random.Random('%s tests' % seed), set()
    for _ in range(runs):
        covered = Covered(search.parts, depth, steps)
        rules.run_events(covered, event_file(choices, search.parts.chart).encode('latin-1'))
        noted |= covered.noted
    never = [goal for goal in search.parts.goals if goal.key in search.reasons.found]
    counts['goals'] += len(search.parts.goals)
    counts["goals that can't come"] += len(never)
    counts['charts of which all worlds were tried'] += search.worlds.is_whole
    for goal in met_goals(never, noted):
        yield "%s: %s: %s, and it comes" % (goal.where, goal.what, search.reasons.found[goal.key])


def wrong_explanation(program, folder, text, data, depth, steps, counts):
    """What is wrong with what flowwhy says."""
    names = [os.path.join(folder, name) for name in ('chart', 'events')]
    for name, content in zip(names, (text, data)):
        with open(name, 'wb') as file:
            file.write(content.encode('latin-1'))
    with open(os.devnull, 'wb') as nowhere:
        ran, lines = answer(program, names, ['--depth=%d' % depth, '--steps=%d' % steps], (depth, steps), nowhere)
    counts['status %d' % ran.status] += 1
    if ran.status not in (0, 1, 3):
        return 'flowc ends with status %d' % ran.status
    heads = [line for line in lines[1:] if ': error: ' in line and not line.startswith('  ')]
    counts['messages'] += len(heads)
    if ran.status and not heads:
        return 'nothing is said of %s' % ran.line
    if any('the checks find' in line for line in lines):
        return 'the message is of another fault than %s' % ran.line
    return None


def wrong_at_the_desk(text, name, counts):
    """What is wrong with the answers of flowls at random places of a text, which may be cut, and with the layout by flowfmt of
    another random chart with random comments."""
    choices = random.Random('%s server' % name)
    if choices.random() < 0.5:
        first = choices.randrange(len(text) + 1)
        text = text[:first] + text[first + choices.choice([1, 5, len(text)]):]
    yield from wrong_answers(text, choices)
    wrong, readable = wrong_random(name)
    counts['layouts'] += readable
    yield wrong


def add_options(reader):
    reader.add_argument('--against', required=True, metavar='PROGRAM', type=os.path.abspath)
    reader.add_argument('--runs', type=int, default=20)
    reader.add_argument('--tests', type=float, default=0, metavar='SECONDS')


def try_case(given, folder, place, counts):
    """Tries a case, and writes what is wrong of it."""
    text, chart, data, depth, steps = made_case(given.seed, place, WITH_HISTORY)
    name = '%s %d' % (given.seed, place)
    found = [wrong_explanation(given.against, folder, text, data, depth, steps, counts)]
    found += wrong_at_the_desk(text, name, counts)
    if chart:
        counts['accepted'] += 1
        found += wrong_runs(text, chart, name, depth, steps, given.runs, counts)
        if given.tests:
            found += wrong_tests(text, name, depth, steps, given.tests, given.runs, counts)
    for each in filter(None, dict.fromkeys(found)):
        print('case %d: %s' % (place, each))


def campaign(options, folder):
    """Tries the tools; main.py calls it."""
    counts = Counter()
    return Campaign(lambda number: try_case(options, folder, number, counts), lambda: {'tools': counts})
