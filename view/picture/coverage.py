"""Which states and transitions a run leaves without a sign.

A trace has the active states after each event and nothing of what happened in it. So it proves little of transitions: one
whose event is an input event that no line has can't have been taken, nor one whose event is a local event that nothing sends.
Of another it may only have no sign: no state from which it can be reached was active before any event, or its destination was
active after none. In one event a state may be entered and left again, which no line shows; and a state that is active on two
lines may have been left and entered between them. A run by the reference tells all this exactly, and how decisions and their
conditions were evaluated too. Several runs leave what each of them leaves."""
from collections import namedtuple

from chart_check import Junction, Send, State
from common.places import line_and_column
from measure.parts import ENABLED, OUTCOME, PAIR, STATE, TRANSITION, VALUE
from measure.suite import counts, counts_text, met_goals

CANNOT, NO_SIGN, NEVER, SHUT = 'cannot', 'no-sign', 'never', 'shut'
DECISIONS = OUTCOME, VALUE, PAIR

# The kind says how sure it is, and the text why.
Gap = namedtuple('Gap', 'kind text')

CAVEAT = ('A trace shows the states after each event, and nothing of what happened within one. So a state without a sign may have '
          'been entered and left within one event, a transition without a sign may have been taken within one, and a '
          'transition that has signs need not have been taken. Only those marked \u201ccan\u2019t have been taken\u201d are certain.')
EXACT = ('The reference in checks/ ran the chart and told which states were entered, also those that were left again within an event, '
         'and which transitions ran: those on a way that ended at a state or at an empty junction. A transition that was tried, '
         'and from whose junction the search came back, isn\u2019t counted, nor one whose search was cut or ended by a fault; but one '
         'from which every search comes back is counted where it was enabled.')


class Gaps:
    """What some runs of a chart leave: the gaps of states, of transitions and of junctions, by their ids. Of runs by the reference
    alone there are decisions too: the goals that there are, and those that came."""

    def __init__(self, model):
        self.model, self.exact = model, False
        self.states, self.transitions, self.junctions = {}, {}, {}
        self.goals, self.met = [], []

    def add_decisions(self, runs):
        """Takes what runs by the reference noted of decisions and their conditions."""
        parts = runs[0].parts
        self.goals = [goal for goal in parts.goals if goal.kind in DECISIONS and goal.key not in parts.never]
        self.met = met_goals(self.goals, set().union(*(run.noted for run in runs)))

    def state_ids(self):
        return [self.model.state_ids[state] for state in self.model.chart.states[1:]]

    def junction_gaps(self):
        """The junctions to which only transitions with a gap lead."""
        leading = {}
        for each in self.model.transitions:
            if isinstance(each.destination, Junction):
                leading.setdefault(self.model.junction_ids[each.destination], []).append(each.id)
        return {key: Gap(NO_SIGN, 'reached by no transition that has a sign') for key, ids in leading.items()
                if all(each in self.transitions for each in ids)}

    def why(self):
        """A sentence for each id that is drawn in grey."""
        return {key: gap.text for gaps in (self.states, self.transitions, self.junctions) for key, gap in gaps.items()}

    def head(self):
        states, transitions = len(self.model.chart.states) - 1, len(self.model.transitions)
        head = '%d of %d states, %d of %d transitions' % (states - len(self.states), states,
                                                          transitions - len(self.transitions), transitions)
        sure = sum(1 for gap in self.transitions.values() if gap.kind in (CANNOT, SHUT))
        return head + ('' if self.exact else ' with a sign') + (', %d certainly not taken' % sure if sure else '')

    def missing(self):
        """The goals of decisions that didn't come."""
        met = {goal.key for goal in self.met}
        return [goal for goal in self.goals if goal.key not in met]

    def parts_covered(self):
        """For each kind how many are covered, or have a sign, and how many there are. A transition whose guard is always false isn't
        counted."""
        states, transitions = len(self.model.chart.states) - 1, len(self.model.transitions)
        shut = sum(1 for gap in self.transitions.values() if gap.kind == SHUT)
        return {STATE: (states - len(self.states), states), TRANSITION: (transitions - len(self.transitions), transitions - shut),
                **counts(self.goals, self.met)}

    def items(self):
        """For each gap what it is of, its text in the chart or nothing, and why."""
        for state in self.model.chart.states[1:]:
            gap = self.states.get(self.model.state_ids[state])
            if gap:
                yield 'state ' + self.model.paths[state], '', gap.text
        for each in self.model.transitions:
            if each.id in self.transitions:
                junction = each.kind == 'junction'
                owner = 'junction ' + each.owner.name if junction else self.model.paths[each.owner] or 'chart'
                place = '%s, %s %d' % (owner, 'transition' if junction else each.kind, each.place)
                yield place, each.text, self.transitions[each.id].text

    def note(self):
        return EXACT if self.exact else CAVEAT

    def text(self):
        """The report in words."""
        lines = [self.head()] + ([counts_text(counts(self.goals, self.met))] if self.goals else [])
        lines += ['%s%s: %s' % (what, ' `%s`' % text if text else '', why) for what, text, why in self.items()]
        lines += ['%s: never so: %s' % (goal.where, goal.what) for goal in self.missing()]
        return '\n'.join(lines + [self.note()]) + '\n'

    def as_json(self, runs):
        """The report as what JSON has."""
        missing = [{'part': what, 'text': text, 'why': why} for what, text, why in self.items()]
        for goal in self.missing():
            line, column = line_and_column(self.model.text, goal.at)
            missing.append({'part': goal.where, 'text': goal.what, 'why': 'never so', 'line': line, 'column': column})
        return {'chart': self.model.name, 'sum': self.model.sum, 'runs': runs, 'exact': self.exact, 'note': self.note(),
                'counts': {kind: {'covered': came, 'all': all_} for kind, (came, all_) in self.parts_covered().items()},
                'missing': missing}


class Coverage(Gaps):
    """The gaps of one run, which is told by its lines; of a run by the reference also by the rules, which noted what came."""

    def __init__(self, model, lines, rules=None):
        super().__init__(model)
        self.lines, self.rules = lines, rules
        self.exact = rules is not None
        if self.exact:
            self.by_reference()
        else:
            self.by_trace()
        self.junctions = self.junction_gaps()
        if self.exact:
            self.add_decisions([rules])

    def by_reference(self):
        parts, ids = self.rules.parts, self.model.state_ids
        met = {goal.key for goal in met_goals(parts.goals, self.rules.noted)}
        for goal in parts.goals:
            if goal.kind == STATE and goal.key not in met:
                self.states[ids[self.model.chart.states[goal.key[1]]]] = Gap(NEVER, 'never entered in this run')
            if goal.kind == TRANSITION and goal.key in parts.never:
                self.transitions[goal.owner] = Gap(SHUT, parts.never[goal.key])
            elif goal.kind == TRANSITION and goal.key not in met:
                self.transitions[goal.owner] = Gap(NEVER, 'never %s in this run' % ('enabled' if goal.key[0] == ENABLED else 'ran'))

    def by_trace(self):
        seen = {each for line in self.lines for each in line.states}
        before = {each for line in self.lines[:-1] for each in line.states}
        events = {line.event for line in self.lines}
        sent = {each.event for block in self.model.chart.blocks() for each in block if isinstance(each, Send)}
        self.states = {key: Gap(NO_SIGN, 'active on no line of this trace') for key in self.state_ids() if key not in seen}
        for each in self.model.transitions:
            gap = event_gap(each, events, sent) or self.place_gap(each, seen, before)
            if gap:
                self.transitions[each.id] = gap

    def place_gap(self, transition, seen, before):
        """The gap of a transition whose source or destination has no sign."""
        ids = self.model.state_ids
        if not any(state.parent is None or ids[state] in (seen if kind == 'default' else before)
                   for kind, state in transition.lists):
            return Gap(NO_SIGN, 'no sign: no state from which it can be reached was active before an event')
        destination = transition.destination
        if isinstance(destination, State) and ids[destination] not in seen:
            return Gap(NO_SIGN, 'no sign: its destination is active on no line')
        return None


class Suite(Gaps):
    """The gaps that several runs leave together: those that each of them leaves. One is as sure as the least sure of them."""

    def __init__(self, model, runs):
        super().__init__(model)
        self.exact = all(run.exact for run in runs)
        self.states, self.transitions = (shared([getattr(run, kind) for run in runs]) for kind in ('states', 'transitions'))
        self.junctions = self.junction_gaps()
        if self.exact:
            self.add_decisions([run.rules for run in runs])


def shared(gaps):
    """The gaps that all runs have, each the least sure one of them, and those that no run can fill."""
    order = [NO_SIGN, CANNOT, NEVER]
    found = {key: gap for each in gaps for key, gap in each.items() if gap.kind == SHUT}
    for key in gaps[0]:
        if key not in found and all(key in each for each in gaps):
            found[key] = min((each[key] for each in gaps), key=lambda gap: order.index(gap.kind))
    return found


def event_gap(transition, events, sent):
    """The gap of a transition whose event never came."""
    event = transition.event
    if event and event.kind == 'input' and event.name not in events:
        return Gap(CANNOT, 'can\u2019t have been taken: no line has the event %s' % event.name)
    if event and event.kind == 'local' and event not in sent:
        return Gap(CANNOT, 'can\u2019t have been taken: nothing sends %s' % event.name)
    return None
