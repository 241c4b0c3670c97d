#!/usr/bin/env python3
r"""Random charts and event files, each made from a seed and a number alone.

    python3 checks/random/random_charts.py texts N [SEED] > table      a table for chart_check.py and chart_texts.py
    python3 checks/random/random_charts.py runs N [SEED] > table       a table for chart_rules.py --table
    python3 checks/random/random_charts.py coverage N [SEED]           how often N charts and their runs met each case

Chart number i of a seed is the same in all three, and doesn't depend on N. The word `--without-history` before the others
keeps to the older form of the language. In `runs` every chart that is refused is left out, but for one in twenty of them.

A chart is made valid first. A list of a state may reach certain states only: a default list those below its state, an
inner list of an OR that state and those below it, another inner list none, an outer list those with which the home is an
OR. Each junction is given a set of states that it may reach, and whether it may be reached from default lists, where it
needs a last transition without event and guard. A list or a junction leads to junctions with a smaller set only, so that
nothing else is reached. Then two charts in five are changed, in one to four places, so that the faults 9 to 26 come
about; a change may leave the chart valid. A few are damaged as texts. The items of a state are written in any order, with
blanks and comments between the tokens, and with what may be written or left out."""
import itertools
import random
import re
import sys
from collections import Counter
from fractions import Fraction

import beside                                # noqa: F401, which finds the other folders of checks
import chart_check as check
import chart_rules as rules
import chart_syntax as syntax
import tables
from chart_syntax import (WITH_HISTORY, WITHOUT_HISTORY, Active, Assign, Between, Datum, Emit, Event, Fault, First, Flag,
                          Guard, Junction, Name, Number, Read, Scale, Send, Sign, State, ToJunction, ToState, Transition,
                          line_of)
from demands import demand

STATE_NAMES = 'A B C D E P Q R'.split()
JUNCTION_NAMES = 'j k l A'.split()
DATA_NAMES = 'n m x y b c u v'.split()
EVENT_NAMES = 'GO UP IN L M N o p'.split()
NOWHERE = 0                                                  # the place of what stands in no text


def name(text):
    return Name(text, NOWHERE)


def number(text):
    whole, behind, bits = re.fullmatch(r'([0-9]+)(?:\.([0-9]+))?(?:q([0-9]+))?', text).groups()
    return Number(whole, behind or '', bits, NOWHERE)


class Maker:
    """Makes one chart, by a source of random choices."""

    def __init__(self, choices, history):
        self.choices, self.history = choices, history
        self.parents = {}
        self.order = []                                      # the states in the order of the text
        # What this chart has much or little of.
        self.often = {what: choices.choice([0.1, 0.3, 0.6])
                      for what in ('send', 'emit', 'directed', 'block', 'action', 'guard', 'junction')}
        self.often['plain'] = choices.choice([0, 0.03, 0.1])
        # In a calm chart most sends stand where an input event leads, and few transitions without event do anything.
        self.calm = choices.random() < 0.75
        self.most_states = choices.choice([2, 4, 7, 12, 20])
        self.sent = []                                       # each send's state and event
        # Most charts keep an account of what is done in which order, in a datum of this name.
        self.account = Name('h', NOWHERE) if choices.random() < 0.75 else None

    def chance(self, likely):
        return self.choices.random() < likely

    # -- the tree

    def chart(self):
        """The whole chart, as a tree."""
        self.root = self.state('Chart', None, 0)
        self.declarations()
        self.junctions()
        for state in self.order:
            self.fill(state)
        for state, event in self.sent:
            if self.chance(0.6):
                self.listener(state, event)
        self.usual = set()
        self.enter_usually(self.root)
        for _ in range(self.choices.choice([0, 1, 2, 3, 4, 6])):
            self.scene()
        return syntax.Chart(self.root, self.events, self.data)

    def state(self, text, parent, depth):
        state = State(name(text), None)
        self.parents[state] = parent
        self.order.append(state)
        if depth == 0 or depth < 6 and len(self.order) < self.most_states and self.chance(0.55):
            state.word = self.choices.choice(['or', 'or', 'and'])
            names = self.choices.sample(STATE_NAMES, self.choices.choice([1, 2, 2, 3, 3, 4]))
            state.states = [self.state(each, state, depth + 1) for each in names]
        return state

    def ancestors(self, state):
        while self.parents[state]:
            state = self.parents[state]
            yield state

    def below(self, state):
        return [each for each in self.order if state in self.ancestors(each)]

    def declarations(self):
        kinds = ['input'] * self.choices.choice([1, 1, 2, 2, 3]) + ['local'] * self.choices.choice([0, 1, 1, 2])
        kinds += ['output'] * self.choices.choice([0, 1, 2])
        texts = self.choices.sample(EVENT_NAMES, len(kinds))
        self.events = [Event(kind, name(text)) for kind, text in zip(kinds, texts)]
        self.choices.shuffle(self.events)
        texts = self.choices.sample(DATA_NAMES, self.choices.choice([0, 1, 2, 3, 4, 5]))
        self.data = [self.datum(text) for text in texts]
        if self.account:
            self.data.append(Datum('local', self.account, Scale('u', 32, 0), 'wrap', None))

    def datum(self, text):
        """A datum with that name."""
        kind = self.choices.choice(['input', 'output', 'local', 'local'])
        if self.chance(0.2):
            first = None
            if self.chance(0.5):
                first = First('', Flag(self.choices.choice(['true', 'false']), NOWHERE), NOWHERE)
            return Datum(kind, name(text), 'bool', None, first)
        scale = self.scale()
        first = self.first(scale) if self.chance(0.5) else None
        modes = [None, 'saturate', 'wrap', 'error', 'error']
        if self.calm:
            modes = [None, 'saturate', 'saturate', 'wrap', 'wrap', 'wrap', 'wrap', 'error']
        return Datum(kind, name(text), scale, self.choices.choice(modes), first)

    def scale(self):
        width = self.choices.choice([1, 2, 3, 4, 8, 8, 8, 16, 16, 32, 64])
        fraction = self.choices.choice([0, 0, 0, self.choices.randint(0, min(width, 32)), min(width, 32)])
        return Scale(self.choices.choice('ssu'), width, fraction)

    def first(self, scale):
        """A first value of that scale, or one of which that is likely."""
        least, greatest = check.ends_of(scale)
        mantissa = self.choices.choice([least, greatest, 0, 1, self.choices.randint(least, greatest)])
        mantissa = min(mantissa, greatest)
        text = rules.value_text(Fraction(abs(mantissa), 2 ** scale.fraction))
        if len(text.replace('.', '')) > syntax.MOST_DIGITS:
            return None
        if self.chance(0.3):
            text += 'q%d' % self.choices.randint(scale.fraction, 32)
        minus = mantissa < 0 or mantissa == 0 and self.chance(0.3)
        return First('-' if minus else '', number(text), NOWHERE)

    # -- which states a list may reach

    def allowed(self, state, kind):
        if kind == 'default':
            return frozenset(self.below(state))
        if kind == 'inner':
            return frozenset([state] + self.below(state)) if state.composition() == 'or' else frozenset()
        return frozenset(each for each in self.order[1:] if self.home(state, each).composition() == 'or')

    def home(self, state, destination):
        return next(each for each in self.ancestors(state) if each in self.ancestors(destination))

    def junctions(self):
        """Declares the junctions. Each knows what it may reach, and is one that default lists may reach, or isn't."""
        self.reach = {}                                      # by state and name: the states that it may reach, and closed
        for _ in range(self.choices.choice([0, 1, 2, 4, 7])):
            state = self.choices.choice(self.order + [self.root] * 3)
            inside = [each for each in self.order if each is state or state in self.ancestors(each)]
            free = [each for each in JUNCTION_NAMES if (state, each) not in self.reach]
            if not free:
                continue
            text = self.choices.choice(free)
            user = self.choices.choice(inside)
            closed = user.composition() == 'or' and self.chance(0.5)
            kind = 'default' if closed else self.choices.choice(['inner', 'outer'])
            allowed = self.allowed(user, kind) if kind != 'outer' or user is not self.root else frozenset()
            if self.chance(0.6):
                allowed = frozenset(each for each in self.order if each in allowed and self.chance(0.5))
            if self.chance(0.08):
                allowed = frozenset()
            self.reach[state, text] = (allowed, closed)
            state.junctions.append(Junction(name(text), []))
        for place, ((state, text), (allowed, closed)) in enumerate(self.reach.items()):
            before = place if self.calm and self.chance(0.9) else None
            length = self.choices.choice([1, 1, 2, 3]) if closed else self.choices.choice([0, 1, 2, 2, 3])
            junction = next(each for each in state.junctions if each.name.text == text)
            junction.transitions.extend(self.transitions(state, allowed, closed, length, None, before))
            if closed and not junction.transitions:
                junction.transitions.append(Transition(NOWHERE, None, None, [], [], ToJunction(name(text))))

    # -- what stands in a state

    def fill(self, state):
        """Gives a state its lists and its blocks."""
        if state.composition() == 'or':
            length = self.choices.choice([1, 1, 1, 2, 3])
            allowed = self.allowed(state, 'default')
            state.transitions['default'] = self.transitions(state, allowed, True, length, 'default')
            if self.history and self.chance(0.35):
                state.history = NOWHERE
        length = self.choices.choice([0, 0, 0, 0, 0, 1, 1, 2] if self.calm else [0, 0, 1, 2])
        state.transitions['inner'] = self.transitions(state, self.allowed(state, 'inner'), False, length, 'inner')
        if self.parents[state]:
            length = self.choices.choice([0, 1, 1, 2, 3, 4])
            state.transitions['outer'] = self.transitions(state, self.allowed(state, 'outer'), False, length, 'outer')
        for kind in ('entry', 'during', 'exit') if self.parents[state] else ('entry', 'during'):
            if self.chance(self.often['block']):
                calm = {'entry': 0.15, 'during': 0.05, 'exit': 0.7}[kind] if self.calm else 1
                state.blocks[kind] = self.block(state, calm)

    def transitions(self, state, allowed, closed, length, kind, before=None):
        """A list of at most that length, less where it has nowhere to lead to. With `before` it leads to that many of the
        junctions that were declared first only, so that they make no cycle."""
        made = []
        for place in range(length):
            last = closed and place == length - 1
            # In a list that default lists reach the transitions before the last may be open or not.
            destination = self.destination(state, allowed, closed, before)
            if destination is None:
                continue
            event = guard = None
            if not last:
                if self.events and not self.chance(self.often['plain'] if kind in ('outer', 'inner') else 0.6):
                    event = self.trigger()
                if self.chance(self.often['guard']):
                    guard = Guard(self.flag(state, 3), NOWHERE)
            by_input = event and next(each for each in self.events if each.name is event).kind == 'input'
            calm = (1.5 if by_input else 0.15) if self.calm else 1
            condition = self.block(state, calm) if self.chance(self.often['action']) else []
            action = self.block(state, calm) if self.chance(self.often['action']) else []
            made.append(Transition(NOWHERE, event, guard, condition, action, destination))
        if closed and made:
            made[-1] = made[-1]._replace(event=None, guard=None)
        if closed and kind == 'default' and not made:
            made = [Transition(NOWHERE, None, None, [], [], ToState([state.states[0].name]))]
        return made

    def listener(self, state, event):
        """Puts a transition with that event into a state or one round it, so that a send changes what its sender is in."""
        place = self.choices.choice([state, state, state, *self.ancestors(state)])
        kind = self.choices.choice(['outer', 'outer', 'inner'] if place is not self.root else ['inner'])
        destination = self.destination(place, self.allowed(place, kind), False)
        if destination:
            guard = Guard(self.flag(place, 2), NOWHERE) if self.chance(0.3) else None
            action = self.block(place, 0) if self.chance(self.often['action']) else []
            transitions = place.transitions[kind]
            at = self.choices.randint(0, len(transitions))
            transitions.insert(at, Transition(NOWHERE, event, guard, [], action, destination))

    # -- what seldom comes about by itself: a send in each kind of work, and a transition on it that ends this work

    def local(self):
        found = [each.name for each in self.events if each.kind == 'local']
        if not found:
            self.events.append(Event('local', name('Z')))
            found = [self.events[-1].name]
        return self.choices.choice(found)

    def put_first(self, state, kind, event, guard, condition, action, destination):
        """Puts a transition at the front of a list of a state, where it has somewhere to lead to."""
        if destination is None:
            destination = self.destination(state, self.allowed(state, kind), False, 0)
        if destination and (kind != 'outer' or self.parents[state]):
            state.transitions[kind].insert(0, Transition(NOWHERE, event, guard, condition, action, destination))

    def put_send(self, state, kind, event):
        """Puts a send into a block, with something before it and behind it or not."""
        to = self.path(state, self.choices.choice([state, *self.ancestors(state)])) if self.chance(0.2) else None
        block = self.block(state, 0) if self.chance(0.5) else []
        block.insert(self.choices.randint(0, len(block)), Send(event, to))
        block = self.accounted(block)
        if kind is None:
            return block
        there = state.blocks.get(kind, [])
        state.blocks[kind] = block + there if self.chance(0.5) else there + block
        return None

    def enter_usually(self, state):
        """Gathers the states that are likely to be entered at the start."""
        self.usual.add(state)
        if state.composition() == 'and':
            for each in state.states:
                self.enter_usually(each)
        elif state.composition() == 'or':
            destination = self.choices.choice(state.transitions['default']).destination
            found = None
            if isinstance(destination, ToState):
                found = next((each for each in state.states if each.name.text == destination.path[0].text), None)
            self.enter_usually(found or self.choices.choice(state.states))

    def put_work(self, state):
        """Gives a state something to do in its entry, during, exit and default actions and on its inner list, so that it is
        seen whether these are done."""
        for kind in ('entry', 'during', 'exit'):
            if self.chance(0.5) and kind not in state.blocks:
                state.blocks[kind] = self.block(state, 0)
        if self.chance(0.4):
            self.put_first(state, 'inner', None, None, self.block(state, 0), [], None)
        if state.transitions['default'] and self.chance(0.5):
            first = state.transitions['default'][0]
            state.transitions['default'][0] = first._replace(condition=first.condition + self.block(state, 0))

    def scene(self):
        # What is likely to be entered stands here three times.
        order = [each for each in self.order for _ in range(3 if each in self.usual else 1)]
        ors = [each for each in order if each.composition() == 'or']
        inside = [each for each in ors if each is not self.root]
        below_or = [each for each in order if self.parents[each] in ors and len(self.parents[each].states) > 1]
        ands = [each for each in order if each is not self.root and each.composition() == 'and']
        scene, states = self.choices.choice(
            [(self.exit_scene, inside)] * 2 + [(self.during_scene, below_or)] + [(self.search_scene, below_or)] * 3
            + [(self.default_scene, inside)] * 2 + [(self.entry_scene, ands), (self.again_scene, ands + below_or)]
            + [(self.way_scene, below_or)] + [(self.history_scene, inside)] * 2)
        if states:
            scene(self.choices.choice(states), self.local())

    def exit_scene(self, state, event):
        """An exit action that enters a child again."""
        self.put_work(state)
        self.put_send(state, 'exit', event)
        self.put_first(state, 'inner', event, None, [], [], None)

    def during_scene(self, state, event):
        """A during action that leaves its state."""
        self.put_work(state)
        self.put_send(state, 'during', event)
        self.put_first(state, 'outer', event, None, [], [], None)

    def search_scene(self, state, event):
        """A condition action that leaves the state of its list, before a junction, at one, or behind one."""
        self.put_work(state)
        place = self.choices.choice([state, *self.ancestors(state)])
        if all(each.name.text != 'w' for each in place.junctions):
            junction = Junction(name('w'), [])
            place.junctions.append(junction)
            self.reach[place, 'w'] = (frozenset(self.order), False)
            if self.chance(0.7):
                condition = self.put_send(place, None, event)
                junction.transitions.append(Transition(NOWHERE, None, None, condition, [], ToJunction(name('w'))))
        leads = ToJunction(name('w')) if self.seen_junction(state, 'w') is place and self.chance(0.7) else None
        condition = self.put_send(state, None, event) if self.chance(0.6) else []
        kind = self.choices.choice(['outer', 'outer', 'inner'])
        self.put_first(state, kind, self.trigger(), None, condition, [], leads)
        self.put_first(state, 'outer', event, None, [], [], None)

    def default_scene(self, state, event):
        """A default transition one of whose actions enters a child."""
        self.put_work(state)
        first = state.transitions['default'][0]
        change = {self.choices.choice(['condition', 'action']): self.put_send(state, None, event)}
        state.transitions['default'][0] = first._replace(**change)
        self.put_first(state, 'inner', event, None, [], [], None)

    def entry_scene(self, state, event):
        """An AND that is left in the entry action of its first child."""
        for each in state.states:
            self.put_work(each)
        self.put_send(state.states[0], 'entry', event)
        self.put_first(state, 'outer', event, None, [], [], None)

    def again_scene(self, state, event):
        """A state that is left and entered again, a number of times, in an action of its own or of its first child."""
        sender = state.states[0] if state.composition() == 'and' else state
        count = Name('w%d' % len(self.data), NOWHERE)
        self.data.append(Datum('local', count, Scale('u', 8, 0), None, None))
        guard = Guard(Between('<', Read(count), number(self.choices.choice('123')), NOWHERE), NOWHERE)
        step = Assign(count, Between('+', Read(count), number('1'), NOWHERE))
        path = self.path(state, state)
        if path and state in self.allowed(state, 'outer'):
            self.put_send(sender, self.choices.choice(['entry', 'during']), event)
            self.put_first(state, 'outer', event, guard, [step], [], ToState(path))

    def history_scene(self, state, event):
        """A state with history that is left and entered again in several ways, one of them while a child is entered."""
        if self.history:
            state.history = NOWHERE
        for child in state.states:
            self.put_first(child, 'outer', self.trigger(), None, [], [], None)
        path = self.path(state, state)
        if path and self.chance(0.6):
            self.put_first(state, 'inner', self.trigger(), None, self.block(state, 0), [], ToState(path))
        if self.chance(0.5):
            self.put_send(self.choices.choice(state.states), 'entry', event)
            self.put_first(state, 'outer', event, None, [], [], None)

    def way_scene(self, state, event):
        """A way through several junctions with an action on each part."""
        allowed = self.allowed(state, 'outer')
        path = self.path(self.root, self.choices.choice(sorted(allowed, key=self.order.index)))
        texts = ['w%d' % place for place in range(self.choices.choice([1, 2, 3]))]
        if any((self.root, text) in self.reach for text in texts):
            return
        for text, after in zip(texts, texts[1:] + [None]):
            self.reach[self.root, text] = (allowed, False)
            leads = ToJunction(name(after)) if after else ToState(path)
            transition = Transition(NOWHERE, None, None, [], self.block(self.root, 0), leads)
            self.root.junctions.append(Junction(name(text), [transition]))
        leads = ToJunction(name(texts[0])) if self.seen_junction(state, texts[0]) is self.root else None
        event = self.trigger() if self.chance(0.8) else event
        self.put_first(state, 'outer', event, None, [], self.block(state, 0), leads)

    def trigger(self):
        return self.choices.choice([each.name for each in self.events if each.kind != 'output'] or [None])

    def destination(self, state, allowed, closed, before=None):
        options = []
        for (place, text), (reached, is_closed) in list(self.reach.items())[:before]:
            if reached <= allowed and (is_closed or not closed) and self.seen_junction(state, text) is place:
                options.append(ToJunction(name(text)))
        states = sorted(allowed, key=self.order.index)
        path = self.path(state, self.choices.choice(states)) if states else None
        if path and (not options or not self.chance(self.often['junction'])):
            return ToState(path)
        return self.choices.choice(options) if options else None

    def seen_junction(self, state, text):
        """The state whose junction of that name is meant by what stands in a state."""
        for place in [state, *self.ancestors(state)]:
            if (place, text) in self.reach:
                return place
        return None

    def path(self, state, goal):
        """A path from that state on that means the goal, or None."""
        paths, way = [], [goal]
        for each in [goal, *self.ancestors(goal)][:-1]:
            way = [each.name] + way[1:] if each is goal else [each.name] + way
            for place in [state, *self.ancestors(state)]:
                found = next((child for child in place.states if child.name.text == each.name.text), None)
                if found:
                    if found is each:
                        paths.append(list(way))
                    break
        return self.choices.choice(paths) if paths else None

    # -- blocks

    def block(self, state, calm):
        """A block, in which sends are as likely as they are elsewhere, times a number."""
        statements = []
        for _ in range(self.choices.choice([1, 1, 2, 3])):
            statement = self.statement(state, calm)
            if statement:
                statements.append(statement)
        return self.accounted(statements)

    def accounted(self, statements):
        """A block with one or two more entries in the account."""
        for _ in range(self.choices.choice([0, 1, 1, 2]) if self.account else 0):
            entry = Between('*', Read(self.account), number('3'), NOWHERE)
            entry = Between('+', entry, number(str(self.choices.randint(1, 99))), NOWHERE)
            statements.insert(self.choices.choice([0, len(statements)]), Assign(self.account, entry))
        return statements

    def statement(self, state, calm):
        locals_ = [each.name for each in self.events if each.kind == 'local']
        if locals_ and self.chance(self.often['send'] * calm):
            to = None
            if self.chance(self.often['directed']):
                to = self.path(state, self.choices.choice(self.order[1:]))
            event = self.choices.choice(locals_)
            self.sent.append((state, event))
            return Send(event, to)
        outputs = [each.name for each in self.events if each.kind == 'output']
        if outputs and self.chance(self.often['emit']):
            return Emit(self.choices.choice(outputs))
        data = [each for each in self.data if each.kind != 'input']
        if not data:
            return None
        datum = self.choices.choice(data)
        if datum.sort == 'bool':
            return Assign(datum.name, self.flag(state, 3))
        if datum.sort.width > 1 and self.chance(0.4):
            step = number(self.choices.choice(['1', '1', '2', '0.5']))
            return Assign(datum.name, Between(self.choices.choice('++-'), Read(datum.name), step, NOWHERE))
        value, kind = self.number(state, self.choices.choice([1, 2, 3]))
        if kind.size + max(0, datum.sort.fraction - kind.fraction) > check.MOST_SIZE:
            value = number('1')
        return Assign(datum.name, value)

    # -- expressions

    def number(self, state, depth):
        """A number expression that isn't too wide, and its type."""
        data = [each for each in self.data if each.sort != 'bool']
        if depth == 0 or self.chance(0.3):
            if data and self.chance(0.6):
                datum = self.choices.choice(data)
                size = datum.sort.width - (datum.sort.sign == 's')
                return Read(datum.name), check.NumberType(datum.sort.fraction, size)
            literal = self.literal()
            return literal, check.type_of(check.Literal(syntax.mantissa_of(literal), syntax.fraction_of(literal)), [])
        if self.chance(0.2):
            operand, kind = self.number(state, depth - 1)
            return Sign('-', operand, NOWHERE), kind
        operator = self.choices.choice('++--*/')
        left, left_kind = self.number(state, depth - 1)
        right, right_kind = self.number(state, depth - 1)
        if operator == '/' and self.chance(0.8):
            right, right_kind = self.choices.choice([
                (number('3'), check.NumberType(0, 2)), (number('0.5'), check.NumberType(1, 0)),
                (Sign('-', number('7'), NOWHERE), check.NumberType(0, 3))])
        kind = check.type_between(operator, left_kind, right_kind)
        return (left, left_kind) if isinstance(kind, int) else (Between(operator, left, right, NOWHERE), kind)

    def literal(self):
        return number(self.choices.choice(['0', '1', '2', '3', '5', '10', '007', '0.5', '1.25', '0.1q4', '3q0', '00.50', '100',
                                           '255', '70000', '0.3q8', '2.75q1', '1.0q32', '0.0', '9999999999', '12.125']))

    def flag(self, state, depth):
        flags = [each.name for each in self.data if each.sort == 'bool']
        what = self.choices.choice(['compare', 'compare', 'compare', 'in', 'in', 'not', 'both', 'both', 'same', 'flag'])
        if depth > 0 and what == 'compare':
            left, left_kind = self.number(state, depth - 1)
            right, right_kind = self.number(state, depth - 1)
            operator = self.choices.choice(syntax.LEVELS[syntax.COMPARISON])
            if check.type_between(operator, left_kind, right_kind) == check.FLAG:
                return Between(operator, left, right, NOWHERE)
        if what == 'in':
            path = self.path(state, self.choices.choice(self.order[1:]))
            if path:
                return Active(path, NOWHERE)
        if depth > 0 and what == 'not':
            return Sign('!', self.flag(state, depth - 1), NOWHERE)
        if depth > 0 and what in ('both', 'same'):
            operator = self.choices.choice(['&&', '||'] if what == 'both' else ['==', '!='])
            return Between(operator, self.flag(state, depth - 1), self.flag(state, depth - 1), NOWHERE)
        if flags and self.chance(0.6):
            return Read(self.choices.choice(flags))
        return Flag(self.choices.choice(['true', 'true', 'false']), NOWHERE)


# ---- changes that make faults

class Changer:
    """Changes a chart in place. Each method named fault_N aims at that fault; it may do nothing, or make another one."""

    def __init__(self, choices, maker, chart):
        self.choices, self.maker, self.chart = choices, maker, chart
        self.most_items = 6

    def pick(self, things):
        things = list(things)
        return self.choices.choice(things) if things else None

    def chance(self, likely):
        return self.choices.random() < likely

    def states(self):
        return self.maker.order

    def lists(self):
        for state in self.states():
            for transitions in state.transitions.values():
                yield state, transitions
            for junction in state.junctions:
                yield state, junction.transitions

    def transition_places(self):
        return [(state, transitions, place) for state, transitions in self.lists() for place in range(len(transitions))]

    def change_transition(self, change, places=None):
        """Replaces parts of a transition by what the change gives for its state and itself."""
        found = self.pick(self.transition_places() if places is None else places)
        if found:
            state, transitions, place = found
            transitions[place] = transitions[place]._replace(**change(state, transitions[place]))

    def blocks(self):
        for state in self.states():
            for kind in ('entry', 'during', 'exit'):
                if state.blocks.get(kind):
                    yield state, state.blocks[kind]
        for state, transitions in self.lists():
            for transition in transitions:
                yield state, transition.condition
                yield state, transition.action

    def add_statement(self, statement):
        """Puts a statement into some block."""
        state, block = self.pick(list(self.blocks()) + [(None, None)] * 3)
        if block is None:
            state = self.pick(self.states())
            block = state.blocks.setdefault(self.pick(['entry', 'during']), [])
        block.insert(self.choices.randint(0, len(block)), statement)

    def put_expression(self, expression, is_flag):
        """Puts an expression somewhere: as a guard or as a value, alone or inside of a greater one."""
        if self.chance(0.3):
            other = self.pick([number('1'), Flag('true', NOWHERE)])
            left, right = self.choices.sample([expression, other], 2)
            expression = Between(self.pick(['+', '&&', '==', '*', '<']), left, right, NOWHERE)
        if self.chance(0.5):
            self.change_transition(lambda state, transition: {'guard': Guard(expression, NOWHERE)})
        else:
            data = [each for each in self.chart.data if (each.sort == 'bool') == is_flag] or self.chart.data
            if data:
                self.add_statement(Assign(self.pick(data).name, expression))

    def data(self, wanted=lambda datum: True):
        return [each for each in self.chart.data if wanted(each)]

    def event(self, *kinds):
        """An event of one of these kinds, which is declared where there is none."""
        found = self.pick([each for each in self.chart.events if each.kind in kinds])
        if not found:
            found = Event(self.pick(kinds), name('z' + self.pick('0123456789')))
            self.chart.events.append(found)
        return found

    def any_path(self, state):
        """A path that stands in that state and leads anywhere."""
        for _ in range(4):
            path = self.maker.path(state, self.pick(self.states()[1:]))
            if path:
                return ToState(path)
        return self.any_junction()

    # -- names

    def fault_9(self):
        kind = self.pick(['declared', 'states', 'junctions'])
        if kind == 'declared':
            lists = [each for each in (self.chart.events, self.chart.data) if each]
            one, other = self.pick(lists or [[]]), self.pick(lists or [[]])
            if one and other:
                copied, place = self.pick(other), self.choices.randrange(len(one))
                if self.chance(0.5):
                    one[place] = one[place]._replace(name=copied.name)
                else:
                    one.insert(self.choices.randint(0, len(one)), one[place]._replace(name=copied.name))
        elif kind == 'states':
            state = self.pick(self.states())
            if state.states:
                twin = State(self.pick(state.states).name, None)
                state.states.insert(self.choices.randint(0, len(state.states)), twin)
        else:
            state = self.pick(self.states())
            twin = Junction(name(self.pick(JUNCTION_NAMES)), [])
            state.junctions.append(twin)
            if len(state.junctions) == 1 or self.chance(0.5):
                state.junctions.append(Junction(twin.name, []))

    def fault_10(self):
        unknown = self.pick([name('nobody'), name('j'), name('A'), name('C')])
        kind = self.choices.randrange(8)
        if kind == 0:
            self.change_transition(lambda state, transition: {'event': unknown})
        elif kind == 1:
            self.add_statement(Assign(unknown, number('1')))
        elif kind == 2:
            self.put_expression(Read(unknown), False)
        elif kind == 3:
            self.add_statement(self.pick([Emit(unknown), Send(unknown, None)]))
        elif kind == 4:
            self.change_transition(lambda state, transition: {'destination': ToJunction(unknown)})
        elif kind == 5:
            self.add_statement(Send(self.event('local').name, self.wrong_path()))
        elif kind == 6:
            self.put_expression(Active(self.wrong_path(), NOWHERE), True)
        else:
            self.change_transition(lambda state, transition: {'destination': ToState(self.wrong_path())})

    def wrong_path(self):
        path = [self.pick(self.states()).name for _ in range(self.choices.randint(1, 3))]
        if self.chance(0.4):
            path[self.choices.randrange(len(path))] = name('nobody')
        return path

    def fault_11(self):
        datum, event = self.pick(self.chart.data), self.event('input', 'local', 'output')
        kind = self.choices.randrange(5)
        if kind == 0 and datum:
            self.change_transition(lambda state, transition: {'event': datum.name})
        elif kind == 1 and datum:
            self.add_statement(self.pick([Emit(datum.name), Send(datum.name, None)]))
        elif kind == 2:
            self.add_statement(Assign(event.name, number('1')))
        else:
            self.put_expression(Read(event.name), False)

    # -- types

    def some_number(self):
        return self.maker.number(self.maker.root, 1)[0]

    def some_flag(self):
        flags = self.data(lambda datum: datum.sort == 'bool')
        return self.pick([Flag('true', NOWHERE)] + [Read(each.name) for each in flags])

    def fault_12(self):
        kind = self.choices.randrange(5)
        if kind == 0:
            self.change_transition(lambda state, transition: {'guard': Guard(self.some_number(), NOWHERE)})
        elif kind == 1 and self.chart.data:
            datum = self.pick(self.chart.data)
            self.add_statement(Assign(datum.name, self.some_number() if datum.sort == 'bool' else self.some_flag()))
        elif kind == 2 and self.chart.data:
            place = self.choices.randrange(len(self.chart.data))
            datum = self.chart.data[place]
            value = number('0') if datum.sort == 'bool' else Flag('false', NOWHERE)
            self.chart.data[place] = datum._replace(first=First('', value, NOWHERE))
        else:
            one, other = self.some_number(), self.some_flag()
            wrong = self.pick([Sign('!', one, NOWHERE), Sign('-', other, NOWHERE),
                               Between(self.pick(['&&', '||', '==', '<', '+', '/']), one, other, NOWHERE),
                               Between(self.pick(['&&', '!=', '>=', '*']), other, one, NOWHERE),
                               Between(self.pick(['+', '<']), other, other, NOWHERE),
                               Between(self.pick(['&&', '||']), one, one, NOWHERE)])
            self.put_expression(wrong, self.chance(0.5))

    def fault_13(self):
        wide = self.pick([number('633825300114114700748351602687'), number('99999999999999999999999999999'),
                          number('4294967295q32'), number('1q32'), self.some_number()])
        kind = self.choices.randrange(4)
        data = self.data(lambda datum: datum.sort != 'bool')
        if kind == 0 and data:
            self.add_statement(Assign(self.pick(data).name, wide))
        elif kind == 1:
            other = number(self.pick(['1q32', '0.5', '0.25']))
            self.put_expression(Between(self.pick(['<', '==', '>=']), wide, other, NOWHERE), True)
        else:
            for _ in range(self.choices.randint(1, 3)):
                other = self.pick([wide, self.some_number(), number('0.5q32')])
                wide = Between(self.pick(['*', '*', '+', '-', '/']), *self.choices.sample([wide, other], 2), NOWHERE)
            self.put_expression(wide, False)

    def fault_14(self):
        datum = self.pick(self.data(lambda datum: datum.kind == 'input'))
        if not datum and self.chart.data:
            place = self.choices.randrange(len(self.chart.data))
            datum = self.chart.data[place] = self.chart.data[place]._replace(kind='input')
        if datum:
            value = self.some_flag() if datum.sort == 'bool' or self.chance(0.2) else self.some_number()
            if self.chance(0.2):
                value = Between('+', value, Flag('true', NOWHERE), NOWHERE)
            if self.chance(0.2):
                value = number('633825300114114700748351602687')
            self.add_statement(Assign(datum.name, value))

    def fault_15(self):
        kind = self.choices.randrange(3)
        if kind == 0:
            event = self.event('output').name
            self.change_transition(lambda state, transition: {'event': event})
        elif kind == 1:
            self.add_statement(Send(self.event('input', 'output').name, None))
        else:
            self.add_statement(Emit(self.event('input', 'local').name))

    def fault_16(self):
        data = [place for place, each in enumerate(self.chart.data) if each.sort != 'bool']
        if data:
            place = self.pick(data)
            text = self.pick(['128', '256', '300', '0.5', '0.25', '0.1q4', '1', '2', '65536', '9223372036854775808',
                              '0.0000152587890625'])
            first = First(self.pick(['', '-']), number(text), NOWHERE)
            self.chart.data[place] = self.chart.data[place]._replace(first=first)

    # -- structure

    def open_transition(self, state):
        """A transition without event and guard that stands in that state and leads anywhere."""
        options = [self.any_path(state)]
        for place in [state, *self.maker.ancestors(state)]:
            options += [ToJunction(each.name) for each in place.junctions]
        return Transition(NOWHERE, None, None, [], [], self.pick(options))

    def any_junction(self):
        """A junction of the chart itself, which all can lead to, with transitions to anywhere or without any."""
        text = 'q%d' % self.choices.randrange(3)
        if all(each.name.text != text for each in self.maker.root.junctions):
            junction = Junction(name(text), [])
            self.maker.root.junctions.append(junction)
            junction.transitions.extend(self.open_transition(self.maker.root) for _ in range(self.choices.randrange(3)))
        return ToJunction(name(text))

    def fault_17(self):
        leaves = [each for each in self.states() if not each.states]
        if self.chance(0.1):
            self.maker.root.states = []
            self.maker.root.word = self.pick([None, 'or', 'and'])
            self.maker.root.transitions = {'default': [], 'inner': [], 'outer': []}
        elif leaves:
            state = self.pick(leaves)
            state.word = self.pick(['or', 'and'])
            if self.chance(0.4):
                state.transitions[self.pick(['default', 'inner'])].append(self.open_transition(state))

    def fault_18(self):
        state = self.pick([each for each in self.states() if each.composition() == 'or'])
        if state:
            state.transitions['default'] = []

    def fault_19(self):
        state = self.pick([each for each in self.states() if each.composition() != 'or'])
        if state:
            for _ in range(self.choices.choice([1, 1, 2])):
                state.transitions['default'].append(self.open_transition(state))
            if self.chance(0.4):
                last = state.transitions['default'][-1]
                state.transitions['default'][-1] = last._replace(guard=Guard(self.some_flag(), NOWHERE))

    def closing_change(self, state, transition):
        if self.chance(0.5):
            return {'guard': Guard(self.some_flag(), NOWHERE)}
        return {'event': self.event('input', 'local').name}

    def fault_20(self):
        kind = self.choices.randrange(3)
        junctions = [each for state in self.states() for each in state.junctions if each.transitions]
        if kind == 0:
            lasts = [(state, transitions, place) for state, transitions, place in self.list_places('default')
                     if place == len(transitions) - 1]
            self.change_transition(self.closing_change, lasts)
        elif kind == 1 and junctions:
            junction = self.pick(junctions)
            if self.chance(0.3):
                junction.transitions.clear()
            else:
                self.change_transition(self.closing_change, [(None, junction.transitions, len(junction.transitions) - 1)])
        else:
            places = self.list_places('default')
            self.change_transition(lambda state, transition: {'destination': self.any_junction()}, places)

    def list_places(self, kind):
        return [(state, transitions, place) for state in self.states() for transitions in [state.transitions[kind]]
                for place in range(len(transitions))]

    def anywhere(self, state, transition):
        return {'destination': self.any_path(state) if self.chance(0.6) else self.any_junction()}

    def fault_21(self):
        self.change_transition(self.anywhere, self.list_places('default'))

    def fault_22(self):
        if self.chance(0.5):
            self.change_transition(self.anywhere, self.list_places('inner'))
        else:
            state = self.pick(self.states())
            state.transitions['inner'].append(self.open_transition(state))

    def fault_23(self):
        if self.chance(0.5):
            self.change_transition(self.anywhere, self.list_places('outer'))
        else:
            state = self.pick(self.states()[1:])
            if state:
                state.transitions['outer'].append(self.open_transition(state))

    def fault_26(self):
        state = self.pick([each for each in self.states() if each.composition() != 'or'])
        if state and self.maker.history:
            state.history = NOWHERE

    def shared(self):
        """One junction that lists of several kinds reach, for several faults at one destination."""
        destination = self.any_junction()
        for kind in self.choices.sample(['default', 'inner', 'outer'], 2):
            state = self.pick(self.states()[1:] if kind == 'outer' else self.states())
            if state:
                transition = Transition(NOWHERE, None, None, [], [], destination)
                state.transitions[kind].insert(self.choices.randint(0, len(state.transitions[kind])), transition)

    def change(self):
        passes = [[9, 10, 11], [12, 13, 14, 15, 16], [17, 18, 19, 20, 21, 22, 23, 26]]
        numbers = self.pick(passes + passes[1:] + passes[2:]) if self.chance(0.9) else sum(passes, [])
        for _ in range(self.choices.choice([1, 2, 2, 3, 4])):
            getattr(self, 'fault_%d' % self.pick(numbers))()
        if numbers == passes[2] and self.chance(0.3):
            self.shared()


def many_pairs(choices):
    """A chart with nearly as many pairs as there may be, or one or some more."""
    lists, inside = choices.choice([(128, 255), (181, 180), (181, 181), (200, 164), (200, 163), (300, 110)])
    states = 'state A { %s }' % ' '.join('outer -> @j;' for _ in range(lists))
    if choices.random() < 0.5:
        states = ' '.join('state S%d { outer -> @j; }' % place for place in range(lists)) + ' state A { }'
    return 'chart Many or { default -> A; junction j { %s } %s }' % ('-> A; ' * inside, states)


# ---- a text for a chart

class Writer:
    """Writes a chart in one of the many ways in which it can be written."""

    def __init__(self, choices):
        self.choices = choices
        self.tokens = []
        # How loosely this text is written.
        self.loose = choices.choice([0, 0, 0.1, 0.4])

    def chance(self, likely):
        return self.choices.random() < likely

    def put(self, *tokens):
        self.tokens += [each for each in tokens if each]

    def text(self):
        text = self.blank() if self.chance(self.loose) else ''
        for before, token in zip([''] + self.tokens, self.tokens):
            if before and self.chance(self.loose):
                text += self.blank()
            elif before and (self.loose < 0.4 or before[-1].isalnum() and token[0].isalnum()):
                text += ' '
            text += token
        return text + self.choices.choice(['', '\n', ' // end'])

    def blank(self):
        return self.choices.choice([' ', '  ', '\n', '\t', '\r\n', '\n\n ', ' // -> } "\'~\n', ' //\n', '\n  '])

    def chart(self, chart):
        self.put('chart', chart.root.name.text)
        declarations = [(lambda each=each: self.event(each)) for each in chart.events]
        data = [(lambda each=each: self.datum(each)) for each in chart.data]
        self.state_rest(chart.root, [declarations, data])
        return self.text()

    def event(self, event):
        self.put('event', event.kind, event.name.text, ';')

    def datum(self, datum):
        self.put(datum.kind, datum.name.text, ':')
        if datum.sort == 'bool':
            self.put('bool')
        else:
            self.put(self.scale(datum.sort))
            self.put(datum.mode)
        first = datum.first
        if first is not None:
            self.put('=', first.minus, first.value.text if isinstance(first.value, Flag) else self.number(first.value))
        self.put(';')

    def scale(self, scale):
        short = syntax.scale_text(scale)
        whole = '%sfix%d' % (scale.sign, scale.width)
        spellings = [short, short, whole + '_En%d' % scale.fraction] + ([whole] if scale.fraction == 0 else [])
        return self.choices.choice(spellings)

    def number(self, number):
        return number.whole + ('.' + number.behind if number.behind else '') + ('q' + number.bits if number.bits else '')

    def state_rest(self, state, lists):
        """The word, and all items in braces: the order within each list is kept, and the lists are mixed."""
        if not (state.word == 'or' and state.states and self.chance(0.3)):
            self.put(state.word)
        self.put('{')
        for kind, block in state.blocks.items():
            lists.append([lambda kind=kind, block=block: (self.put(kind), self.block(block))])
        for kind, transitions in state.transitions.items():
            lists.append([lambda kind=kind, each=each: (self.put(kind), self.transition(each)) for each in transitions])
        if state.history is not None:
            lists.append([lambda: self.put('history', ';')])
        lists.append([lambda each=each: self.junction(each) for each in state.junctions])
        lists.append([lambda each=each: self.state(each) for each in state.states])
        lists = [each for each in lists if each]
        mixed = self.chance(0.7)
        while lists:
            chosen = self.choices.choice(lists) if mixed else lists[0]
            chosen.pop(0)()
            lists = [each for each in lists if each]
        self.put('}')

    def state(self, state):
        self.put('state', state.name.text)
        self.state_rest(state, [])

    def junction(self, junction):
        self.put('junction', junction.name.text, '{')
        for each in junction.transitions:
            self.transition(each)
        self.put('}')

    def transition(self, transition):
        if transition.event:
            self.put(transition.event.text)
        if transition.guard:
            self.put('[')
            self.expression(transition.guard.expression, 0)
            self.put(']')
        if transition.condition or self.chance(0.05):
            self.block(transition.condition)
        if transition.action or self.chance(0.05):
            self.put('/')
            self.block(transition.action)
        self.put('->')
        if isinstance(transition.destination, ToJunction):
            self.put('@', transition.destination.name.text)
        else:
            self.path(transition.destination.path)
        self.put(';')

    def path(self, path):
        for place, each in enumerate(path):
            self.put('/' if place else '', each.text)

    def block(self, block):
        self.put('{')
        for statement in block:
            if isinstance(statement, Emit):
                self.put('emit', statement.event.text)
            elif isinstance(statement, Send):
                self.put('send', statement.event.text)
                if statement.path:
                    self.put('to')
                    self.path(statement.path)
            else:
                self.put(statement.name.text, '=')
                self.expression(statement.value, 0)
            self.put(';')
        self.put('}')

    def expression(self, expression, loosest):
        """An expression, in parentheses where its operator is looser than that level, and sometimes elsewhere."""
        is_between = isinstance(expression, Between)
        parentheses = is_between and syntax.level_of(expression.operator) < loosest or self.chance(0.05)
        if parentheses:
            self.put('(')
        if is_between:
            level = syntax.level_of(expression.operator)
            self.expression(expression.left, level + (level == syntax.COMPARISON))
            self.put(expression.operator)
            self.expression(expression.right, level + 1)
        elif isinstance(expression, Sign):
            self.put(expression.operator)
            self.expression(expression.operand, len(syntax.LEVELS))
        elif isinstance(expression, Number):
            self.put(self.number(expression))
        elif isinstance(expression, Flag):
            self.put(expression.text)
        elif isinstance(expression, Read):
            self.put(expression.name.text)
        else:
            self.put('in', '(')
            self.path(expression.path)
            self.put(')')
        if parentheses:
            self.put(')')


# ---- an event file for a chart

def accepted_text(choices, largest=None):
    """The text of a random chart, and the chart; None where it isn't accepted, or the text is longer than that."""
    made = Maker(choices, True).chart()
    text = Writer(choices).chart(made)
    if largest and len(text) > largest:
        return None
    try:
        return text, check.check_chart(text)
    except Fault:
        return None


def event_file(choices, chart):
    """The text of an event file. Most files have good lines only."""
    wrong = choices.choice([0, 0, 0, 0.2])
    lines = [event_line(choices, chart, wrong) for _ in range(choices.choice([1, 4, 8, 12, 16, 24, 32]))]
    text = ''.join(line + choices.choice(['\n', '\n', '\n', '\r\n']) for line in lines)
    return text[:-1] if choices.random() < 0.2 else text


def event_line(choices, chart, wrong):
    """A line, which is refused with about that likelihood."""
    inputs = [each.name for each in chart.events if each.kind == 'input']
    others = [each.name for each in chart.events if each.kind != 'input']
    if choices.random() < 0.03:
        return choices.choice(['', ' ', '\t', '# x', '#', ' # GO x=1'])
    tokens = ['tick' if not inputs or choices.random() < 0.2 else choices.choice(inputs)]
    if choices.random() < wrong / 4:
        tokens = [choices.choice(others + ['NO', 'start', 'tick=1', 'Tick'] + [each.name for each in chart.data])]
    data = [each for each in chart.data if each.kind == 'input']
    for datum in data:
        if choices.random() < 0.5:
            tokens.append(datum.name + '=' + input_text(choices, datum))
    if choices.random() < wrong:
        tails = ['x', '=1', 'nobody=1', 'x=1=1', 'GO=1']
        tails += [each.name + '=1' for each in chart.data if each.kind != 'input']
        if data:
            datum = choices.choice(data)
            tails += [datum.name + '=' + choices.choice([
                '', '-', '1.', '.5', '+1', '1e1', '0x1', 'True', 'true', '99999999999999999999', '0.00000000000001',
                '1' * 37, '0' * 37, '-1', '2', '\x80'])] * 6
            tails += [datum.name + '=' + input_text(choices, datum)] * 6
        tokens.insert(choices.randint(1, len(tokens)), choices.choice(tails))
    line = choices.choice([' ', ' ', '\t', '  ']).join(tokens)
    if choices.random() < wrong / 8:
        line += ' ' * (4096 - len(line) + choices.choice([0, 0, 1, -1]))
    return choices.choice(['', '', '', ' ']) + line


def input_text(choices, datum):
    if datum.scale is None:
        return choices.choice(['true', 'false'])
    least, greatest = check.ends_of(datum.scale)
    mantissa = choices.choice([least, greatest, 0, 0, choices.randint(least, greatest), choices.randint(least, greatest)])
    text = rules.value_text(Fraction(mantissa, 2 ** datum.scale.fraction))
    return choices.choice([text, text, text, text + ('0' if '.' in text else '.0'), '-0' if mantissa == 0 else text])


# ---- one chart by its number

def made_text(choices, language):
    """A chart text."""
    if choices.random() < 0.004:
        return many_pairs(choices)
    maker = Maker(choices, language.history)
    chart = maker.chart()
    if choices.random() < 0.4:
        Changer(choices, maker, chart).change()
    text = Writer(choices).chart(chart)
    if choices.random() < 0.03:
        place = choices.randrange(len(text))
        put = choices.choice(['', ';', '{', '/', '\x80', '_', 'q', '-'])
        text = text[:place] + put + text[place + choices.randrange(3):]
    return text


def made_case(seed, place, language):
    """A text, its chart or None, its event file, and its bounds."""
    choices = random.Random('%s %d' % (seed, place))
    for _ in range(3):
        text = made_text(choices, language)
        depth, steps = choices.choice([(1, 5), (2, 20), (2, 100), (3, 40), (4, 60), (8, 10), (5, 200), (8, 300), (32, 500),
                                       (8, 10000)])
        if choices.random() < 0.2:
            depth, steps = choices.randint(1, 4), choices.randint(1, 30)
        try:
            chart = check.check_chart(text, language)
        except Fault:
            return text, None, 'tick\n', depth, steps
        # Most charts whose start already ends with a fault are passed over.
        if choices.random() < 0.15 or rules.Rules(chart, depth, steps).start() == 'ok':
            break
    data = event_file(choices, chart)
    if choices.random() < 0.3:
        # The steps are just enough for one event, or one or two less.
        steps = max(1, choices.choice(steps_used(chart, data, depth, steps)) - choices.choice([0, 1, 1, 2]))
    return text, chart, data, depth, steps


class Paid(rules.Rules):
    """The rules, which note how many steps the start and each event take."""

    def __init__(self, *given):
        super().__init__(*given)
        self.paid = []

    def result_of(self, work):
        result = super().result_of(work)
        self.paid.append(self.used)
        return result


def steps_used(chart, data, depth, steps):
    """How many steps the start and each event take that take any, or the steps of the bounds where none does."""
    paid = Paid(chart, depth, steps)
    rules.run_events(paid, data.encode('latin-1'))
    return [each for each in paid.paid if each] or [steps]


# ---- coverage

def passes_met(text, language):
    """The faults of the pass in which a text is refused, by place, or an empty list."""
    try:
        return check.faults_of(syntax.read_chart(text, language))[1]
    except Fault as fault:
        return [(fault.offset, fault.number)]


class Coverage:
    """Counts what was met in charts and their runs: faults, pairs of faults of one pass, and cases of the rules."""

    def __init__(self, language):
        self.language = language
        self.charts, self.statuses = Counter(), Counter()
        self.met, self.runs = Counter(), Counter()           # by case: how often, and in how many runs
        self.first, self.also = Counter(), Counter()         # by fault: told, and met behind one that is told
        self.in_order, self.at_one_place = Counter(), Counter()     # by pairs of faults

    def run(self, text, data, depth, steps):
        """Counts what the run of an accepted chart meets."""
        here = Counter()
        answer = rules.run_rules(text, data.encode('latin-1'), depth, steps, self.language, here)
        self.met.update(here)
        self.runs.update(here.keys())
        self.charts['accepted'] += 1
        self.statuses[answer.status] += 1

    def refused(self, text):
        """Counts the faults of a chart that is refused."""
        faults = passes_met(text, self.language)
        self.charts['refused'] += 1
        self.first[faults[0][1]] += 1
        self.also.update(set(number for _, number in faults[1:]))
        places = [(one, other) for one in faults for other in faults if one < other]
        self.in_order.update(set((one[1], other[1]) for one, other in places if one[0] < other[0] and one[1] != other[1]))
        self.at_one_place.update(set((one[1], other[1]) for one, other in places if one[0] == other[0]))

    def print_faults(self):
        print('\nfaults: how often told, and how often met behind a fault that is told')
        for each in sorted(syntax.KINDS):
            print('%8d %8d  %d %s' % (self.first[each], self.also[each], each, syntax.KINDS[each]))
        print('\ntwo faults of one pass: how often with the one earlier in the text, with the other earlier, at one place')
        for numbers in ([9, 10, 11], [12, 13, 14, 15, 16], [17, 18, 19, 20, 21, 22, 23, 26]):
            for one, other in itertools.combinations(numbers, 2):
                print('%8d %8d %8d  %d and %d' % (self.in_order[one, other], self.in_order[other, one],
                                                  self.at_one_place[one, other], one, other))

    def print_cases(self, title, cases):
        print('\n' + title)
        for each in cases:
            print('%8d %8d  %s' % (self.runs[each], self.met[each], each))

    def print_all(self):
        print('%d charts, %d accepted' % (sum(self.charts.values()), self.charts['accepted']))
        print('runs that end with status 0: %d, with 1 (a refused line): %d, with 3 (a fault): %d'
              % tuple(self.statuses[status] for status in (0, 1, 3)))
        self.print_faults()
        self.print_cases('rules: in how many runs met, and how often', rules.CASES)
        self.print_cases('rules: tests that never decide, since each follows work that was done under the same life',
                         rules.NEVER_MET)


def coverage(count, seed, language):
    """Writes what so many charts and their runs meet, all of which must be known."""
    counts = Coverage(language)
    for place in range(count):
        text, chart, data, depth, steps = made_case(seed, place, language)
        if chart:
            counts.run(text, data, depth, steps)
        else:
            counts.refused(text)
    counts.print_all()
    unknown = set(counts.met) - set(rules.CASES) - set(rules.NEVER_MET)
    demand(not unknown, 'cases that the rules do not name: %s' % ', '.join(sorted(unknown)))


def random_rows(what, count, seed, language):
    """The rows of a table of texts or of runs."""
    for place in range(count):
        text, chart, data, depth, steps = made_case(seed, place, language)
        if what == 'texts':
            yield line_of(text)
        elif chart or place % 20 == 0:
            yield '%d %d\t%s\t%s' % (depth, steps, line_of(text), line_of(data))


def main(words):
    """Does what the words ask for, and gives the status."""
    language = WITH_HISTORY
    if words[:1] == ['--without-history']:
        language = WITHOUT_HISTORY
        words = words[1:]
    if len(words) not in (2, 3) or words[0] not in ('texts', 'runs', 'coverage') or not re.fullmatch('[0-9]+', words[1]):
        sys.stderr.write(__doc__ + '\n')
        return 2
    count, seed = int(words[1]), words[2] if len(words) == 3 else '1'
    if words[0] == 'coverage':
        coverage(count, seed, language)
        return 0
    rows = list(random_rows(words[0], count, seed, language))
    print('\n'.join([tables.head(len(rows), 'rows'), *rows]))
    return 0


if __name__ == '__main__':
    sys.exit(rules.with_deep_calls(lambda: main(sys.argv[1:])))
