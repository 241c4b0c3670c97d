#!/usr/bin/env python3
"""Holds the comments of the C that a built `chart_to_c` writes of charts against what its functions are called with.

    python3 checks/tables/comments.py --against CHART_TO_C CHART .. [--seed S] [--events E]

The comment above a function names the event and the home for which it is, where it is for one alone: `, where the event is GO`, `,
where the home is Door/Open`, ` and the home is the chart`. `, where the event is another one` are those that no comment of the same
part and the same home names. Nothing is said of them where no more stands there, nor where `, and what is equal to it` admits
others. Each function is given a test that its parameters `event` and `home` are so, at its beginning and at each turn of the loop
that takes the place of a call of itself. In a chart without sends the event is that of the start or the reaction, also in functions
without that parameter. Else nothing is compared of what a function isn't given. The C is compiled by gcc, and starts and takes E random events of the chart or ticks,
2,000 where nothing is said, with random values of the inputs; after a fault it starts again.

A line tells each function that is called with another event or home than its comment names. At the end stands how many comments
name something, and how many functions were called. The program ends with status 1 where a comment is wrong, and where no comment
was tried. random_comments.py does the same of random charts. A chart takes about a second of a processor."""
import os
import random
import re
import sys
import tempfile
from collections import Counter
from typing import NamedTuple

import beside                                # noqa: F401, which finds the other folders of checks
import chart_rules as rules
from c_runs import DEFAULT_BOUNDS, words_for
from chart_c import Failed, c_name, field_of, output_of, write
from chart_check import check_chart
from programs import at_least_one, parser, print_counts

FUNCTION = re.compile(r'/\*\s+((?:(?!\*/).)*)\s+\*/\n(?:static\s+)?\w+\s+(\w+)\(([^)]*)\)\n\{\n(.*?)^\}\n', re.DOTALL | re.MULTILINE)
SAID = re.compile(r'(?P<part>.*?(?:, the actions noted there)?)'
                  r'(?:, where the event is (?P<event>another one|the start|a tick|\w+))?'
                  r'(?:(?:, where| and) the home is (?P<home>the chart|[\w/]+))?'
                  r'(?P<shared>, and what is equal to it)?')
OTHER = 'another one'
LOOP = re.compile(r'^    while \(true\) \{\n', re.MULTILINE)
# What the tests call, and how the events and inputs are chosen. A line is written for the first wrong call of each function.
BEFORE = r'''
#include <stdio.h>
static bool was_called[%(count)d];
static bool was_told[%(count)d];
static uint32_t given_event;
static void compare_call(unsigned number, bool is_right, uint32_t event, uint32_t home)
{
    was_called[number] = true;
    if (!is_right && !was_told[number]) {
        was_told[number] = true;
        printf("wrong %%u %%u %%u\n", number, (unsigned)event, (unsigned)home);
    }
}
'''
AFTER = r'''
static uint64_t chosen = %(seed)du;
static uint64_t choose(void)
{
    chosen ^= chosen << 13;
    chosen ^= chosen >> 7;
    chosen ^= chosen << 17;
    return chosen * UINT64_C(2685821657736338717);
}
static uint64_t mantissa(unsigned width, bool is_signed)
{
    uint64_t all = choose() >> (64u - width);
    if (choose() %% 2u == 0u) {
        return is_signed ? (uint64_t)((int64_t)(all << (64u - width)) >> (64u - width)) : all;
    }
    return width > 3u ? all %% 8u : 0u;
}
int main(void)
{
    static const uint32_t events[] = {%(events)s};
    static %(name)s_chart chart;
    bool runs = false;
    for (unsigned turn = 0u; turn < %(turns)du; turn++) {
        if (runs) {
%(inputs)s
            given_event = events[choose() %% (sizeof events / sizeof events[0])];
            runs = %(name)s_react(&chart, given_event);
        } else {
            given_event = %(start)du;
            runs = %(name)s_init(&chart) && %(name)s_start(&chart);
        }
    }
    for (unsigned number = 0u; number < %(count)du; number++) {
        if (was_called[number]) {
            printf("called %%u\n", number);
        }
    }
    return 0;
}
'''


# ---- what comments say

class Function(NamedTuple):
    """A function of the source: its name, the words above it, its parameters, and what the words say: the part, the event and the home,
    None where none is said, and whether others are admitted."""
    name: str
    words: str
    parameters: list
    part: str
    event: str
    home: str
    is_shared: bool

    def knows(self, parameter, has_sends):
        """Whether it is known what the parameter is at each call."""
        return parameter in self.parameters or (parameter == 'event' and not has_sends)

    def names(self, parameter):
        """Whether the words name the only value that a parameter may have, or those that it may not have."""
        return not self.is_shared and getattr(self, parameter) is not None


def function_of(match):
    """The function that stands in a source."""
    words = ' '.join(match[1].split())
    said = SAID.fullmatch(words)
    return Function(match[2], words, re.findall(r'(\w+)(?:,|$)', match[3]), said['part'], said['event'], said['home'],
                    said['shared'] is not None)


class Numbers:
    """The numbers of a chart's events and states in its C, and their words."""

    def __init__(self, chart):
        self.events = {event.name: number for number, event in enumerate(chart.events)}
        self.inputs = [number for number, event in enumerate(chart.events) if event.kind == 'input']
        self.tick, self.start = len(self.events), len(self.events) + 1
        self.events.update({'a tick': self.tick, 'the start': self.tick + 1})
        self.states = {state.path() if state.parent else 'the chart': number for number, state in enumerate(chart.states)}

    def event_test(self, name, event, named):
        """C that holds where the event that has a name in C is the one that is said; the named ones are those of the part."""
        if event == OTHER:
            return ' && '.join('%s != %du' % (name, self.events[each]) for each in sorted(named)) or 'true'
        return '%s == %du' % (name, self.events[event])

    def called_with(self, event, home):
        """Words for the event and the home of a call."""
        words = {number: name for name, number in self.events.items()}
        states = {number: path for path, number in self.states.items()}
        return 'the event is %s and the home is %s' % (words.get(event, event), states.get(home, home))


def test_of(function, place, numbers, functions, has_sends):
    """A line of C that tests a call."""
    event = 'event' if 'event' in function.parameters else 'given_event'
    named = {each.event for each in functions if (each.part, each.home) == (function.part, function.home)} - {None, OTHER}
    tests = []
    if function.names('event') and function.knows('event', has_sends):
        tests.append('(%s)' % numbers.event_test(event, function.event, named))
    if function.names('home') and function.knows('home', has_sends):
        tests.append('(home == %du)' % numbers.states[function.home])
    home = 'home' if 'home' in function.parameters else '0u'
    return '    compare_call(%du, %s, %s, %s);\n' % (place, ' && '.join(tests) or 'true', event, home)


def with_tests(source, numbers, has_sends):
    """The source with a test in each function, and its functions."""
    matches = list(FUNCTION.finditer(source))
    functions = list(map(function_of, matches))
    for place, match in reversed(list(enumerate(matches))):
        test = test_of(functions[place], place, numbers, functions, has_sends)
        body = test + LOOP.sub(lambda loop: loop[0] + test, match[4])
        source = source[:match.start(4)] + body + source[match.end(4):]
    return source, functions


# ---- one chart

def stored(datum):
    """A line of C that stores a random value in an input."""
    width, sign = (1, 'u') if datum.scale is None else (datum.scale.width, datum.scale.sign)
    return '            chart.%s = (__typeof__(chart.%s))mantissa(%du, %s);' % (
        field_of(datum), field_of(datum), width, 'true' if sign == 's' else 'false')


def program_of(chart, source, seed, turns, has_sends):
    """The C of a chart with tests and a `main`, and its functions."""
    numbers = Numbers(chart)
    source, functions = with_tests(source.replace('\\\n', ''), numbers, has_sends)
    parts = {
        'name': c_name(chart), 'count': len(functions), 'seed': seed, 'turns': turns,
        'start': numbers.start,
        'events': ', '.join('%du' % number for number in [*numbers.inputs, numbers.tick]),
        'inputs': '\n'.join(stored(datum) for datum in chart.data if datum.kind == 'input'),
    }
    include = '#include "%s.h"\n' % chart.root.name
    if source.count(include) != 1:
        raise Failed('the source of %s does not include its header' % chart.root.name)
    return source.replace(include, include + BEFORE % parts) + AFTER % parts, functions


class Comparison:
    """Compares charts by a built program, in folders below one."""

    def __init__(self, options, folder):
        self.options, self.folder = options, folder

    def calls_of(self, text, bounds, seed):
        """The functions of a chart's C, the numbers of those that were called, the wrong calls, the chart's numbers, and whether it may
        send."""
        chart, has_sends = check_chart(text), 'send' in text
        with tempfile.TemporaryDirectory(dir=self.folder) as folder:
            write(folder, 'chart', text)
            header, source = (output_of([self.options.against, word, *words_for(bounds), 'chart'], folder)
                              for word in ('header', 'source'))
            write(folder, chart.root.name + '.h', header)
            source, functions = program_of(chart, source, seed, self.options.events, has_sends)
            write(folder, 'program.c', source)
            recursion = '-D%s_MAY_RECURSE' % c_name(chart)
            output_of(['gcc', '-std=gnu99', '-O0', '-w', recursion, 'program.c', '-o', 'program'], folder)
            told = [line.split() for line in output_of(['./program'], folder).splitlines()]
        called = {int(line[1]) for line in told if line[0] == 'called'}
        return functions, called, [tuple(map(int, line[1:])) for line in told if line[0] == 'wrong'], Numbers(chart), has_sends

    def compared(self, name, text, bounds, seed):
        """Lines that tell what is wrong of a chart, and counts of what was met."""
        try:
            functions, called, wrong, numbers, has_sends = self.calls_of(text, bounds, seed)
        except Failed as failed:
            return ['%s: %s' % (name, failed)], Counter({'charts': 1})
        says = [place for place, each in enumerate(functions)
                if any(each.names(name) and each.knows(name, has_sends) for name in ('event', 'home'))]
        counts = Counter({
            'charts': 1, 'charts with a wrong comment': bool(wrong), 'functions': len(functions), 'functions that were called': len(called),
            'comments that name an event or a home that is known': len(says),
            'comments that do, of functions that were called': len(called.intersection(says)),
            'comments that name what is not known': sum(
                any(each.names(name) and not each.knows(name, has_sends) for name in ('event', 'home')) for each in functions),
            'wrong comments': len(wrong)})
        return ['%s: %s, %s: called where %s' % (name, functions[place].name, functions[place].words, numbers.called_with(event, home))
                for place, event, home in wrong], counts


def add_options(reader):
    """What a reader of words has of this program and of random_comments.py."""
    reader.add_argument('--against', metavar='CHART_TO_C', type=os.path.abspath, required=True)
    reader.add_argument('--events', metavar='E', type=at_least_one, default=2000)


def main(words):
    """Compares charts, and gives the status."""
    reader = parser(__doc__)
    reader.add_argument('--seed', default='1')
    add_options(reader)
    reader.add_argument('charts', metavar='CHART', nargs='+')
    options = reader.parse_args(words)
    met, wrong = Counter(), []
    with tempfile.TemporaryDirectory() as folder:
        comparison = Comparison(options, folder)
        for path in options.charts:
            with open(path, 'rb') as file:
                lines, counts = comparison.compared(path, file.read().decode('latin-1'), DEFAULT_BOUNDS,
                                                    random.Random(options.seed).randrange(1, 2 ** 63))
            met.update(counts)
            wrong += lines
            print(''.join(line + '\n' for line in lines), end='', flush=True)
    print_counts('comments', met)
    return 1 if wrong or not met['comments that do, of functions that were called'] else 0


if __name__ == '__main__':
    sys.exit(rules.with_deep_calls(lambda: main(sys.argv[1:])))
