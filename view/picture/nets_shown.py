"""The page of the run of a net: its steps, and for each chart the page of what it took.

The net is run by the reference in checks/. Each chart then has the trace that it has alone over what it took, so that its page is
that of a run of its own."""
import re
from html import escape
from string import Template

import nets

from picture.chart_model import ChartModel
from picture.page import MOST_LINES, part
from picture.runs import run_chart
from picture.svg_style import style_in_page

MOST_STEPS = nets.MOST_STEPS


class Refusal(Exception):
    """The line of `flowc net` on a net that is refused."""


def is_net(data):
    return data.startswith(b'flownet ')


class Shown:
    """A chart of a net: its name, what is shown of it, and the event lines that it took."""

    def __init__(self, name, text):
        self.name, self.model, self.events = name, ChartModel(text), []
        self.inputs = [each.name for each in self.model.chart.data if each.kind == 'input']


class NetRun:
    """A run of a net. `steps` has for each line of the trace its text, the place of its chart or None, and the number of the line
    of that chart; `end` is the line on standard error that ended it, which is empty where it ended with the schedule."""

    def __init__(self, name, schedule, depth, steps):
        self.depth, self.most = depth, steps
        kept = {}

        def read(file):
            kept[file] = nets.read_file(file)
            return kept[file]

        texts = nets.Files(read)
        try:
            net = nets.made_net(name, texts, depth, steps)
        except nets.Refused as refused:
            raise Refusal(str(refused).rstrip('\n')) from None
        files = [each.file for each in nets.read_net(kept[name].decode('latin-1'))[0]]
        ended = nets.run_net(net, texts, schedule)
        self.end = ended.error.rstrip('\n')
        self.members = [Shown(member.name, kept[file].decode('latin-1')) for member, file in zip(net.members, files)]
        self.steps = [self.step(line) for line in ended.out.split('\n')[:-1]]

    def step(self, line):
        """A line of the trace, and what the chart took by it."""
        found = re.match(r'\d+ (\w+) (\d+) (\S+) \[\S*\] (\S+) ', line)
        if not found:
            return line, None, 0
        place = next(at for at, each in enumerate(self.members) if each.name == found[1])
        member = self.members[place]
        if found[3] != 'start':
            values = [each for each in found[4].split(',') if each.partition('=')[0] in member.inputs]
            member.events.append(' '.join([found[3], *values]))
        return line, place, int(found[2])

    def run_of(self, member):
        """The run of a chart alone over what it took: its lines, and the rules, which noted what came."""
        data = ''.join(each + '\n' for each in member.events).encode('latin-1')
        lines, _, rules = run_chart(member.model, data, self.depth, self.most)
        return lines, rules


def page_of(run, pages, net, schedule):
    """The page of a net, with the pages of its charts in it."""
    names = ''.join('<button data-chart="%d">%s</button>' % (at, escape(name)) for at, (name, _) in enumerate(pages))
    frames = '\n'.join('<iframe title="%s" srcdoc="%s"></iframe>' % (escape(name), escape(text)) for name, text in pages)
    steps = ''.join('<li data-chart="%s" data-line="%d">%s</li>' % ('' if place is None else place, number, escape(text))
                    for text, place, number in run.steps[:MOST_LINES])
    return Template(part('net.html')).substitute(
        name=escape(net), run=escape(schedule), style=style_in_page() + part('page.css') + part('net.css'), names=names,
        frames=frames, steps=steps, end=escape(run.end), script=part('net.js'))
