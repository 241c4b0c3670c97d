"""Compares the C that a built `chart_to_c` writes of random charts, by gcc and clang, with the rules.

    python3 checks/random/main.py chart_c --against CHART_TO_C --cases N [--both] [--compilers CC ..] [--sanitize K] [--files F]
                                          [--largest BYTES]

A case is a chart with event files and bounds, made as random_c_runs.py makes them; of one that isn't accepted, or of more than
BYTES bytes, nothing is compiled. The C is compiled by each compiler, gcc and clang where nothing is said, at -O0 in one half of the
charts and at -O2 in the other, or with --both at both levels in all, with each warning as an error; and of one chart in K, 10 where
nothing is said, at the level of its half with the sanitizers of addresses and of undefined behaviour too, which end a run that they
report. So is the driver of chart_c.py. The table of the chart's names, which the driver reads, is compiled once. Each of F event
files, 2 where nothing is said, is run; the trace, the message and the status must be those of chart_rules.py."""
import os
import random
import tempfile
from collections import Counter

import beside                                # noqa: F401, which finds the other folders of checks
import chart_rules as rules
import random_charts
from chart_c import FOLDER, LONGEST, WARNINGS, Failed, compile_driver, make_c, output_of, write
from c_runs import words_for
from campaign import Campaign, differ
from programs import differences, ended
from random_compiled import bounds_of, features_of

SANITIZERS = ['-fsanitize=undefined,address', '-fno-sanitize-recover=all', '-g']
# What a chart itself says, such as `x != 300` of a datum with 8 bits, or `x <= x`, is no fault of the C that does it.
ALLOWED = ['-Wno-type-limits', '-Wno-tautological-compare']
# The same of `-x - 1 != 3`, and of a guard that asks for two children of one OR, or that one of two isn't active; gcc has no flag for
# these warnings alone.
SAID_BY_CHART = 'promoted bitwise complement', 'of mutually exclusive equal-tests', 'of unmatched not-equal tests'
ENDS_GCC, WITHOUT_WARNINGS = 'all warnings being treated as errors', '-w'
LEVELS = ['-O0', '-O2']
OBJECT, TABLE = 'chart.o', 'table.o'


def is_said_by_chart(message):
    """Whether each error that gcc tells is a warning of what the chart says; its last line shows that none is cut off."""
    errors = [line for line in message.splitlines() if ' error: ' in line]
    return ENDS_GCC in message and bool(errors) and all(any(words in line for words in SAID_BY_CHART) for line in errors)


def compile_source(source, folder, compiler, flags):
    """Compiles the source of a chart to an object."""
    output_of([compiler, *WARNINGS, *flags, *ALLOWED, '-I', FOLDER, '-c', source, '-o', OBJECT], folder)


class Comparison:
    """Compares a chart in a folder, with a driver that is compiled in the same way."""

    def __init__(self, options, folder):
        self.options, self.folder, self.charts, self.runs = options, folder, Counter(), Counter()
        self.drivers = {(compiler, *flags): compile_driver(tempfile.mkdtemp(dir=folder), compiler, flags)
                        for compiler in options.compilers for level in LEVELS for flags in ([level], [level, *SANITIZERS])}

    def builds(self, number):
        """The compilers and the flags for a chart."""
        own = LEVELS[(number + 1) % 2]
        for compiler in self.options.compilers:
            for level in LEVELS if self.options.both else [own]:
                yield compiler, [level]
            if number % self.options.sanitize == 0:
                yield compiler, [own, *SANITIZERS]

    def chart(self, number):
        """Compares all builds of a chart, where it is accepted and isn't too long."""
        choices = random.Random('c %s %d' % (self.options.seed, number))
        drawn = random_charts.accepted_text(choices, self.options.largest)
        if drawn is None:
            return
        text, chart = drawn
        files = [random_charts.event_file(choices, chart) for _ in range(self.options.files)]
        bounds = bounds_of(choices)
        self.charts.update(['all', *features_of(chart)])
        lines = []
        with tempfile.TemporaryDirectory(dir=self.folder) as folder:
            try:
                source, table = make_c(self.options.against, text, folder, words_for(bounds))
                expected = [rules.run_rules(text, events.encode('latin-1'), *bounds) for events in files]
                self.runs.update('status %d %s' % (each.status, each.error.partition(': ')[2].split(' ')[0].strip()) for each in expected)
                output_of(['gcc', *WARNINGS, '-O0', '-I', FOLDER, '-c', table, '-o', TABLE], folder)
                for compiler, flags in self.builds(number):
                    lines += self.built_and_run(number, source, folder, compiler, flags, list(zip(files, expected)))
            except Failed as failed:
                lines.append('chart %d: %s' % (number, failed))
        contents = {'chart': text.encode('latin-1'), **{'events%d' % n: each.encode('latin-1') for n, each in enumerate(files)}}
        differ(self.options, 'c %s %d %d %d' % (self.options.seed, number, *bounds), lines, contents)

    def built_and_run(self, number, source, folder, compiler, flags, cases):
        """Compiles a chart's source and runs it over its event files; lines that tell what is wrong."""
        name = 'chart %d by %s %s' % (number, compiler, ' '.join(flags))
        program = self.compiled(source, folder, compiler, flags)
        self.charts['by %s %s%s' % (compiler, flags[0], ' with sanitizers' if SANITIZERS[0] in flags else '')] += 1
        return [line for events, answer in cases for line in self.ran(name, program, folder, events, answer)]

    def compiled(self, source, folder, compiler, flags):
        """The program of a chart. Where all that the compiler warns of is said by the chart, it is compiled without warnings."""
        try:
            compile_source(source, folder, compiler, flags)
        except Failed as failed:
            if not is_said_by_chart(str(failed)):
                raise
            self.charts['by %s %s, of which it warns' % (compiler, flags[0])] += 1
            compile_source(source, folder, compiler, [*flags, WITHOUT_WARNINGS])
        program = os.path.join(folder, 'program')
        output_of([compiler, *flags, OBJECT, TABLE, self.drivers[(compiler, *flags)], '-o', program], folder)
        return program

    def ran(self, name, program, folder, events, expected):
        """Runs a program. Where a line of the event file is refused, the driver has a message of its own."""
        write(folder, 'events', events)
        answer = ended([program, 'events'], LONGEST, cwd=folder)
        if expected.status == 1 and answer.status == 1 and answer.error.startswith('line '):
            answer = answer._replace(error=expected.error)
        return differences(name, expected, answer)


def add_options(reader):
    reader.add_argument('--against', metavar='CHART_TO_C', type=os.path.abspath, required=True)
    reader.add_argument('--both', action='store_true')
    reader.add_argument('--compilers', metavar='CC', nargs='+', default=['gcc', 'clang'])
    reader.add_argument('--sanitize', metavar='K', type=int, default=10)
    reader.add_argument('--files', metavar='F', type=int, default=2)
    reader.add_argument('--largest', metavar='BYTES', type=int, default=0)


def campaign(options, folder):
    """Compares charts; main.py calls it."""
    comparison = Comparison(options, folder)
    return Campaign(comparison.chart, lambda: {'charts': comparison.charts, 'runs': comparison.runs})
