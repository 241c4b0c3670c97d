"""Smaller codes of random codes and of the codes of random charts.

    python3 checks/random/main.py shrink --seed S --cases N [--against PROGRAM]
    python3 checks/random/main.py shrink --charts --seed S --cases N --against PROGRAM

A case is a well-formed code of random_codes.py in which more or fewer tests are known before any run and more or fewer
skips stand, with two event files and bounds. One in ten has a fault in the code or in its text. With `--charts` it is what
`PROGRAM compile` writes of a chart of random_charts.py, with two event files and the default bounds.

What `PROGRAM shrink` writes, and without a program what shrink.py writes, must be as it must by shrink.py. That again must be
written as it is, by the program and by shrink.py. A text that differs from that of shrink.py is counted, but isn't wrong by itself."""
import os
from collections import Counter

import beside                                # noqa: F401, which finds the other folders of checks
import chart_check as check
import code_acceptance as ca
import code_machine as cm
import code_text as ct
import declarations as de
import random_charts
import random_codes
import shrink
from campaign import Campaign
from programs import ended, keep_files

LONGEST = 120               # seconds for one command
DEFAULT_BOUNDS = (cm.DEFAULT_DEPTH, cm.DEFAULT_STEPS)


# ---- codes with something to leave out

def known_test(rng):
    """A test that reads no datum and no state; now and then with a divisor of 0."""
    if rng.chance(0.15):
        by_zero = '==', ('/', ('#', rng.randrange(3), 0), ('#', 0, rng.randrange(3))), ('#', 1, 0)
        return 'expr', rng.choice([by_zero, (rng.choice(['&&', '||']), (rng.choice('TF'),), by_zero), ('||', by_zero, ('T',))])
    nothing = de.Declarations([de.State(None, 'leaf', 'C')])
    while True:
        condition = random_codes.random_test(rng, nothing)
        if not shrink.reads(condition[1]):
            return condition


class Maker(random_codes.Maker):
    """Makes well-formed codes with tests that are known and with skips."""

    def __init__(self, rng):
        super().__init__(rng)
        self.known, self.skips = rng.choice([0, 0.1, 0.4]), rng.choice([0, 0.05, 0.2])

    def condition(self):
        return known_test(self.rng) if self.rng.chance(self.known) else super().condition()

    def instruction(self, proc, room):
        if self.rng.chance(self.skips):
            return 'skip', min(room, self.rng.choice([0, 0, 1, 1, 2, 3, 5]))
        return super().instruction(proc, room)


class Comparison:
    """Tries codes, and counts what was met."""

    def __init__(self, program, seed, keep, folder):
        self.program, self.seed, self.keep, self.folder = program, seed, keep, folder
        self.met = Counter()

    def differ(self, name, lines, **contents):
        """Writes what is wrong, and keeps its files."""
        if not lines:
            return
        keep_files(self.keep, 'shrink %s %s' % (self.seed, name), contents)
        print('\n'.join('%s: %s' % (name, line) for line in lines), flush=True)

    def command(self, command, text):
        with open(os.path.join(self.folder, 'text'), 'wb') as file:
            file.write(text)
        return ended([self.program, command, 'text'], LONGEST, cwd=self.folder, close_fds=False)

    def shrunk(self, text):
        return self.command('shrink', text) if self.program else shrink.shrunk(text)

    def code(self, name, text, runs):
        """Tries one code text."""
        answer = self.shrunk(text)
        made = answer.out.encode('latin-1')
        lines = shrink.wrong_answer(text, answer, runs)
        if answer.status == 0 and not lines:
            self.count(text, made)
            again = self.shrunk(made) if made != text else answer
            if (again.out, again.error, again.status) != (answer.out, '', 0):
                lines.append('what was made smaller is not written as it is')
            if self.program:
                own = shrink.shrunk(text)
                self.met['the text of shrink.py'] += own.out == answer.out
                if shrink.shrunk(made).out != answer.out:
                    lines.append('shrink.py makes it smaller still')
        self.met['codes' if answer.status == 0 else 'refused'] += 1
        self.differ(name, lines, code=text, answer=made, events=runs[0][0])

    def count(self, text, made):
        before, after = ct.read_text(text), ct.read_text(made)
        self.met['neat before'] += before == after
        for what, code in (('before', before), ('after', after)):
            self.met['procedures ' + what] += len(code.procs)
            self.met['instructions ' + what] += sum(len(proc) for proc in code.procs)
        tests = [i[2] for proc in before.procs for i in proc if i[0] == 'unless']
        self.met['tests that are known'] += sum(shrink.known_truth(each) is not None for each in tests)
        self.met['tests that read nothing and divide by 0'] += sum(
            each[0] == 'expr' and not shrink.reads(each[1]) and shrink.known_truth(each) is None for each in tests)
        for line in shrink.untidy(before):
            self.met['not neat: ' + ' '.join(line.split(' ')[2:] if line[0] == 'p' else line.split(' ')[1:])] += 1

    def random_code(self, number):
        rng = random_codes.Random('shrink %s %d' % (self.seed, number))
        code = Maker(rng).code()
        runs = []
        for _ in range(2):
            depth, steps = random_codes.random_bounds(rng, ca.accept(code)[1])
            runs.append((random_codes.random_events(rng, code.declared, False), (depth, steps)))
        if rng.chance(0.05):
            code = random_codes.mutated_code(rng, code, None)
        text = ct.print_code(code)
        if rng.chance(0.05):
            text = random_codes.mutated_text(rng, text)
        self.code('code %d' % number, text, self.short_enough(text, runs))

    def short_enough(self, text, runs):
        """The runs with fewer steps where a change of the code lets an event take too many instructions."""
        try:
            work = ct.read_code(text)[2]
        except ct.Refused:
            return runs
        most = max(1, random_codes.MOST_MOVES // (work + 1))
        return [(events, (depth, min(steps, most))) for events, (depth, steps) in runs]

    def random_chart(self, number):
        choices = random_codes.Random('shrink chart %s %d' % (self.seed, number))
        made = random_charts.Maker(choices, True).chart()
        chart, faults = check.faults_of(made)
        if faults:
            return
        text = random_charts.Writer(choices).chart(made).encode('latin-1')
        code = self.command('compile', text).out.encode('latin-1')
        runs = [(random_charts.event_file(choices, chart).encode('latin-1'), DEFAULT_BOUNDS) for _ in range(2)]
        self.code('chart %d' % number, code, runs)


def add_options(reader):
    reader.add_argument('--against', metavar='PROGRAM', type=os.path.abspath)
    reader.add_argument('--charts', action='store_true')


def campaign(options, folder):
    """Tries codes, or what the program compiles of charts; main.py calls it."""
    if options.charts and not options.against:
        raise SystemExit('--charts needs a program that compiles')
    comparison = Comparison(options.against, options.seed, options.keep, folder)
    return Campaign(comparison.random_chart if options.charts else comparison.random_code, lambda: {'codes': comparison.met})
