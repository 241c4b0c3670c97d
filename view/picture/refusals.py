"""Tries what flowview refuses, for checks: the line, the status, and that nothing is left in the place of the output."""
import os
import subprocess
import sys
import tempfile

FLOWVIEW = os.path.join(os.path.dirname(os.path.abspath(__file__)), '..', 'flowview')
LAMP = 'chart Lamp or { event input GO; default -> Off; state Off { outer GO -> On; } state On { outer GO -> Off; } }'
TRACE = '0 start [Off] - - ok\n1 GO [On] - - ok\n'
BEFORE = 'what was there before'
FILES = {
    'lamp.chart': LAMP,
    'wrong.chart': LAMP.replace('outer GO -> On', 'outer GO -> Onn'),
    'lamp.events': 'GO\n',
    'refused.events': 'GO\nSTOP\n',
    'lamp.trace': TRACE,
    'lamp.net': 'flownet 1\ncharts 1\nc lamp lamp.chart\nroutes 0\nend\n',
    'wrong.net': 'flownet 1\ncharts 1\nc lamp wrong.chart\nroutes 0\nend\n',
    'lamp.schedule': 'ev lamp GO\n',
    'net.trace': '0 lamp 0 start [Off] - - ok\n1 lamp 1 GO [On] - - ok\n',
    'other.trace': TRACE.replace('[On]', '[Off,On]'),
    'late.trace': TRACE + '1 GO [Off] - - ok\n',
    'cut.trace': TRACE + '2 GO',
    'same': '#!/bin/sh\nprintf "%s"\n' % TRACE.replace('\n', '\\n'),
    'differs': '#!/bin/sh\nprintf "%s"\n' % TRACE.replace('[On]', '[Off]').replace('\n', '\\n'),
    'shorter': '#!/bin/sh\nprintf "%s"\n' % TRACE.split('\n', maxsplit=1)[0],
    'broken/dot': '#!/bin/sh\nexit 1\n',
}
OTHER = 'flowview: line 2 of the trace of ./differs differs from the reference: 1 GO [Off] - - ok; 1 GO [On] - - ok'
# Words, the folders of programs or None for the usual ones, the status, and how standard error begins. `{out}` is the output.
CASES = [
    ('lamp.chart -o {out}', None, 0, ''),
    ('lamp.chart lamp.events -o {out}', None, 0, ''),
    ('lamp.chart lamp.trace -o {out}', None, 0, ''),
    ('lamp.net lamp.schedule -o {out}', None, 0, ''),
    ('lamp.net -o {out}', None, 1, 'flowview: lamp.net is a net: '),
    ('wrong.net lamp.schedule -o {out}', None, 1, 'chart lamp 1:73: 10 UnknownName'),
    ('lamp.chart net.trace -o {out}', None, 1, 'flowview: net.trace is the trace of a net'),
    ('lamp.chart refused.events -o {out}', None, 0, 'event 2: 2 UnknownEvent'),
    ('wrong.chart -o {out}', None, 1, 'chart 1:73: 10 UnknownName'),
    ('wrong.chart lamp.events -o {out}', None, 1, 'chart 1:73: 10 UnknownName'),
    ('lamp.chart other.trace -o {out}', None, 1, 'flowview: line 2 is no line of a trace of this chart, since Off is active beside'),
    ('lamp.chart late.trace -o {out}', None, 1, 'flowview: line 3 is no line of a trace of this chart, since it has another form'),
    ('lamp.chart cut.trace -o {out}', None, 1, 'flowview: line 3 of the trace is cut: 2 GO'),
    ('lamp.chart lamp.events --program ./same -o {out}', None, 0, ''),
    ('lamp.chart lamp.events --program ./differs -o {out}', None, 1, OTHER),
    ('lamp.chart lamp.events --program ./shorter -o {out}', None, 1, 'flowview: line 1 of the trace of ./shorter differs'),
    ('lamp.chart lamp.events --program ./missing -o {out}', None, 1, 'flowview: '),
    ('lamp.chart lamp.trace --program ./same -o {out}', None, 1, 'flowview: --program wants an event file'),
    ('lamp.chart -o {out}', 'empty', 1, 'flowview: there is no program dot: install Graphviz (Debian and Ubuntu: apt-get install graphviz'),
    ('lamp.chart lamp.events -o {out}', 'broken', 1, 'flowview: dot'),
    ('lamp.chart lamp.events --coverage -o {out}', 'empty', 0, ''),
    ('missing.chart -o {out}', None, 1, 'flowview: '),
    ('lamp.chart --state Of -o {out}', None, 1, 'flowview: the chart has no state Of'),
    ('lamp.chart --coverage -o {out}', None, 2, 'usage: '),
    ('lamp.chart lamp.events --depth 33 -o {out}', None, 2, 'usage: '),
    ('lamp.chart -o missing/out', None, 1, 'flowview: '),
]


def write_files(folder):
    for name, text in FILES.items():
        place = os.path.join(folder, name)
        os.makedirs(os.path.dirname(place), exist_ok=True)
        with open(place, 'w', encoding='utf-8') as file:
            file.write(text)
        os.chmod(place, 0o755 if text.startswith('#!') else 0o644)
    os.makedirs(os.path.join(folder, 'empty'))


def case_faults(folder, words, path, status, error):
    """What is wrong with one call, before which there is something in the place of the output."""
    out = os.path.join(folder, 'out')
    with open(out, 'w', encoding='utf-8') as file:
        file.write(BEFORE)
    before = sorted(os.listdir(folder))
    environment = {**os.environ, 'PATH': os.path.join(folder, path)} if path else None
    done = subprocess.run([sys.executable, FLOWVIEW, *words.replace('{out}', out).split()], cwd=folder, env=environment,
                          capture_output=True, text=True, check=False)
    with open(out, encoding='utf-8') as file:
        is_changed = file.read() != BEFORE
    if done.returncode != status or not done.stderr.startswith(error) or not error and done.stderr:
        yield '%s: status %d, %s' % (words, done.returncode, done.stderr)
    if is_changed != (status == 0) or sorted(os.listdir(folder)) != before:
        yield '%s: the output is %schanged, and there are %s' % (words, '' if is_changed else 'not ', os.listdir(folder))


def refusal_faults():
    """All that is wrong with what is refused and with what isn't."""
    with tempfile.TemporaryDirectory() as folder:
        write_files(folder)
        for case in CASES:
            yield from case_faults(folder, *case)
