"""The tools as they are called: words, exit statuses, and what goes to standard output and standard error."""
import os
import subprocess
import sys
import tempfile

from common import CHECKOUT, VIEW
from common.version import VERSION

TOOLS = ('flowview', 'flowwhy', 'flowlint', 'flowtrace', 'flowtests', 'draw_examples')
LAMP = os.path.join(CHECKOUT, 'examples', 'lamp', 'lamp.')
LAMP_SUM = 'b68241c557260cf0'                # as `flowc fmt` and `md5sum` have it
FILES = {
    'wrong.chart': 'chart C { default -> A; state A { entry { x++; } } }\n',
    'dead.chart': 'chart C { default -> A; state A { outer -> A; outer -> A; } }\n',
    'fault.chart': 'chart C { local n : int8; default -> A; state A { during { n = 1 / n; } } }\n',
    'wanted': 'start [Off]\nGO [On]\nGO [Off]\ntick\n',
    'other': 'start [Off]\nGO [On]\nGO\n',
    'ticks': 'tick\n',
}
# The words, the status, how standard output begins, and how standard error begins.
CALLS = [
    ('flowwhy wrong.chart', 1, '', 'chart 1:44: 3 Expected\nwrong.chart:1:44: error: Expected: '),
    ('flowwhy LAMPchart', 0, 'ok 3 states', ''),
    ('flowwhy LAMPchart LAMPevents', 0, '0 start [Off]', ''),
    ('flowwhy fault.chart ticks --steps 5', 3, '0 start [A] n=0 - ok\n1 tick', 'run 1: zero\nfault.chart:1:66: error: zero: '),
    ('flowwhy nothing.chart', 4, '', 'read fault\nnothing.chart:1:1: error: ReadFault: '),
    ('flowwhy', 2, '', 'usage: flowwhy'),
    ('flowwhy wrong.chart LAMPchart LAMPevents', 1, '0 start [Off]', 'chart 1:44: 3 Expected\nwrong.chart:1:44: error: Expected: '),
    ('flowwhy fault.chart ticks ticks --format json', 3, '{\n "tool": "flowwhy",\n "messages": [\n  {\n', 'run 1: zero\n'),
    ('flowwhy LAMPchart --format xml', 2, '', 'usage: flowwhy'),
    ('flowwhy wrong.chart --program nothing', 127, '', 'flowwhy: --program names nothing, which is no program'),
    ('flowlint dead.chart', 0, 'ok 2 states 0 junctions 3 transitions 3 pairs\ndead.chart:1:47: warning: NeverTaken: ', ''),
    ('flowlint dead.chart --strict', 8, 'ok ', ''),
    ('flowlint dead.chart --strict --allow NeverTaken', 0, 'ok ', ''),
    ('flowlint wrong.chart', 1, '', 'chart 1:44: 3 Expected\nwrong.chart: flowc refuses'),
    ('flowlint dead.chart LAMPchart', 0, 'ok 2 states 0 junctions 3 transitions 3 pairs\ndead.chart:1:47: warning: Never', ''),
    ('flowlint LAMPchart wrong.chart', 1, 'ok 3 states', 'chart 1:44: 3 Expected\nwrong.chart: flowc refuses'),
    ('flowlint LAMPchart dead.chart --strict', 8, 'ok 3 states', ''),
    ('flowlint nothing.chart', 4, '', 'read fault\n'),
    ('flowlint dead.chart --program nothing', 127, '', 'flowlint: --program names nothing'),
    ('flowtrace show LAMPchart LAMPtrace', 0, '0 start [Off]\n1 GO [On]\n2 GO [Off]\n3 tick\n', ''),
    ('flowtrace expand LAMPchart wanted', 0, '0 start [Off] - - ok\n1 GO [On] - - ok\n', ''),
    ('flowtrace compare LAMPchart wanted LAMPtrace', 0, 'the same, 4 lines', ''),
    ('flowtrace compare LAMPchart other LAMPtrace', 1, 'line 2, GO:\n  On is not active, and was wanted\n  Off is active', ''),
    ('flowtrace run LAMPchart LAMPevents', 0, '0 start [Off]\n1 GO [On]\n', ''),
    ('flowtrace run fault.chart ticks', 3, '0 start [A]\n1 tick fault zero\n', 'run 1: zero\n'),
    ('flowtrace run wrong.chart ticks', 1, '', 'chart 1:44: 3 Expected\n'),
    ('flowtrace test LAMPchart LAMPevents wanted', 0, 'the same', ''),
    ('flowtrace test LAMPchart LAMPevents other', 1, 'line 2, GO:', ''),
    ('flowtrace test LAMPchart LAMPevents wanted LAMPevents other', 1,
     'LAMPchart, sum %s: LAMPevents\nthe same, 4 lines\n' % LAMP_SUM, ''),
    ('flowtrace test LAMPchart LAMPevents wanted fault.chart ticks', 2, '', 'usage: flowtrace'),
    ('flowtrace run LAMPchart LAMPevents --junit out', 2, '', 'usage: flowtrace'),
    ('flowview LAMPchart LAMPevents --coverage --at-least 100', 0, '2 of 2 states, 3 of 3 transitions\n', ''),
    ('flowview LAMPchart ticks --coverage --at-least 50', 1, '1 of 2 states, 1 of 3', 'flowview: 1 of 3 transitions are covered'),
    ('flowview LAMPchart ticks LAMPevents --coverage --at-least 50', 0, '2 of 2 states, 3 of 3 transitions\n', ''),
    ('flowview LAMPchart ticks LAMPevents --coverage --format json', 0, '{\n "chart": "Lamp",\n "sum": "%s",\n' % LAMP_SUM, ''),
    ('flowview LAMPchart ticks LAMPevents', 2, '', 'usage: flowview'),
    ('flowview LAMPchart ticks --at-least 50', 2, '', 'usage: flowview'),
    ('flowtests LAMPchart --seconds 5', 0, 'chart Lamp, sum %s\ntraces by ' % LAMP_SUM, ''),
    ('flowtests wrong.chart', 1, '', 'chart 1:44: 3 Expected\n'),
    ('flowtests LAMPchart --seconds 0', 2, '', 'usage: flowtests'),
    ('flowtests LAMPchart --program nothing', 127, '', 'flowtests: --program names nothing'),
    ('flowtrace expand wrong.chart wanted', 1, '', 'chart 1:44: 3 Expected\n'),
    ('flowtrace show LAMPchart wanted', 1, '', 'wanted:1:1: error: BadLine: '),
    ('flowtrace show LAMPchart nothing', 4, '', 'nothing:1:1: error: ReadFault: '),
    ('flowtrace show LAMPchart', 2, '', 'usage: flowtrace'),
    *((tool + ' --help', 0, 'usage: ' + tool, '') for tool in TOOLS),
    *((tool + ' --version', 0, '%s %s\n' % (tool, VERSION), '') for tool in TOOLS),
    ('draw_examples --all', 2, '', 'usage: draw_examples'),
]


def wrong_calls(program, calls=CALLS, files=FILES):
    """The calls that end otherwise, and how many there are."""
    lines = []
    with tempfile.TemporaryDirectory() as folder:
        for name, text in files.items():
            with open(os.path.join(folder, name), 'w', encoding='ascii') as file:
                file.write(text)
        for words, status, out, error in calls:
            tool, *rest = words.replace('LAMP', LAMP).split(' ')
            done = subprocess.run([sys.executable, os.path.join(VIEW, tool), *rest], cwd=folder, capture_output=True, check=False,
                                  stdin=subprocess.DEVNULL, env={**os.environ, 'FLOWC': program, 'COLUMNS': '80'})
            got_out, got_error = done.stdout.decode('latin-1'), done.stderr.decode('latin-1')
            out = out.replace('LAMP', LAMP)
            fits = all(got.startswith(wanted) and bool(got) == bool(wanted)
                       for got, wanted in ((got_out, out), (got_error, error)))
            if done.returncode != status or not fits:
                lines.append('%s: status %d, %r, %r' % (words, done.returncode, got_out[:200], got_error[:200]))
    return lines, len(calls)
