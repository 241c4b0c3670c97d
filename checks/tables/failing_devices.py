#!/usr/bin/env python3
r"""Lets memory, files and streams of a built program fail, one call after another, and checks each answer.

    python3 checks/tables/failing_devices.py --against PROGRAM [--part PART] [--most N] [--selftest]
    python3 checks/tables/failing_devices.py --chart-to-c PROGRAM [--part PART] [--most N]

PROGRAM is a built `flowc`, or a built `chart_to_c`. PART is one of these; all are tried where none is named:

    calls       Each request for memory, each open, each read and each write of a command fails in turn; and all from one on;
                and reads and writes move few bytes. For this a library is compiled by `cc` and loaded before the C library,
                which counts these calls and lets one fail. It can't reach a program that brings its own requests for memory,
                such as one built with a sanitizer; this is found out and said.
    memory      The process may have less and less memory, down to where it can't begin.
    streams     Standard output is full, closed, cut at a size, or read by nobody after so many bytes; standard error too.
    files       Files are folders, pipes that end early, pipes that give a line at a time, and files that are cut, replaced,
                removed or lengthened while they are read; few files may be open.
    stack       The stack of the process is smaller and smaller.

At most N of the calls of one kind are tried in a scene, 400 where nothing is said, from the first to the last at even
distances, and where a try takes longer a part of N, but at least one; `--most 0` means all. With `--selftest` that command is
a scene too, which takes long.

Right is the answer of the same command where nothing fails. Each answer must be one that answers.py allows, what is on standard
output must be a front of what is right, and more: see `Judge`. A line is written for each answer that is wrong, then a table
of the counts; the status is 1 where there is a wrong one."""
import errno
import fcntl
import functools
import os
import resource
import signal
import struct
import subprocess
import sys
import tempfile
import threading
import time
from collections import Counter
from typing import Callable, NamedTuple

import beside                                # noqa: F401, which finds the other folders of checks
import answers
from programs import Ended, parser, status_text

SECONDS = 120
LIBRARY = r'''
#define _GNU_SOURCE
#include <dlfcn.h>
#include <errno.h>
#include <fcntl.h>
#include <stdarg.h>
#include <stdlib.h>
#include <string.h>
#include <sys/mman.h>
#include <unistd.h>

/* Counts the calls of a process by kind in a shared page, and lets some fail: the one numbered FAIL_AT of the kind FAIL_KIND,
   or all from that on with FAIL_ON. Reads and writes move at most FAIL_PIECE bytes. */
enum { MEMORY, OPEN, READ, WRITE_OUT, WRITE_LINE, KINDS };
static long own[KINDS], *counts = own, at, kind = -1, piece;
static int on, number, ready;

extern void *__libc_malloc(size_t), *__libc_calloc(size_t, size_t), *__libc_realloc(void *, size_t);
extern void *__libc_memalign(size_t, size_t);

static long value(const char *name) { const char *text = getenv(name); return text ? atol(text) : 0; }

__attribute__((constructor)) static void begin(void) {
    const char *name = getenv("FAIL_COUNTS");
    int file = name ? open(name, O_RDWR) : -1;
    if (file >= 0) {
        void *page = mmap(0, sizeof own, PROT_READ | PROT_WRITE, MAP_SHARED, file, 0);
        if (page != MAP_FAILED) counts = page;
        close(file);
    }
    at = value("FAIL_AT"); kind = at ? value("FAIL_KIND") : -1; on = value("FAIL_ON"); number = value("FAIL_NUMBER");
    piece = value("FAIL_PIECE");
    memset(counts, 0, sizeof own);
    ready = 1;
}

static int fails(int which) {
    if (!ready) return 0;
    counts[which]++;
    return which == kind && (on ? counts[which] >= at : counts[which] == at);
}

#define NO_MEMORY(give) do { if (fails(MEMORY)) { errno = ENOMEM; give; } } while (0)
void *malloc(size_t size) { NO_MEMORY(return 0); return __libc_malloc(size); }
void *calloc(size_t count, size_t size) { NO_MEMORY(return 0); return __libc_calloc(count, size); }
void *realloc(void *old, size_t size) { NO_MEMORY(return 0); return __libc_realloc(old, size); }
void *memalign(size_t align, size_t size) { NO_MEMORY(return 0); return __libc_memalign(align, size); }
void *aligned_alloc(size_t align, size_t size) { NO_MEMORY(return 0); return __libc_memalign(align, size); }
int posix_memalign(void **into, size_t align, size_t size) {
    if (fails(MEMORY)) return ENOMEM;
    void *given = __libc_memalign(align, size);
    if (!given) return ENOMEM;
    *into = given;
    return 0;
}

int open(const char *path, int flags, ...) {
    static int (*next)(const char *, int, ...);
    int mode = 0;                       /* a mode is given only where a file may be made */
    if (flags & O_CREAT || (flags & O_TMPFILE) == O_TMPFILE) {
        va_list more;
        va_start(more, flags);
        mode = va_arg(more, int);
        va_end(more);
    }
    if (!next) next = dlsym(RTLD_NEXT, "open");
    if (fails(OPEN)) { errno = number; return -1; }
    return next(path, flags, mode);
}
int open64(const char *, int, ...) __attribute__((alias("open")));

ssize_t read(int file, void *into, size_t most) {
    static ssize_t (*next)(int, void *, size_t);
    if (!next) next = dlsym(RTLD_NEXT, "read");
    if (fails(READ)) { if (most) memset(into, '#', most); errno = number; return -1; }
    return next(file, into, piece && most > (size_t)piece ? (size_t)piece : most);
}

ssize_t write(int file, const void *from, size_t most) {
    static ssize_t (*next)(int, const void *, size_t);
    if (!next) next = dlsym(RTLD_NEXT, "write");
    if (fails(file == 2 ? WRITE_LINE : WRITE_OUT)) { if (!number) return 0; errno = number; return -1; }
    return next(file, from, piece && most > (size_t)piece ? (size_t)piece : most);
}
'''
KINDS = ('memory', 'open', 'read', 'write', 'line')
MEMORY, OPEN, READ, WRITE, LINE = range(len(KINDS))


class Scene(NamedTuple):
    """A command with its words, and the contents of its files by name."""
    name: str
    words: list
    files: dict


# ---- the scenes

NET_OF_ONE = b'flownet 1\ncharts 1\nc c c\nroutes 0\nend\n'
# Three charts, two of one file; an event that goes on two routes, an item with a value, and a chart that sends to itself.
NET = b'''flownet 1
charts 3
c a a
c b b
c c b
routes 4
r 0 up 1 IN 2 v x
r 0 up 2 IN 1 - -
r 1 back 0 BACK 4 - -
r 2 back 2 IN 1 v x
end
'''
NET_CHARTS = {
    'a': b'''chart A {
  event input GO; event input BACK; event output up; output v : int8;
  default -> S; state S { outer GO { v = v + 1; emit up; } -> S; outer BACK -> S; }
}
''',
    'b': b'''chart B {
  event input IN; event output back; input x : int8 wrap; output v : int8 error = 60;
  default -> S; state S { outer IN { v = v + x; emit back; } -> S; }
}
'''}
STEPS = b'ev a GO\ntake 0\ntake 1\n# both answer\nev b IN x=0\ntake 2\ntake 3\nev a GO\ntake 0\ntake 2\n'
# A chart whose sends nest without end, and one with a value of more than 62 bits.
NO_BOUNDS = b'chart C { event local L; local n : int8; default -> A; state A { during { n = n + 1; send L; } } }'
WIDE = b'chart C { input x : int64; local n : int64 wrap; default -> A; state A { during { n = n * 7 + x; } } }'
START_WITH_A_FAULT = NET_CHARTS['b'].replace(b'default', b'entry { v = v / x; } default')


def sample(path):
    with open(os.path.join(answers.ROOT, path), 'rb') as file:
        return file.read()


def compiled(program, chart):
    with tempfile.TemporaryDirectory() as folder:
        with open(os.path.join(folder, 'c'), 'wb') as file:
            file.write(chart)
        answer = answers.call(program, ['compile', 'c'], folder)
    if answer.status != 0 or answer.error:
        raise SystemExit('compile of a sample: %s' % status_text(answer))
    return answer.out.encode('latin-1')


def scenes(program, with_selftest):
    """Commands with files: whole answers, refusals and faults of runs."""
    door, door_events = sample('examples/compiled/door.chart'), sample('examples/compiled/door.events')
    watch, watch_events = sample('examples/stopwatch/stopwatch.chart'), sample('examples/stopwatch/stopwatch.events')
    pump = sample('examples/pump/pump.chart')
    fault = b'chart C { local n : int8 error = 125; default -> A; state A { during { n = n + 1; } } }'
    made = [Scene('words', ['rules', 'c'], {}), Scene('no file', ['check', 'c'], {}),
            Scene('check', ['check', 'c'], {'c': pump}), Scene('check refused', ['check', 'c'], {'c': pump[:-20]}),
            Scene('fmt', ['fmt', 'c'], {'c': pump}), Scene('compile', ['compile', 'c'], {'c': watch}),
            Scene('upgrade', ['upgrade', 'c'], {'c': compiled(program, watch)}),
            Scene('upgrade refused', ['upgrade', 'c'], {'c': compiled(program, door)[:-7]}),
            Scene('bounds', ['bounds', 'c'], {'c': pump}), Scene('shrink', ['shrink', 'c'], {'c': compiled(program, watch)})]
    for command in answers.TRACED:
        for name, chart, events in (('', watch, watch_events), (' of the door', door, door_events),
                                    (' with a bad line', door, b'PUSH\nPUSH locked=2\n'),
                                    (' with a fault', fault, b'tick\n' * 9)):
            made.append(with_trace(program, command, chart, events)._replace(name=command + name))
    made += [most_frames(), *net_scenes(), most_net()]
    if with_selftest:
        made.append(Scene('selftest', ['selftest', '0'], {}))
    return made


def c_scenes():
    """Commands of `chart_to_c`: whole answers with and without options, refusals, no file, and words without a command."""
    pump, motor, craft = (sample('examples/%s/%s.chart' % (name, name)) for name in ('pump', 'motor', 'spacecraft'))
    made = [Scene('words', ['source', 'c', 'c'], {})]
    for command in answers.C_COMMANDS:
        made += [Scene('%s%s' % (command, name), [command, *options, 'c'], files) for name, options, files in (
            (' of no file', (), {}), ('', (), {'c': pump}), (' refused', (), {'c': pump[:-20]}),
            (' refused for its names', (), {'c': pump.replace(b'Running', b'Rinning', 1)}), (' of the motor', (), {'c': motor}),
            (' with the greatest bounds', greatest_bounds(command), {'c': motor}), (' of the spacecraft', (), {'c': craft}),
            (' of a chart without bounds', (), {'c': NO_BOUNDS}), (' of wide numbers', (), {'c': WIDE}))]
    return made


def net_scenes():
    """Nets of several charts: whole runs, each end of a run, each kind of a refusal, and files that aren't there."""
    craft = {name: sample('examples/net/' + name) for name in
             ('craft.net', 'monitor.chart', 'mission.chart', 'attitude.chart', 'radio.chart', 'craft.schedule')}
    made = [Scene('net of the craft', ['net', 'craft.net', 'craft.schedule'], craft), small_net('', {})]
    for name, files in ((' refused', {'n': NET[:-5]}), (' with a refused chart', {'b': NET_CHARTS['b'][:-3]}),
                        (' with a bad route', {'n': NET.replace(b'BACK', b'IN')}), (' with a bad step', {'e': STEPS + b'take 4\n'}),
                        (' that is empty', {'e': STEPS + b'take 2\ntake 2\n'}), (' that is full', {'e': b'ev a GO\n' * 9}),
                        (' with a fault', {'e': STEPS + b'take 3\n'}), (' with a fault of a start', {'b': START_WITH_A_FAULT}),
                        (' without a chart', {'b': None}), (' without a schedule', {'e': None})):
        made.append(small_net(name, files))
    return made


def small_net(name, files):
    """The scene of the small net with some other files; one that is None isn't there."""
    kept = {'n': NET, **NET_CHARTS, 'e': STEPS, **files}
    return Scene('net of three' + name, ['net', 'n', 'e'], {each: data for each, data in kept.items() if data is not None})


def most_net():
    """A net with the most charts and routes, the longest queues, and much room for frames."""
    routes = b''.join(b'r %d back %d IN 1024 v x\n' % (at % 16, (at * 5 + 1) % 16) for at in range(64))
    net = b'flownet 1\ncharts 16\n' + b''.join(b'c c%d b\n' % at for at in range(16)) + b'routes 64\n' + routes + b'end\n'
    steps = b''.join(b'ev c%d IN x=1\n' % at for at in range(16)) + b''.join(b'take %d\n' % at for at in range(0, 64, 9))
    return Scene('net of the most', ['net', *greatest_bounds('net'), 'n', 'e'], {'n': net, 'b': NET_CHARTS['b'], 'e': steps})


def greatest_bounds(command):
    return '--depth', '32', '--steps', '2500' if command == 'net' else '50000'


def event_lines(command, events):
    """The lines of an event file as that command reads them: `net` has them as steps of the chart c."""
    if command != 'net':
        return events
    return b''.join(line if is_skipped(line) else b'ev c ' + line for line in events.splitlines(keepends=True))


def is_skipped(line):
    return not line.split() or line.split()[0].startswith(b'#')


def with_trace(program, command, chart, events, options=()):
    """The scene of a command that writes a trace; `exec` has the code of the chart, and `net` a net of this chart alone."""
    text = compiled(program, chart) if command == 'exec' else chart
    files = {'c': text, 'e': event_lines(command, events)}
    if command == 'net':
        files['n'] = NET_OF_ONE
    return Scene(command, [command, *options, 'n' if command == 'net' else 'c', 'e'], files)


class Place:
    """A scene in a folder of its own, and how its command ends where nothing fails."""

    def __init__(self, program, scene):
        self.program, self.scene = program, scene
        self.within = tempfile.TemporaryDirectory(dir='/dev/shm' if os.path.isdir('/dev/shm') else None)
        for name, data in scene.files.items():
            with open(self.path(name), 'wb') as file:
                file.write(data)
        self.right = self.call()

    def path(self, name):
        return os.path.join(self.within.name, name)

    def make_pipe(self, name):
        """Makes a file a pipe that has its name."""
        os.unlink(self.path(name))
        os.mkfifo(self.path(name))
        return self.path(name)

    def call(self, **more):
        return answers.call(self.program, self.scene.words, self.within.name, seconds=SECONDS, **more)


class Running:
    """A command that is begun, and killed after some time."""

    def __init__(self, place, output):
        self.process = subprocess.Popen([place.program, *place.scene.words], cwd=place.within.name, stdin=subprocess.DEVNULL,
                                        stdout=output, stderr=subprocess.PIPE)
        self.late = False
        self.timer = threading.Timer(SECONDS, self.stop)
        self.timer.start()

    def stop(self):
        self.late = self.process.poll() is None
        self.process.kill()

    def ended(self, taken):
        """How it ends, where this was taken of its standard output."""
        rest, error = self.process.communicate()
        self.timer.cancel()
        return Ended((taken + (rest or b'')).decode('latin-1'), error.decode('latin-1'), self.process.returncode, self.late)


def limited(kind, most):
    """What sets a limit of the system, in the process that calls it."""
    return functools.partial(resource.setrlimit, kind, (most, most))


# ---- judging

class Judge:
    """Counts answers, and says which are wrong.

    A failing request for memory may give status 6, or the whole right answer, or a read fault where it was one of those that
    open a file. A failing open or read gives status 4, and one that was interrupted may be tried again. A failing write gives
    status 5 and a front that isn't the whole answer. Where standard error fails, all else is right."""

    ALLOWED = {'memory': (4, 6), 'open': (4,), 'read': (4,), 'write': (5,)}

    def __init__(self, usage):
        """`usage` is the usage line of the program."""
        self.usage, self.counts, self.wrong = usage, Counter(), 0

    def tell(self, name, why, answer):
        self.wrong += 1
        print('%s: %s: %s, %d bytes of standard output, %r'
              % (name, why, status_text(answer), len(answer.out), answer.error[:200]), flush=True)

    def count(self, part, answer, right=None):
        self.counts[part, 'the right answer' if answer == right else status_text(answer)] += 1

    def check(self, place, what, part, answer, fault=None, line_fails=False):
        """Whether an answer is allowed. `fault` is the word of what may fail, or none where the answer must be right."""
        right = place.right
        self.count(part, answer, right)
        asked = place.scene.words[0] if right.status != 2 else None
        why = None if line_fails else answers.problem(asked, answer, self.usage)
        if why is None and answer != right:
            why = self.line_problem(right, answer) if line_fails else self.fault_problem(right, answer, fault)
        if why:
            self.tell('%s: %s' % (place.scene.name, what), why, answer)
        return why is None

    @staticmethod
    def line_problem(right, answer):
        """Why this doesn't come of a standard error that fails, or none."""
        same = (answer.out, answer.status, answer.timed_out) == (right.out, right.status, right.timed_out)
        return None if same and right.error.startswith(answer.error) else 'a failing standard error changes the answer'

    def fault_problem(self, right, answer, fault):
        """Why this isn't the right answer, and doesn't come of what may fail, or none."""
        if answer.status not in self.ALLOWED.get(fault, ()):
            return 'no such answer comes of a failing %s' % fault
        if not right.out.startswith(answer.out):
            return 'standard output is no front of the right one'
        if answer.status == 5 and answer.out == right.out:
            return 'a write fault behind the whole answer'
        return None

    def print_counts(self):
        print('\n%-44s %9s' % ('what failed, and the status', 'answers'))
        for (part, status), count in sorted(self.counts.items()):
            print('%-44s %9d' % ('%s: %s' % (part, status), count))
        print('\n%d answers, %d wrong' % (sum(self.counts.values()), self.wrong))


def chosen(count, most, share=1):
    """Numbers from 1 to `count` at even distances: all where `most` is 0, otherwise at most so many, or that part of so many, but
    at least one."""
    wanted = max(1, most // share) if most else count
    if count <= wanted:
        return range(1, count + 1)
    if wanted == 1:
        return [1]
    return sorted({1 + at * (count - 1) // (wanted - 1) for at in range(wanted)})


class Trial(NamedTuple):
    """What a part is given: the program, its commands that write a trace, the scenes, what makes more scenes for the stack, the
    judge of the answers, and how many calls of a kind are tried, or 0."""
    program: str
    traced: tuple
    scenes: list
    deep: Callable
    judge: Judge
    most: int

    def places(self):
        """A place for each scene."""
        return (Place(self.program, scene) for scene in self.scenes)


# ---- failing calls

class Failure(NamedTuple):
    """Which call fails: the one numbered `at` of a kind, from 1 on, or all from that on, with this number of an error. Reads and
    writes move at most `piece` bytes. 0 means none."""
    kind: int = 0
    at: int = 0
    on: bool = False
    number: int = 0
    piece: int = 0

    @property
    def settings(self):
        """The variables that tell the library."""
        return {'FAIL_KIND': str(self.kind), 'FAIL_AT': str(self.at), 'FAIL_ON': str(int(self.on)),
                'FAIL_NUMBER': str(self.number), 'FAIL_PIECE': str(self.piece)}


NOTHING = Failure()


class Library:
    """The library that lets calls fail, and the page in which it counts."""

    def __init__(self, folder):
        self.path, source = os.path.join(folder, 'failing.so'), os.path.join(folder, 'failing.c')
        with open(source, 'w', encoding='ascii') as file:
            file.write(LIBRARY)
        compiler = os.environ.get('CC', 'cc')
        subprocess.run([compiler, '-O1', '-fno-builtin', '-shared', '-fPIC', '-o', self.path, source, '-ldl'], check=True)
        self.page = os.path.join(folder, 'counts')
        with open(self.page, 'wb') as file:
            file.write(bytes(8 * len(KINDS)))

    def call(self, place, failure=NOTHING):
        """The answer, and how many calls of each kind there were."""
        settings = {'LD_PRELOAD': self.path, 'FAIL_COUNTS': self.page, **failure.settings}
        answer = place.call(env={**os.environ, **settings})
        with open(self.page, 'rb') as file:
            return answer, struct.unpack('%dq' % len(KINDS), file.read())


def failing_calls(trial):
    """Each call of the scenes fails in turn, as the library lets it."""
    with tempfile.TemporaryDirectory() as folder:
        library = Library(folder)
        place = Place(trial.program, trial.scenes[0])
        answer, counts = library.call(place)
        if answer != place.right or not counts[MEMORY]:
            print('calls: passed over, since the program brings its own requests for memory')
            return
        for place in trial.places():
            answer, counts = library.call(place)
            if not trial.judge.check(place, 'nothing fails', 'nothing', answer):
                continue
            for part, failure in failures(counts, trial.most):
                one_failure(trial, library, place, part, failure)
            small_pieces(trial, library, place)
            print('%s: %s' % (place.scene.name, ', '.join('%d of %s' % each for each in zip(counts, KINDS))), flush=True)


def failures(counts, most):
    """What fails, one after another, where there are so many calls of each kind, each with words for it."""
    for at in chosen(counts[MEMORY], most):
        yield 'a request for memory', Failure(MEMORY, at)
    for at in chosen(counts[MEMORY], most, 4):
        yield 'all requests for memory from one on', Failure(MEMORY, at, on=True)
    for number in (errno.EACCES, errno.EMFILE, errno.EINTR):
        for at in chosen(counts[OPEN], most):
            yield 'an open', Failure(OPEN, at, number=number)
    for number in (errno.EIO, errno.EINTR, errno.EAGAIN):
        for at in chosen(counts[READ], most):
            yield 'a read', Failure(READ, at, number=number)
            yield 'all reads from one on', Failure(READ, at, number=number, on=True)
    for number in (errno.ENOSPC, errno.EPIPE, errno.EINTR, 0):
        for at in chosen(counts[WRITE], most):
            yield 'a write', Failure(WRITE, at, number=number)
            yield 'all writes from one on', Failure(WRITE, at, number=number, on=True)
        for at in chosen(counts[LINE], most):
            yield 'a write of standard error', Failure(LINE, at, number=number, on=True)


def one_failure(trial, library, place, part, failure):
    answer, _ = library.call(place, failure)
    line_fails = failure.kind == LINE
    trial.judge.check(place, '%s: %s' % (part, failure), part, answer, None if line_fails else KINDS[failure.kind], line_fails)


def small_pieces(trial, library, place):
    """Reads and writes move few bytes, and with one byte each some of them fail."""
    for piece in (1, 7, 511):
        answer, counts = library.call(place, Failure(piece=piece))
        trial.judge.check(place, 'pieces of %d' % piece, 'reads and writes of few bytes', answer)
        for kind in (READ, WRITE) if piece == 1 else ():
            for at in chosen(counts[kind], trial.most, 4):
                failure = Failure(kind, at, number=errno.EIO, piece=1)
                one_failure(trial, library, place, 'a call among those of one byte: ' + KINDS[kind], failure)


# ---- memory

def least_memory(program, usage):
    """The least number of bytes, by steps of 64 KiB, with which the program begins, or none."""
    low, high = 0, 1 << 14
    while high - low > 1:
        middle = (low + high) // 2
        if answers.begins(program, middle << 16, usage):
            high = middle
        else:
            low = middle
    return high << 16 if high < 1 << 14 else None


def little_memory(trial):
    """The scenes with more and more memory, until it is enough."""
    least = least_memory(trial.program, trial.judge.usage)
    if least is None:
        print('memory: passed over, since the program takes over a GiB to begin')
        return
    print('memory: the program begins with %d KiB' % (least >> 10))
    for place in trial.places():
        memory, steps = least, 0
        while steps < 2000:
            answer = place.call(memory=memory)
            trial.judge.check(place, 'memory of %d bytes' % memory, 'little memory', answer, 'memory')
            if answer == place.right:
                break
            memory, steps = memory + (4096 if steps < 64 else memory // 64), steps + 1
        else:
            trial.judge.tell(place.scene.name, 'no memory is enough', answer)


# ---- standard output and standard error

SMALL_CHART = b'chart C { default -> A; state A { } }'


def cut_output(place, size):
    """The answer where standard output is a file that may have so many bytes."""
    def prepare():
        resource.setrlimit(resource.RLIMIT_FSIZE, (size, size))
        signal.signal(signal.SIGXFSZ, signal.SIG_IGN)

    path = place.path('output')
    with open(path, 'wb') as out:
        answer = place.call(before=prepare, stdout=out, restore_signals=False)
    with open(path, 'rb') as out:
        return answer._replace(out=out.read().decode('latin-1'))


def begun(place):
    """The command, begun with standard output in a pipe that has room for one page, and the end where that is read."""
    end, device = os.pipe()
    fcntl.fcntl(device, fcntl.F_SETPIPE_SZ, 4096)
    running = Running(place, device)
    os.close(device)
    return running, open(end, 'rb', buffering=0)


def taken_output(output, most):
    taken = b''
    while len(taken) < most:
        piece = output.read(most - len(taken))
        if not piece:
            break
        taken += piece
    return taken


def left_output(place, size):
    """The answer where the reader of a narrow pipe goes away after so many bytes."""
    running, output = begun(place)
    with output:
        taken = taken_output(output, size)
    return running.ended(taken)


def long_outputs(trial):
    """Scenes that write far more than a pipe has room for."""
    if not trial.traced:
        return [scene for scene in trial.scenes if scene.name == 'source of the spacecraft']
    return [with_trace(trial.program, command, SMALL_CHART, b'tick\n' * 20000) for command in trial.traced]


def failing_streams(trial):
    """Standard output and standard error fail in all ways."""
    for place in trial.places():
        failing_devices(trial, place)
        cut_outputs(trial, place)
    for scene in long_outputs(trial):
        place = Place(trial.program, scene)
        for size in (0, 1, 20, 512, 4096, 100000):
            answer = left_output(place, size)
            trial.judge.check(place, 'the reader goes after %d bytes' % size, 'a reader that goes away', answer, 'write')


def failing_devices(trial, place):
    """Each stream goes to each device that fails."""
    for device in answers.DEVICES:
        if place.right.out:
            answer = place.call(devices={1: device})
            trial.judge.check(place, 'standard output ' + device, 'standard output ' + device, answer, 'write')
        answer = place.call(devices={2: device})
        trial.judge.check(place, 'standard error ' + device, 'standard error ' + device, answer, line_fails=True)


def cut_outputs(trial, place):
    """Standard output is a file that may have fewer bytes than are written."""
    right = place.right.out
    for size in chosen(len(right), trial.most, 8):
        answer = cut_output(place, size - 1)
        trial.judge.count('standard output that is cut', answer)
        if answer != Ended(right[:size - 1], 'write fault\n', 5):
            trial.judge.tell('%s: output of %d bytes' % (place.scene.name, size - 1), 'no write fault at that byte', answer)


# ---- files

def feed(path, pieces, pause=0.0):
    """Writes these pieces into a pipe that has a name, in a thread; a reader that goes away ends it."""
    def work():
        try:
            with open(path, 'wb', buffering=0) as file:
                for piece in pieces:
                    file.write(piece)
                    time.sleep(pause)
        except OSError:
            pass
    thread = threading.Thread(target=work, daemon=True)
    thread.start()
    return thread


def piped(place, name, pieces, pause=0.0):
    """The answer where a file is a pipe that gives these pieces."""
    path = place.make_pipe(name)
    feed(path, pieces, pause)
    answer = place.call()
    try:                                                    # where the program never opened the pipe
        os.close(os.open(path, os.O_RDONLY | os.O_NONBLOCK))
    except OSError:
        pass
    os.unlink(path)
    return answer


def pipes_cut_short(trial, scenes):
    """A file is a pipe that ends early; right is the answer to a file that ends there."""
    for scene in scenes:
        for name, data in scene.files.items():
            for length in chosen(len(data) + 1, trial.most, 8):
                front = data[:length - 1]
                place = Place(trial.program, scene._replace(files={**scene.files, name: front}))
                answer = piped(place, name, [front[:7], front[7:]])
                what = 'a pipe for %s of %d bytes' % (name, length - 1)
                trial.judge.check(place, what, 'a pipe that ends early', answer)


def line_by_line(trial):
    """Each line of a trace must be there before the next line of the event file is given."""
    door = sample('examples/compiled/door.chart'), sample('examples/compiled/door.events')
    scenes = [(with_trace(trial.program, command, *door), 1) for command in trial.traced] + [(small_net('', {}), 3)]
    for scene, starts in scenes:
        place = Place(trial.program, scene)
        lines = [line for line in scene.files['e'].splitlines(keepends=True) if not is_skipped(line)]
        # This end of the pipe reads too, so that it is there whether the program opens the other one or not.
        with open(place.make_pipe('e'), 'r+b', buffering=0) as events:
            running = Running(place, subprocess.PIPE)
            got = [running.process.stdout.readline() for _ in range(starts)]
            for line in lines:
                events.write(line)
                got.append(running.process.stdout.readline())
        answer = running.ended(b'')
        trial.judge.count('lines that are given one by one', answer)
        if (b''.join(got).decode('latin-1'), answer) != (place.right.out, Ended('', '', 0)):
            trial.judge.tell(scene.name + ' line by line', 'another trace', answer)


def nothing_is_read_first(trial):
    """Where the first line can't be written, no byte of the event file may be taken."""
    for command in trial.traced:
        place = Place(trial.program, with_trace(trial.program, command, SMALL_CHART, b''))
        pipe = os.open(place.make_pipe('e'), os.O_RDWR | os.O_NONBLOCK)
        os.write(pipe, b'tick\n')
        answer = place.call(devices={1: 'full'})
        try:
            left = os.read(pipe, 99)
        except BlockingIOError:                             # all was taken
            left = b''
        os.close(pipe)
        trial.judge.count('standard output that fails before the events', answer)
        if left != b'tick\n' or answer != Ended('', 'write fault\n', 5):
            trial.judge.tell(command, 'events are read before the first line is written', answer)


ADDED_LINES = 10


def lengthen(path):
    """Writes more lines after the last one, each of them like it."""
    with open(path, 'r+b') as file:
        last = file.readline()
        file.seek(0, os.SEEK_END)
        file.write(last * ADDED_LINES)


def changing_files(trial):
    """The event file is changed while the program waits for room in a narrow pipe."""
    lines = 30000
    changes = {'cut': lambda path: os.truncate(path, 60001), 'emptied': lambda path: os.truncate(path, 0),
               'removed': os.unlink, 'replaced': lambda path: os.rename(path + '2', path), 'lengthened': lengthen}
    for command in trial.traced:
        scene = with_trace(trial.program, command, SMALL_CHART, b'tick\n' * lines)
        longest = Place(trial.program, with_trace(trial.program, command, SMALL_CHART, b'tick\n' * (lines + ADDED_LINES))).right
        for name, change in changes.items():
            place = Place(trial.program, scene._replace(files={**scene.files, 'e2': b'NO\n'}))
            running, output = begun(place)
            with output:
                taken = taken_output(output, 3000)
                change(place.path('e'))
                taken += taken_output(output, 1 << 30)
            answer = running.ended(taken)
            trial.judge.count('a file that is %s while it is read' % name, answer)
            why = answers.problem(command, answer) or changed_problem(name, answer, longest, lines)
            if why:
                trial.judge.tell('%s: a file that is %s' % (command, name), why, answer)


def changed_problem(name, answer, longest, lines):
    """Why this isn't the answer where the file of so many lines is changed in this way, or none."""
    found = answer.out.count('\n') - 1, answer.status
    if not longest.out.startswith(answer.out):
        return 'standard output is no front of the right one'
    if name in ('removed', 'replaced') and found != (lines, 0):
        return 'the file that was opened is not read to its end'
    if name == 'lengthened' and found != (lines + ADDED_LINES, 0):
        return 'the lines that were added are not read'
    return None


def few_files(trial):
    """Besides its three streams the program needs room for one open file. With less it can't even be loaded."""
    for place in trial.places():
        answer = place.call(before=limited(resource.RLIMIT_NOFILE, 4))
        trial.judge.check(place, '4 open files', 'at most 4 open files', answer, 'open')


def failing_files(trial):
    """Files that are pipes, or that change, and too few that may be open."""
    ended_early = ('check', *answers.C_COMMANDS)
    pipes_cut_short(trial, [scene for scene in trial.scenes if len(scene.files) >= 2 or scene.name in ended_early])
    if trial.traced:
        line_by_line(trial)
        nothing_is_read_first(trial)
        changing_files(trial)
    few_files(trial)


# ---- the stack

def most_frames():
    """Code of the greatest height under the greatest bounds, so with the most room for frames."""
    return Scene('exec with the most frames', ['exec', *greatest_bounds('exec'), 'c', 'e'],
                 {'c': answers.code_texts()['height_200'], 'e': b'tick\n'})


def deep_charts():
    """Charts by name whose parts stand as deep in each other, and lead as far to each other, as they may."""
    number = b'(' * 64 + b'1' + b')' * 64
    nest = b'chart C { local n : int8; ' + b'default -> S; state S { ' * 15 + b'entry { n = ' + number + b'; }' + b' }' * 16
    chain = b'chart C { default -> A; state A { outer -> @j0; } %s junction j4000 { -> A; } }' % b' '.join(
        b'junction j%d { [false] -> A; -> @j%d; }' % (at, at + 1) for at in range(4000))
    return ('deep states', nest), ('a long chain', chain), ('nested sends', NO_BOUNDS)


def many_texts():
    """Refused texts by name that have something very often."""
    front = b'chart C { default -> A; state A { during { n = '
    return (('parentheses', front + b'(' * 1000000), ('signs', front + b'- ' * 500000), ('braces', b'{' * 1000000),
            ('states', b'chart C { ' + b'state A { ' * 99999), ('comments', b'chart C { ' + b'//\n' * 300000))


def chart_scenes(whole, refused):
    """The deep charts with the commands of `whole`, and the refused texts with those of `refused`."""
    made = [Scene('%s of %s' % (command, name), [command, 'c'], {'c': text})
            for name, text in deep_charts() for command in whole]
    return made + [Scene('%s of many %s' % (command, name), [command, 'c'], {'c': text})
                   for name, text in many_texts() for command in refused]


def deep_scenes(program):
    """What takes much of the stack."""
    made = chart_scenes(('fmt', 'compile'), ('check', 'fmt'))
    for name, chart in deep_charts():
        for command in answers.TRACED:
            scene = with_trace(program, command, chart, b'tick\ntick\n', greatest_bounds(command))
            made.append(scene._replace(name='%s of %s' % (command, name)))
    head = answers.code_texts()['lamp'].split(b'unless')[0]
    for name, text in (('operators', head + b'unless 7 expr' + b' !' * 999999), ('fields', head + b'1 ' * 999999 + b'\n')):
        made.append(Scene('upgrade of many ' + name, ['upgrade', 'c'], {'c': text}))
    return made


def small_stack(trial):
    """The least stack with which each scene has its right answer; less ends the process by a signal of the system."""
    for scene in trial.scenes + trial.deep():
        place = Place(trial.program, scene)
        low, high = 0, 8 << 10
        while high - low > 8:
            middle = (low + high) // 2
            answer = place.call(before=limited(resource.RLIMIT_STACK, middle << 10))
            low, high = (low, middle) if answer == place.right else (middle, high)
        if high > 64:
            print('%s: a stack of %d KiB' % (scene.name, high))
        trial.judge.count('a stack of at most %d KiB' % (1 << (high - 1).bit_length()), place.right, place.right)


PARTS = {'calls': failing_calls, 'memory': little_memory, 'streams': failing_streams, 'files': failing_files,
         'stack': small_stack}


def trial_of(options):
    """The trial that the words ask for."""
    if options.chart_to_c is not None:
        program = answers.chart_to_c(options.chart_to_c)
        return Trial(program.path, (), c_scenes(), lambda: chart_scenes(answers.C_COMMANDS, answers.C_COMMANDS),
                     Judge(program.usage), options.most)
    program = answers.flowc(options.against)
    return Trial(program.path, answers.TRACED, scenes(program.path, options.selftest), lambda: deep_scenes(program.path),
                 Judge(program.usage), options.most)


def main(words):
    """Tries the parts that the words ask for, and gives the status."""
    reader = parser(__doc__)
    tried = reader.add_mutually_exclusive_group(required=True)
    tried.add_argument('--against', metavar='PROGRAM')
    tried.add_argument('--chart-to-c', metavar='PROGRAM')
    reader.add_argument('--part', choices=PARTS)
    reader.add_argument('--most', type=int, default=400)
    reader.add_argument('--selftest', action='store_true')
    options = reader.parse_args(words)
    if options.most < 0:
        reader.error('--most is a number from 0 on')
    trial = trial_of(options)
    for name, part in PARTS.items():
        if options.part in (None, name):
            part(trial)
    trial.judge.print_counts()
    return 1 if trial.judge.wrong else 0


if __name__ == '__main__':
    sys.exit(main(sys.argv[1:]))
