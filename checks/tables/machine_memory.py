#!/usr/bin/env python3
r"""Counts the requests for memory of `exec` and `net` while their machines run, and demands that there is none.

    python3 checks/tables/machine_memory.py --against PROGRAM

A library is compiled by `cc` and loaded before the C library. It counts the requests for memory, and at each write on standard
output it notes the count. A test in Rattle can't do this: the machine takes its memory of `Global` of std, in whose place a test
can't put an allocator that counts, and `rt try --fail-alloc` counts the requests of a whole call.

Events and inputs. Between the second piece of a trace and the last one the machine takes inputs, reacts and is shown, thousands of
times; no request may be made there. Before that the event file is opened, which takes memory.

The start. Two codes differ in the first value of one flag alone: by it the start does nothing, or takes thousands of steps
through junctions, broadcasts, outputs and assignments. Up to the first piece of the trace, which begins with the line of the start,
both make as many requests.

Nets. The same holds of a net of charts: its machines and queues are there before the first line. In its run three queues are
filled up to 1,024 items and emptied, again and again, and it ends with its schedule, or with a queue that is full or empty. Of the
two starts one sends hundreds of items.

`rules` over the same files is to make requests while it runs, so that the count is seen to count. The counts are
written, and then a line for each demand that isn't met; the status is 1 where there is such a line."""
import os
import struct
import subprocess
import sys
import tempfile
from typing import NamedTuple

import beside                                # noqa: F401, which finds the other folders of checks
import answers
import generated_cases
from programs import ended, parser, status_text

LIBRARY = r'''
#define _GNU_SOURCE
#include <dlfcn.h>
#include <errno.h>
#include <fcntl.h>
#include <stdlib.h>
#include <sys/mman.h>
#include <unistd.h>

/* Counts the requests for memory of a process. In a shared page it notes how many writes there were on standard output, and how
   many requests before the first, the second and the last one. */
static long own[4], *notes = own, requests;

extern void *__libc_malloc(size_t), *__libc_calloc(size_t, size_t), *__libc_realloc(void *, size_t);
extern void *__libc_memalign(size_t, size_t);

__attribute__((constructor)) static void begin(void) {
    const char *name = getenv("REQUEST_NOTES");
    int file = name ? open(name, O_RDWR) : -1;
    if (file < 0) return;
    void *page = mmap(0, sizeof own, PROT_READ | PROT_WRITE, MAP_SHARED, file, 0);
    if (page != MAP_FAILED) notes = page;
    close(file);
}

void *malloc(size_t size) { requests++; return __libc_malloc(size); }
void *calloc(size_t count, size_t size) { requests++; return __libc_calloc(count, size); }
void *realloc(void *old, size_t size) { requests++; return __libc_realloc(old, size); }
void *memalign(size_t align, size_t size) { requests++; return __libc_memalign(align, size); }
void *aligned_alloc(size_t align, size_t size) { requests++; return __libc_memalign(align, size); }
int posix_memalign(void **into, size_t align, size_t size) {
    requests++;
    void *given = __libc_memalign(align, size);
    if (!given) return ENOMEM;
    *into = given;
    return 0;
}

ssize_t write(int file, const void *from, size_t most) {
    static ssize_t (*next)(int, const void *, size_t);
    if (!next) next = dlsym(RTLD_NEXT, "write");
    if (file == 1) {
        notes[0]++;
        if (notes[0] <= 2) notes[notes[0]] = requests;
        notes[3] = requests;
    }
    return next(file, from, most);
}
'''
NOTES = struct.Struct('4l')

# By the flag `busy` the start goes round a cycle of junctions, and each round sends, emits and assigns.
BUSY = '''chart Busy {
  event input GO; event local L; event output OUT;
  input level : int16; local busy : bool = %s; local n : int32; local m : sfix32_En8 = 0.5;
  default -> @loop;
  junction loop {
    [busy && n < 2400] { n = n + 1; m = m * 1.5 - m / 2; send L; emit OUT; } -> @loop;
    [busy] -> A;
    -> A;
  }
  state A and {
    state P { default -> X; state X { entry { emit OUT; } outer GO / { send L; emit OUT; } -> Y; }
              state Y { outer GO { m = m - level; } -> X; } }
    state Q { during { m = m + level; } inner L { emit OUT; } -> R; default -> R; state R { exit { n = n + 1; } } }
  }
}
'''

# The first chart sends to the second, that to the third, and the third to itself.
QUEUES = '''flownet 1
charts 3
c first first
c second other
c third other
routes 3
r 0 UP 1 IN 1024 v x
r 1 ON 2 IN 1024 w x
r 2 ON 2 AGAIN 1024 w x
end
'''
QUEUE_CHARTS = {'first': '''chart First {
  event input GO; event local L; event output UP; input level : int16; output v : int16 wrap;
  default -> A;
  state A and {
    state P { default -> X; state X { outer GO { v = v + level; send L; } -> Y; } state Y { outer GO -> X; } }
    state Q { during { emit UP; } inner L -> R; default -> R; state R { exit { v = v + 1; } } }
  }
}
''', 'other': '''chart Other {
  event input IN; event input AGAIN; event output ON; input x : int16; output w : int16;
  default -> A; state A { outer IN { w = x; emit ON; } -> A; outer AGAIN -> A; }
}
'''}
ROUND = b''.join([b'ev first tick level=%d\n' % (n % 300) for n in range(1024)] + [b'take %d\n' % at * 1024 for at in range(3)])
SCHEDULES = {'': ROUND * 3, ' full': ROUND * 2 + b'ev first tick\n' * 1025, ' empty': ROUND + b'take 2\n'}
# The start of the first chart sends each time that it goes round.
START = '''flownet 1
charts 2
c busy %s
c other other
routes 1
r 0 OUT 1 IN 1024 - -
end
'''


class Notes(NamedTuple):
    """How many pieces of a trace were written, and how many requests were made before the first, the second and the last."""
    pieces: int
    first: int
    second: int
    last: int


class Counter:
    """Calls a program with the library."""

    def __init__(self, program, folder):
        self.program, self.folder = os.path.abspath(program), folder
        source, self.library = self.path('count.c'), self.path('count.so')
        self.put('count.c', LIBRARY.encode())
        subprocess.run(['cc', '-O1', '-shared', '-fPIC', '-o', self.library, source, '-ldl'], check=True)

    def path(self, name):
        return os.path.join(self.folder, name)

    def put(self, name, data):
        with open(self.path(name), 'wb') as file:
            file.write(data)

    def call(self, *words):
        """The answer of a command, and its notes."""
        self.put('notes', bytes(NOTES.size))
        options = {**os.environ, 'LD_PRELOAD': self.library, 'REQUEST_NOTES': self.path('notes')}
        answer = ended([self.program, *words], cwd=self.folder, env=options)
        with open(self.path('notes'), 'rb') as file:
            return answer, Notes(*NOTES.unpack(file.read()))

    def compile(self, name):
        """Compiles the chart of that name, and keeps the code as `name.code`."""
        answer = ended([self.program, 'compile', name], cwd=self.folder)
        if answer.status != 0:
            raise SystemExit('compile of %s: %s %s' % (name, status_text(answer), answer.error))
        self.put(name + '.code', answer.out.encode('latin-1'))


def samples():
    """Charts and event files by name."""
    go_round = b''.join(b'GO level=%d\ntick\n' % (n % 300) for n in range(4000))
    made = {'busy': ((BUSY % 'false').encode(), go_round)}
    for number in (0, 1):
        made['case %d' % number] = generated_cases.texts_of(number)
    for name in ('stopwatch', 'pump', 'motor', 'spacecraft'):
        stem = os.path.join(answers.ROOT, 'examples', name, name)
        with open(stem + '.chart', 'rb') as chart, open(stem + '.events', 'rb') as events:
            made[name] = (chart.read(), events.read() * 400)
    return made


def events_take_nothing(counter, name):
    """What is wrong with the requests between the pieces of a trace; a run with a fault ends early and counts as any other."""
    counter.compile(name)
    return nothing_while_it_runs(counter, name, 'exec', name + '.code', name + '.events')


def nothing_while_it_runs(counter, name, *words):
    """What is wrong with the requests of a command between the pieces of its trace."""
    answer, notes = counter.call(*words)
    print('%-12s %-6s %s, %6d lines in %4d pieces, requests %d, %d, %d'
          % (name, words[0], status_text(answer), answer.out.count('\n'), *notes))
    if notes.pieces < 3:
        return ['%s: %d pieces of a trace, which are too few' % (name, notes.pieces)]
    return [] if notes.last == notes.second else ['%s: %d requests while the machine runs' % (name, notes.last - notes.second)]


def starts_take_nothing(counter, what, words_for):
    """What is wrong with the requests before the first line of two runs, of whose starts one does nothing. `words_for` puts the files
    of a run with that name and that guard, and gives the words of its call."""
    befores, lengths = [], []
    for name, busy in (('idle', 'false'), ('work', 'true ')):
        words = words_for(name, busy)
        answer, notes = counter.call(*words)
        print('%-12s %-6s %s, requests before the first line is written %d' % (name, words[0], status_text(answer), notes.first))
        if answer.status != 0:
            return ['%s%s: %s' % (name, what, status_text(answer))]
        befores.append(notes.first)
        lengths.append(len(answer.out))
    wrong = [] if lengths[1] > 2 * lengths[0] else ['the start%s that works emits no more than the other' % what]
    return wrong + ([] if befores[0] == befores[1] else ['a start%s: %d requests more' % (what, befores[1] - befores[0])])


def a_start_takes_nothing(counter):
    """The same of the starts of two codes."""
    def words_for(name, busy):
        counter.put(name, (BUSY % busy).encode())
        counter.compile(name)
        return 'exec', '--depth', '32', '--steps', '50000', name + '.code', 'none.events'

    return starts_take_nothing(counter, '', words_for)


def nets_take_nothing(counter):
    """What is wrong with the requests between the pieces of a trace of a net, which ends in each way."""
    counter.put('queues', QUEUES.encode())
    for name, chart in QUEUE_CHARTS.items():
        counter.put(name, chart.encode())
    wrong = []
    for name, schedule in SCHEDULES.items():
        counter.put('schedule', schedule)
        wrong += nothing_while_it_runs(counter, 'queues' + name, 'net', 'queues', 'schedule')
    return wrong


def starts_of_nets_take_nothing(counter):
    """What is wrong with the requests before the first lines of two nets, of whose starts one does nothing."""
    def words_for(name, busy):
        counter.put(name, (BUSY % busy).replace('2400', '400').encode())
        counter.put(name + '.net', (START % name).encode())
        return 'net', name + '.net', 'none.events'

    return starts_take_nothing(counter, ' in a net', words_for)


def rules_take_some(counter):
    """What is wrong with the requests of `rules`, which are to be seen."""
    answer, notes = counter.call('rules', 'busy', 'busy.events')
    print('%-12s rules  %s, %6d lines in %4d pieces, requests %d, %d, %d'
          % ('busy', status_text(answer), answer.out.count('\n'), *notes))
    return [] if notes.last > notes.second > 0 else ['requests are not counted: does the program bring its own?']


def main():
    words = parser(__doc__)
    words.add_argument('--against', metavar='PROGRAM', required=True)
    program = words.parse_args().against
    with tempfile.TemporaryDirectory() as folder:
        counter = Counter(program, folder)
        counter.put('none.events', b'')
        wrong = []
        for name, (chart, events) in samples().items():
            counter.put(name, chart)
            counter.put(name + '.events', events)
            wrong += events_take_nothing(counter, name)
        wrong += a_start_takes_nothing(counter) + rules_take_some(counter)
        wrong += nets_take_nothing(counter) + starts_of_nets_take_nothing(counter)
    for line in wrong:
        print(line)
    return 1 if wrong else 0


if __name__ == '__main__':
    sys.exit(main())
