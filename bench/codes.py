#!/usr/bin/env python3
"""Writes a code by hand to standard output, or measures how a program reads and runs all of them.

    bench/codes.py KIND     KIND is a name of the tables in README.md
    bench/codes.py BIN      BIN is the path of a built program, with a slash

The second form prints the rows of those tables. The codes of the first are loops, and a nest of sends, that use all or most
steps of each event. A row has how many instructions of code an event takes, how many machine instructions one of these takes,
where callgrind is installed, and the peak memory of `exec`. The codes of the second table are long texts, of 16 and of 64 MiB: a
row has their bytes, and the seconds of processor time and the peak memory of `exec` over an event file without lines, of
`upgrade` and of `shrink`. It makes its files in a temporary folder, and is no test: how fast a program is has no limit."""
import multiprocessing
import os
import sys
import tempfile

from measuring import MIB, instructions, measure, used_text, write

SIZES = 16, 64
TURNS = 10000               # how often a loop goes round in an event, which takes all steps of it
LEVELS = 13                 # how many levels of sends the nest has
EVENTS = 2, 12              # the event files whose runs are compared


def text(procedures, data=(), events=('input GO',)):
    """The text of a code with a root that has one child. Procedure 0 is that of the start, and the last that of a reaction."""
    yield from ('flowcode 2', 'states 2', 's - or Loop', 's 0 leaf On', 'data %d' % len(data))
    yield from ('d local sfix32_En0 wrap 0 %s' % each for each in data)
    yield 'events %d' % len(events)
    yield from ('e ' + each for each in events)
    procedures = [['mark 0', 'mark 1', 'ret 0'], *procedures]
    yield 'procs %d 0 %d' % (len(procedures), len(procedures) - 1)
    for each in procedures:
        yield 'p %d' % len(each)
        yield from each
    yield 'end'


# ---- long texts: each gives lines that are repeated until the text is long enough, and whether they are one procedure

def short_lines():
    """One long procedure, of the shortest lines."""
    return ['skip 0'] * 1000, True


def procedures():
    """Procedures of 20 instructions."""
    return ['unless 0 on 1'] * 19 + ['ret 0'], False


def expressions():
    """Assignments with 64 operators each."""
    return ['set 0 ' + '+ ' * 64 + ' '.join(['d0'] * 65)] * 100 + ['ret 0'], False


def repeated(kind, size):
    """The text of about so many bytes."""
    lines, in_one = TEXTS[kind]()
    length = sum(len(each) + 1 for each in lines) + (0 if in_one else len('p %d\n' % len(lines)))
    times = size // length
    return text([lines * times + ['ret 0']] if in_one else [lines] * times, ['n'])


# ---- loops: each gives the procedures, and how many instructions of code an event takes

def turning(body, taken, below=()):
    """A loop: the procedure that is visited does what the body says, and visits itself until the counter is 0."""
    loop = [*body, 'set 0 - d0 #1:0', 'unless 1 expr < #0:0 d0', 'visit %d -' % (len(below) + 1), 'ret 0']
    react = ['set 0 #%d:0' % TURNS, 'visit %d -' % (len(below) + 1), 'ret 0']
    return [*below, loop, react], 3 + TURNS * (taken + 4) - 1


def visits():
    """The loop alone."""
    return turning([], 0)


def tests():
    """With 20 tests of active states, of which half hold."""
    return turning(['unless 0 on 1', 'unless 0 bare 0'] * 10, 20)


def calls():
    """With ten calls of a procedure that returns at once."""
    return turning(['call 1 -'] * 10, 20, [['ret 0']])


def sums():
    """With ten assignments of a sum."""
    return turning(['set 1 + d1 #1:0'] * 10, 10)


def mixed():
    """Two thirds of what runs are tests, a sixth calls and a sixth returns, about as in charts."""
    below = ['unless 0 on 1', 'unless 0 event 0', 'ret 0']
    return turning(['unless 1 on 1', 'call 1 -', 'unless 1 bare 0', 'call 1 -'] * 5, 30, [below])


def sends():
    """Two sends at each of 12 levels, and none at the last."""
    test = 'unless 2 expr < d0 #%d:0' % LEVELS
    react = ['set 0 + d0 #1:0', test, 'send 1', 'send 1', 'set 0 - d0 #1:0', 'ret 0']
    return [react], (2 ** (LEVELS - 1) - 1) * 6 + 2 ** (LEVELS - 1) * 4


TEXTS = {each.__name__: each for each in (short_lines, procedures, expressions)}
LOOPS = {each.__name__: each for each in (visits, tests, calls, sums, mixed, sends)}


def loop(kind):
    return text(LOOPS[kind]()[0], ['n', 'm'], ('input GO', 'local E'))


def whole_text(kind):
    """The text of that loop, or a long text."""
    return lines_text(loop(kind) if kind in LOOPS else repeated(kind, SIZES[0] * MIB))


def lines_text(lines):
    return ''.join(line + '\n' for line in lines)


def write_text(kind, size, folder):
    return write(folder, 'code', lines_text(repeated(kind, size * MIB)))


def text_row(program, kind, size, folder):
    """The row of a long text."""
    with multiprocessing.Pool(1) as pool:                           # so that this process stays small
        length = pool.apply(write_text, (kind, size, folder))
    write(folder, 'events', '')
    columns = ['`%s`' % kind, '{:,}'.format(length)]
    for words in (['exec', 'code', 'events'], ['upgrade', 'code'], ['shrink', 'code']):
        columns.append(used_text(measure([program, *words], folder)))
    return '| %s |' % ' | '.join(columns)


def loop_row(program, kind, folder):
    """The row of a loop."""
    write(folder, 'code', lines_text(loop(kind)))
    taken = LOOPS[kind]()[1]
    counts = []
    for events in EVENTS:
        write(folder, 'events', 'GO\n' * events)
        words = [program, 'exec', '--depth', '32', 'code', 'events']
        used = measure(words, folder)
        counts.append(instructions(words, folder))
    each = '-' if None in counts else '%.1f' % ((counts[1] - counts[0]) / (EVENTS[1] - EVENTS[0]) / taken)
    peak = '%.0f MiB' % used.peak + (', status %d' % used.status if used.status else '')
    columns = ['`%s`' % kind, '{:,}'.format(taken), each, peak]
    return '| %s |' % ' | '.join(columns)


def main(word):
    """Writes a code, or the rows of both tables."""
    if word in TEXTS or word in LOOPS:
        sys.stdout.write(whole_text(word))
        return
    if '/' not in word:
        sys.exit(__doc__)
    program = os.path.abspath(word)
    with tempfile.TemporaryDirectory() as folder:
        for kind in LOOPS:
            print(loop_row(program, kind, folder), flush=True)
        for kind in TEXTS:
            for size in SIZES:
                print(text_row(program, kind, size, folder), flush=True)


if __name__ == '__main__':
    if len(sys.argv) != 2:
        sys.exit(__doc__)
    main(sys.argv[1])
