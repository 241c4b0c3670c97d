#!/usr/bin/env python3
"""Counts the machine instructions of an event of `exec`, and demands that there are no more than `MOST`.

    python3 checks/tables/instructions.py --against PROGRAM

The code is that of the generated case 0. Callgrind, a tool of valgrind, counts the run over the first 5,000 of its events, less a
run without events, as `bench/compare.py` does. The count doesn't depend on how busy the machine is, and was the same on each that
was tried, so that one above `MOST` comes from a change of the code, or of the compiler or the C library: most often a function is
no longer inlined. `bench/compare.py --functions` tells which. The count is written; the status is 1 where it is above `MOST`, or
where valgrind isn't installed. A change that lowers the count lowers `MOST` too."""
import os
import sys
import tempfile

sys.path.append(os.path.join(os.path.dirname(os.path.abspath(__file__)), os.pardir, os.pardir, 'bench'))

import beside                                               # noqa: E402, F401, which finds the other folders of checks
import generated_cases                                      # noqa: E402
import measuring                                            # noqa: E402, which is a module of bench
from programs import ended, parser, status_text             # noqa: E402

CASE, EVENTS, MOST = 0, 5_000, 3_860


def written(program, words, folder):
    """What a command of the program writes, which is to end with status 0."""
    answer = ended([program, *words], cwd=folder)
    if answer.status != 0:
        sys.exit('%s: %s %s' % (' '.join(words), status_text(answer), answer.error))
    return answer.out


def instructions_of(program, folder):
    """The machine instructions of an event of the case."""
    chart, events = (text.decode('ascii') for text in generated_cases.texts_of(CASE))
    measuring.write(folder, 'chart', chart)
    measuring.write(folder, 'code', written(program, ['compile', 'chart'], folder))
    files = {'some': events.splitlines(keepends=True)[:EVENTS], 'none': []}
    counts = {}
    for name, lines in files.items():
        measuring.write(folder, name, ''.join(lines))
        words = ['exec', 'code', name]
        if written(program, words, folder).count('\n') != 1 + len(lines):
            sys.exit('the trace of %d events has another number of lines' % len(lines))
        counts[name] = measuring.instructions([program, *words], folder)
    return (counts['some'] - counts['none']) / EVENTS


def main():
    words = parser(__doc__)
    words.add_argument('--against', metavar='PROGRAM', required=True)
    program = os.path.abspath(words.parse_args().against)
    if not measuring.has_callgrind():
        sys.exit('valgrind is not installed')
    with tempfile.TemporaryDirectory() as folder:
        count = instructions_of(program, folder)
    print('an event of case %d takes %.1f machine instructions of exec, and may take %d' % (CASE, count, MOST))
    return 1 if count > MOST else 0


if __name__ == '__main__':
    sys.exit(main())
