#!/usr/bin/env python3
r"""Answers tables by the built program, in the form in which chart_texts.py, chart_check.py and chart_rules.py answer them.

    python3 checks/tables/run_program.py PROGRAM fmt < checks/tables/chart_table.txt | diff - checks/tables/chart_answers.txt
    python3 checks/tables/run_program.py PROGRAM check < checks/tables/check_table.txt | diff - checks/tables/check_answers.txt
    python3 checks/tables/run_program.py PROGRAM rules < checks/tables/run_table.txt | diff - checks/tables/run_answers.txt
    python3 checks/tables/run_program.py PROGRAM compiled < checks/tables/run_table.txt
    python3 checks/tables/run_program.py PROGRAM docs PAGE..
    python3 checks/tables/run_program.py PROGRAM traces FOLDER..

`fmt` runs `PROGRAM fmt` on each text and prints the canonical text in one line, or the line of standard error. `check` runs
`PROGRAM check` on each text and prints its one line, from standard output or standard error. `rules` runs `PROGRAM rules` on
each run of the table, whose first field has the bounds, depth and steps, or `-` for the default ones, and prints status, standard
output and standard error. `compiled` runs `PROGRAM rules`, `PROGRAM run`, and `PROGRAM exec` on the code that `PROGRAM compile`
writes, on each run of the table, and prints those whose answers differ. `docs` tries the examples of a page, whose forms
pages.py has, and prints how many there are, each that the program answers otherwise, and each page without an example. `traces`
takes the files NAME.chart, NAME.events and NAME.trace of a folder and prints the names of those of which `rules` or `run`
writes another trace, and each folder without a chart. These three end with status 1 where anything is wrong."""
import os
import sys
import tempfile

import beside                                # noqa: F401, which finds the other folders of checks
import pages
import tables
from programs import ended, status_text

OF_TABLES, OF_NAMES = ('fmt', 'check', 'rules', 'compiled'), ('docs', 'traces')     # the words alone, and those before names


def line_of(text):
    return text.replace('\\', '\\\\').replace('\n', '\\n').replace('\t', '\\t').replace('\r', '\\r')


class Program:
    """The program, with two files that its words name."""

    def __init__(self, path, folder):
        self.path = os.path.abspath(path)
        self.files = [os.path.join(folder, name) for name in ('chart', 'events')]

    def run(self, command, *contents, options=()):
        """How a command on files with these contents ends."""
        names = self.files[:len(contents)]
        for name, content in zip(names, contents):
            with open(name, 'wb') as file:
                file.write(content)
        return ended([self.path, command, *options, *names])


def check_answer(program, text):
    ran = program.run('check', text)
    if ran.status not in (0, 1):
        return status_text(ran)
    return (ran.out + ran.error).rstrip('\n')


def fmt_answer(program, text):
    ran = program.run('fmt', text)
    if ran.status == 0:
        return line_of(ran.out)
    return ran.error.rstrip('\n') if ran.status == 1 else status_text(ran)


def options_of(bounds):
    if bounds == '-':
        return []
    depth, steps = bounds.split(' ')
    return ['--depth', depth, '--steps', steps]


def answer_of(ran):
    status = status_text(ran) if ran.timed_out else ran.status
    return '%s\t%s\t%s' % (status, line_of(ran.out), line_of(ran.error))


def rules_answer(program, bounds, text, events):
    return answer_of(program.run('rules', text, events, options=options_of(bounds)))


def compiled_answers(program, bounds, text, events):
    """What `run` answers, and what `exec` answers on what `compile` writes."""
    options = options_of(bounds)
    yield answer_of(program.run('run', text, events, options=options))
    compiled = program.run('compile', text)
    if compiled.status == 0:
        yield answer_of(program.run('exec', compiled.out.encode('latin-1'), events, options=options))
    else:
        yield answer_of(compiled)


def wrong_compiled(program, runs):
    for bounds, text, events in runs:
        answer = rules_answer(program, bounds, tables.unescaped(text), tables.unescaped(events))
        for other in compiled_answers(program, bounds, tables.unescaped(text), tables.unescaped(events)):
            if other != answer:
                yield '%s\t%s\t%s: %s instead of %s' % (bounds, text, events, other, answer)


def wrong_docs(program, names):
    for name in names:
        count, wrong = pages.wrong_examples(program, name)
        print('%s: %d examples' % (name, count))
        yield from wrong


def contents(path):
    with open(path, 'rb') as file:
        return file.read()


def wrong_traces(program, folder):
    stems = [os.path.join(folder, name[:-len('.chart')]) for name in sorted(os.listdir(folder)) if name.endswith('.chart')]
    if not stems:
        yield folder + ': no chart'
    for stem in stems:
        chart, events, trace = (contents(stem + kind) for kind in ('.chart', '.events', '.trace'))
        for command in ('rules', 'run'):
            if program.run(command, chart, events).out != trace.decode('latin-1'):
                yield stem + ': ' + command


def table_fields():
    """The fields of each row of the table on standard input."""
    return (row.split('\t') for row in tables.rows(sys.stdin.buffer))


def print_answers(program, command):
    """Writes the answer to each row of a table."""
    for fields in table_fields():
        if command == 'fmt':
            print(fmt_answer(program, tables.unescaped(fields[0])))
        elif command == 'check':
            print(check_answer(program, tables.unescaped(fields[0])))
        else:
            print(rules_answer(program, fields[0], tables.unescaped(fields[1]), tables.unescaped(fields[2])))


def main(words):
    """Does what the words ask for, and gives the status."""
    names = words[2:]
    if len(words) < 2 or words[1] not in (OF_NAMES if names else OF_TABLES):
        sys.stderr.write(__doc__ + '\n')
        return 2
    with tempfile.TemporaryDirectory() as folder:
        program = Program(words[0], folder)
        if words[1] in ('fmt', 'check', 'rules'):
            print_answers(program, words[1])
            return 0
        if words[1] == 'compiled':
            wrong = list(wrong_compiled(program, table_fields()))
        elif words[1] == 'docs':
            wrong = list(wrong_docs(program, names))
        else:
            wrong = [line for name in names for line in wrong_traces(program, name)]
        for line in wrong:
            print(line)
        return 1 if wrong else 0


if __name__ == '__main__':
    sys.exit(main(sys.argv[1:]))
