#!/usr/bin/env python3
"""Compares `flowc rules`, `flowc exec` and the C of `chart_to_c` on the generated case 0 with a switch in C, Boost.Statechart and
Qt SCXML, and then the C of three examples with C by hand.

    bench/compare.py [BIN [CHART_TO_C]] [--functions]

BIN and CHART_TO_C are built programs; without them, crates/flowc/out/flowc and crates/chart_to_c/out/chart_to_c after `rt run`
there.

All of them run the 20,000 events and must write the same trace, byte for byte, before anything is measured; a difference is an
error. Instructions are counted by valgrind's tool callgrind over the first 5,000 events, less those of a run without events.
The time is the least processor time of five runs over the event file ten times, less that without events. `flowc` reads 4 KiB
at once and writes up to 8 KiB at once, the others read the whole file and write 60 KiB at once. What isn't installed is skipped,
and a line says so. example_rows.py says what is measured of the examples. With --functions it prints too how the instructions of
`exec` and of `rules` are distributed. It works in a temporary folder, and is no test of speed: no ratio is an error."""
import collections
import os
import re
import shutil
import subprocess
import sys
import tempfile

import example_rows
import generated
import measuring
from machines import boost_statechart, chart_c, qt_scxml, switch_in_c
from measuring import HERE, LONGEST, shown, write

CRATES = os.path.join(HERE, '..', 'crates')
BUILT = os.path.join(CRATES, 'flowc', 'out', 'flowc')
CHART_TO_C = os.path.join(CRATES, 'chart_to_c', 'out', 'chart_to_c')
MACHINES = os.path.join(HERE, 'machines')
COUNTED, TIMES, RUNS, SHOWN = 5_000, 10, 5, 24
# The functions of the C of a chart, which gcc may have split.
OF_CHART = re.compile(r'(G_(?:react|p[0-9]+|noted|is_on|is_bare|div[0-9]+))([.].*)?')

OTHERS = {'C switch': 'C', 'Boost.Statechart': 'Boost', 'Qt SCXML, C++': 'Qt, C++', 'Qt SCXML, ECMAScript': 'Qt, ECMA'}


class Skipped(Exception):
    """Why a program can't be built here."""


def need(command):
    if not shutil.which(command):
        raise Skipped('%s is not installed' % command)


def output(words, folder):
    """What a program writes, which must end with status 0."""
    return subprocess.run(words, cwd=folder, check=True, stdout=subprocess.PIPE, timeout=LONGEST).stdout


def build_switch(regions, folder):
    need('gcc')
    write(folder, 'switch.c', switch_in_c.source(regions))
    output(['gcc', '-O2', '-I', MACHINES, 'switch.c', '-o', 'switch'], folder)
    return ['./switch']


def build_chart(regions, folder, chart_to_c):
    """The C of the chart, with the driver that the other programs have."""
    need('gcc')
    if not os.access(chart_to_c, os.X_OK):
        raise Skipped('%s is not there' % chart_to_c)
    for word, name in (('header', 'G.h'), ('source', 'G.c')):
        write(folder, name, output([chart_to_c, word, '0.chart'], folder).decode())
    write(folder, 'chart.c', chart_c.source(regions))
    output(['gcc', '-std=c99', '-O2', '-I', MACHINES, 'chart.c', 'G.c', '-o', 'chart'], folder)
    return ['./chart']


def build_silent(folder):
    """The program in C without a machine: it reads the events, and writes lines of the same form."""
    need('gcc')
    write(folder, 'silent.c', switch_in_c.silent())
    output(['gcc', '-O2', '-I', MACHINES, 'silent.c', '-o', 'silent'], folder)
    return ['./silent']


def build_boost(regions, folder):
    need('g++')
    header = '#include <boost/statechart/state_machine.hpp>\n'
    if subprocess.run(['g++', '-E', '-x', 'c++', '-'], input=header.encode(), capture_output=True).returncode != 0:
        raise Skipped('Boost.Statechart is not installed (libboost1.81-dev, or libboost-dev)')
    write(folder, 'boost.cpp', boost_statechart.source(regions))
    output(['g++', '-O2', '-DNDEBUG', '-I', MACHINES, 'boost.cpp', '-o', 'boost'], folder)
    return ['./boost']


def build_qt(regions, folder, data):
    """The program with Qt SCXML and that data model."""
    def asked(*words):
        return output(['pkg-config', *words], folder).decode().split()

    for command in ('g++', 'pkg-config'):
        need(command)
    if subprocess.run(['pkg-config', '--exists', 'Qt6Scxml', 'Qt6Core']).returncode != 0:
        raise Skipped('Qt SCXML is not installed (qt6-scxml-dev)')
    tools = asked('--variable=libexecdir', 'Qt6Core')[0]
    inside = os.path.join(folder, data.__name__)
    os.mkdir(inside)
    write(inside, 'machine.scxml', qt_scxml.document(regions, data))
    write(inside, 'qt.cpp', qt_scxml.program(regions, data))
    output([os.path.join(tools, 'qscxmlc'), 'machine.scxml'], inside)
    sources = ['qt.cpp', 'machine.cpp']
    if data.header is not None:
        write(inside, 'case_data.h', data.header)
        output([os.path.join(tools, 'moc'), 'case_data.h', '-o', 'case_data.cpp'], inside)
        sources.append('case_data.cpp')
    output(['g++', '-O2', '-DNDEBUG', '-DQT_NO_DEBUG', '-fPIC', '-I', '.', '-I', MACHINES,
            *asked('--cflags', 'Qt6Scxml', 'Qt6Core'), *sources, '-o', 'qt', *asked('--libs', 'Qt6Scxml', 'Qt6Core')], inside)
    return [os.path.join(inside, 'qt')]


def silent_code(code):
    """The code with a reaction that does nothing, so that only events are read and lines written."""
    lines = code.split('\n')
    at = next(i for i, line in enumerate(lines) if line.startswith('procs '))
    react = int(lines[at].split()[3])
    at += 1
    for _ in range(react):
        at += 1 + int(lines[at].split()[1])
    return '\n'.join(lines[:at] + ['p 1', 'ret 1'] + lines[at + 1 + int(lines[at].split()[1]):])


def counted(words, folder, file):
    """The machine instructions of each function in a run, or None without callgrind."""
    if not measuring.has_callgrind():
        return None
    names, counts, function, is_call = {}, collections.Counter(), None, False
    with open(measuring.count([*words, file], folder), encoding='latin-1') as lines:
        for line in lines:
            named = re.match(r'(c?)fn=(\(\d+\))(?: (.*))?$', line)
            if named:
                names.setdefault(named[2], re.sub(r"::<#.*|'\d+$", '', named[3] or ''))
                function = function if named[1] else named[2]
            elif line.startswith('calls='):
                is_call = True
            elif line[0] in '0123456789+-*':
                if not is_call:
                    counts[function] += int(line.split()[-1])
                is_call = False
    by_name = collections.Counter()
    for function, count in counts.items():
        by_name[names[function]] += count
    return by_name


def instructions(words, folder):
    """The instructions an event of each function; None without callgrind."""
    whole, none = counted(words, folder, 'front'), counted(words, folder, 'none')
    if whole is None:
        return None
    return {name: (whole[name] - none[name]) / COUNTED for name in whole}


def times(programs, folder):
    """The seconds of processor time an event of each program. The programs take turns, so that a busy moment meets them all."""
    least = collections.defaultdict(lambda: float('inf'))
    for _ in range(RUNS):
        for name, words in programs.items():
            for file in ('many', 'none'):
                least[name, file] = min(least[name, file], measuring.measure_right([*words, file], folder).processor)
    return {name: (least[name, 'many'] - least[name, 'none']) / (TIMES * generated.EVENTS) for name in programs}


def all_programs(program, chart_to_c, folder):
    """The programs, each with the words that begin its command; those that can't be built are named and left out."""
    regions = generated.regions(0)
    code = output([program, 'compile', '0.chart'], folder).decode()
    write(folder, 'code', code)
    write(folder, 'silent.code', silent_code(code))
    programs = {'rules': [program, 'rules', '0.chart'], 'exec': [program, 'exec', 'code']}
    builds = {
        'C of the chart': lambda *given: build_chart(*given, chart_to_c),
        'C switch': build_switch,
        'Boost.Statechart': build_boost,
        'Qt SCXML, C++': lambda *given: build_qt(*given, qt_scxml.Cpp),
        'Qt SCXML, ECMAScript': lambda *given: build_qt(*given, qt_scxml.EcmaScript),
    }
    for name, build in builds.items():
        try:
            programs[name] = build(regions, folder)
        except Skipped as why:
            print('%s is skipped: %s' % (name, why))
    return programs


def compare_traces(programs, folder):
    for file in ('events', 'many'):
        expected = output([*programs['rules'], file], folder)
        for name, words in programs.items():
            if output([*words, file], folder) != expected:
                sys.exit('the trace of %s differs from that of rules' % name)
    print('the traces agree: %s' % '; '.join(programs))


def prepare(folder):
    generated.main(['0', folder])
    with open(os.path.join(folder, '0.events'), encoding='ascii') as file:
        events = file.readlines()
    for name, lines in (('events', events), ('front', events[:COUNTED]), ('many', events * TIMES), ('none', [])):
        write(folder, name, ''.join(lines))


def print_rows(rows):
    """A row for each program, with its ratios to those of the others that are there."""
    compared = [(name, short) for name, short in OTHERS.items() if name in rows]
    line = '%-28s' + ' %14s' * (1 + len(compared))
    for place, title, form, scale in ((0, 'instructions an event', '%.0f', 1), (1, 'ns an event', '%.0f', 10 ** 9)):
        print()
        print(line % (title, '', *('to ' + short for _, short in compared)))
        for name, row in rows.items():
            ratios = [None if row[place] is None else row[place] / rows[other][place] for other, _ in compared]
            print(line % (name, shown(row[place], form, scale), *(shown(ratio, '%.3g') for ratio in ratios)))


def print_functions(name, functions):
    print()
    print('%s: instructions an event by function' % name)
    for function, count in sorted(functions.items(), key=lambda item: -item[1])[:SHOWN]:
        print('%10.1f  %s' % (count, function))


def add_reactions(functions):
    """Adds what the functions of the C of the chart take of its program, where that was counted."""
    counts = functions.get('C of the chart')
    if counts:
        functions['C of the chart, react'] = {name: count for name, count in counts.items() if OF_CHART.fullmatch(name)}


def main(program, chart_to_c, is_by_function):
    """Compares all programs that can be built with `rules` and `exec` of the program."""
    with tempfile.TemporaryDirectory() as folder:
        prepare(folder)
        programs = all_programs(program, chart_to_c, folder)
        compare_traces(programs, folder)
        measured = dict(programs)
        measured['exec, no machine'] = [program, 'exec', 'silent.code']
        if 'C switch' in programs:
            measured['C, no machine'] = build_silent(folder)
        functions = {name: instructions(words, folder) for name, words in measured.items()}
        add_reactions(functions)
        seconds = times(measured, folder)
        print_rows({name: (counts and sum(counts.values()), seconds.get(name)) for name, counts in functions.items()})
        for name in ('exec', 'rules') if is_by_function and functions['exec'] else ():
            print_functions(name, functions[name])
    if 'C of the chart' in programs:
        example_rows.print_rows(program, chart_to_c)


if __name__ == '__main__':
    given = [word for word in sys.argv[1:] if word != '--functions']
    if len(given) > 2 or any(word.startswith('-') for word in given):
        sys.exit(__doc__)
    chosen, chart_to_c = map(os.path.abspath, (given + [BUILT, CHART_TO_C][len(given):])[:2])
    if not os.access(chosen, os.X_OK):
        sys.exit('%s is not there: build it by `rt run` in crates/flowc' % chosen)
    main(chosen, chart_to_c, '--functions' in sys.argv)
