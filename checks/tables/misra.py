#!/usr/bin/env python3
"""Compares what tools tell against MISRA C:2012 of the C that a built `chart_to_c` writes with what docs/C.md says of it.

    python3 checks/tables/misra.py --against CHART_TO_C CHART .. [--write] [--jobs J]

Of each chart header and source are made. Three tools read them, for a target with an `int` of 32 bits:

    cppcheck --enable=all --addon=misra    with all its checks, some of which find what a rule speaks of in words, and with its addon
    clang --analyze                        with the checker alpha.deadcode.UnreachableCode besides those that it has on
    this program                           for four rules that the others pass over

What this program finds: `default_without_comment`, where neither a comment nor a statement stands between `default` and `break`;
`name_in_two_sources`, a function with internal linkage whose name such a function of another chart's source has too; `only_reads`,
a function whose parameter `m` points to what isn't const, though neither it nor a function that it calls stores there;
`only_discarded`, a parameter of which there is nothing but `(void)x;`.

The table of the page has a row for each message, which stands in backquotes in its second column, and says how often it comes and
of how many charts. A line tells each row that differs, and the program ends with status 1 then, where a tool fails, and where there
is no chart. With --write the numbers in the rows are set to what was found; a message without a row, or a row whose message doesn't
come, is told all the same, since a reason has to be written or taken away. It needs cppcheck and clang, as the page names them, and
takes some three seconds of a processor a chart. J charts are tried at a time, as many as there are processors where nothing is
said."""
import os
import re
import sys
import tempfile
from collections import Counter
from concurrent.futures import ThreadPoolExecutor
from typing import NamedTuple

import beside                                # noqa: F401, which finds the other folders of checks
import chart_rules as rules
from chart_c import LONGEST, Failed, make_c
from programs import ended, parser_of_charts, status_text

PAGE = os.path.join(os.path.dirname(os.path.abspath(__file__)), '..', '..', 'docs', 'C.md')
ROW = re.compile(r'^(\| [^|`]+ \| [^|`]*`([\w.-]+)` \| )([\d,]+)( \| )([\d,]+)( \| .*)$')
# cppcheck doesn't read the headers of the compiler: these stand for what is used of them beyond names of types.
LIMITS = ['-DUINT_MAX=4294967295u', '-DINT_MAX=2147483647', '-DINT_MIN=(-2147483647-1)', '-D__SIZEOF_INT128__=16']
TARGET = ['--std=c99', '--platform=unix64', *LIMITS, '-DINT64_C(x)=x', '-DUINT64_C(x)=x##u']
CPPCHECK = ['cppcheck', *TARGET, '--enable=all', '--addon=misra', '--quiet', '--template=[{id}]']
CLANG = ['clang', '--analyze', '-std=c99', '-Xclang', '-analyzer-checker=alpha.deadcode.UnreachableCode', '-o', os.devnull]
FUNCTION = re.compile(r'^static\s+\w+\s+(\w+)\((\w+\s+\*m)?[^)]*\)\n\{\n(.*?)^\}\n', re.DOTALL | re.MULTILINE)
BARE_DEFAULT = re.compile(r'\bdefault:\s*break;')
DISCARDED = re.compile(r'^    \(void\)(\w+);$', re.MULTILINE)
STORES = re.compile(r'\bm->\w+(?:\[[^\]]*\])?\s=\s')
CALLS = re.compile(r'\b(\w+)\(m\b')


# ---- what the tools tell

def messages(words, form, folder):
    """The messages of a tool, which must end with status 0."""
    answer = ended(words, LONGEST, cwd=folder)
    if answer.status != 0 or 'syntaxError' in answer.error or ' error: ' in answer.error:
        raise Failed('%s: %s\n%s' % (' '.join(words), status_text(answer), (answer.out + answer.error)[:2000]))
    return re.findall(form, answer.error, re.MULTILINE)


def only_reading(functions):
    """The functions that take a pointer to what isn't const, and neither store there nor call one that does."""
    storing = {name for name, (pointer, body) in functions.items() if STORES.search(body)}
    while True:
        more = {name for name, (_, body) in functions.items() if name not in storing and storing.intersection(CALLS.findall(body))}
        if not more:
            return [name for name, (pointer, _) in functions.items() if pointer and name not in storing]
        storing |= more


def only_discarded(body):
    """The parameters of which a function has nothing but `(void)x;`."""
    return [name for name in DISCARDED.findall(body) if len(re.findall(r'\b%s\b' % name, body)) == 1]


class Read(NamedTuple):
    """What is found of a chart by itself, and the names of its functions with internal linkage."""
    found: Counter
    names: list


def read(path, program):
    """What the tools tell of the C of a chart."""
    with open(path, 'rb') as file:
        text = file.read().decode('latin-1')
    with tempfile.TemporaryDirectory() as folder:
        source, _ = make_c(program, text, folder)
        with open(os.path.join(folder, source), encoding='latin-1') as file:
            content = file.read()
        found = Counter(messages([*CPPCHECK, source], r'^\[([\w.-]+)\]$', folder))
        found.update(messages([*CLANG, source], r' warning: .* \[([\w.-]+)\]$', folder))
    functions = {name: (pointer, body) for name, pointer, body in FUNCTION.findall(content)}
    found.update({
        'default_without_comment': len(BARE_DEFAULT.findall(content)),
        'only_reads': len(only_reading(functions)),
        'only_discarded': sum(len(only_discarded(body)) for _, body in functions.values())})
    return Read(found, list(functions))


class Count(NamedTuple):
    """How often a message comes, and of how many charts."""
    times: int
    charts: int


def counts_of(answers):
    """The count of each message that comes."""
    sources = Counter(name for each in answers for name in each.names)
    for each in answers:
        each.found['name_in_two_sources'] = sum(sources[name] > 1 for name in each.names)
    times = sum((each.found for each in answers), Counter())
    return {message: Count(times[message], sum(each.found[message] > 0 for each in answers)) for message in times}


# ---- the page

def rows_of(lines):
    """The row of each message, as a match of its line, by the number of the line."""
    return {at: found for at, line in enumerate(lines) for found in [ROW.match(line)] if found}


def said(row):
    """What a row of the page says."""
    return Count(*(int(row[place].replace(',', '')) for place in (3, 5)))


def with_counts(lines, found):
    """The lines of the page, where the rows have the counts that were found."""
    rows = rows_of(lines)
    return [line if at not in rows or rows[at][2] not in found else
            '{0[1]}{1.times:,}{0[4]}{1.charts:,}{0[6]}'.format(rows[at], found[rows[at][2]]) for at, line in enumerate(lines)]


def differences(lines, found):
    """Lines that tell where the page says otherwise than what was found."""
    kept = {row[2]: said(row) for row in rows_of(lines).values()}
    for message in sorted({*kept, *found}):
        if kept.get(message) != found.get(message):
            told = [('%d times in %d charts' % each if each else 'nothing') for each in (kept.get(message), found.get(message))]
            yield '%s: the page says %s, and there is %s' % (message, *told)


def main(words):
    """Does what the words ask for, and gives the status."""
    reader = parser_of_charts(__doc__)
    reader.add_argument('--write', action='store_true')
    options = reader.parse_args(words)
    with ThreadPoolExecutor(options.jobs) as several:
        try:
            found = counts_of(list(several.map(lambda path: read(path, options.against), options.charts)))
        except (Failed, OSError) as failed:
            print(failed)
            return 1
    with open(PAGE, encoding='utf-8') as file:
        lines = file.read().split('\n')
    if options.write:
        lines = with_counts(lines, found)
        with open(PAGE, 'w', encoding='utf-8') as file:
            file.write('\n'.join(lines))
    wrong = list(differences(lines, found))
    print(''.join(line + '\n' for line in wrong), end='')
    print('%d charts, %d messages%s' % (len(options.charts), len(found), '' if wrong else ', as the page has them'))
    return 1 if wrong else 0


if __name__ == '__main__':
    sys.exit(rules.with_deep_calls(lambda: main(sys.argv[1:])))
