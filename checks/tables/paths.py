#!/usr/bin/env python3
"""Whether what pages name is there.

    python3 checks/tables/paths.py PAGE..

In a page, a text in Markdown, each link leads to a file or a folder of the repository and, where it says so, to a heading; and each
path between backquotes that begins with the name of a crate and `src`, `specs`, `proofs`, `must-fail` or `edits`, and each word of
a command, between backquotes or in a block, that begins with `checks`, `crates`, `docs`, `examples`, `bench` or `view` and `/`, is
that of a file or a folder; a word with `*` names at least one. In a row of a table a number of lines after a file of a crate is
that of its lines. What isn't there is printed, and so is a wrong number; the status is then 1, and where the pages name nothing."""
import glob
import os
import re
import sys

ROOT = os.path.dirname(os.path.dirname(os.path.dirname(os.path.abspath(__file__))))
OF_A_CRATE = re.compile(r'[a-z_]+/(?:src|specs|proofs|must-fail|edits)(?:/[\w+.-]+)*/?')
OF_THE_REPOSITORY = re.compile(r'(?<![\w./-])(?:crates|checks|docs|examples|bench|view)/[\w+./*-]*[\w/*]')
BLOCK = re.compile(r'(?ms)^```.*?^```$|^(?: {4}\S.*\n)+')
LINES_OF = re.compile(r'\| `([a-z_]+/(?:src|specs)/[\w+./-]+)` \| (\d+) \|')
MADE = ('crates/flowc/out', 'crates/chart_to_c/out')        # what `rt ci` makes


def read(path):
    with open(path, encoding='utf-8') as file:
        return file.read()


def content(path):
    return re.sub(r'(?ms)^```.*?^```$', '', read(path))


def anchors(path):
    """The names of the headings of a page, as links have them."""
    return {re.sub(r'[^\w\- ]', '', heading.lower()).replace(' ', '-') for heading in re.findall('(?m)^#+ (.*)$', content(path))}


def missing_link(page, target):
    name, _, anchor = target.partition('#')
    path = os.path.join(os.path.dirname(page), name) if name else page
    return not os.path.exists(path) or bool(anchor) and anchor not in anchors(path)


def paths_in(words):
    """The paths of the repository among words, and for each whether it isn't there."""
    if OF_A_CRATE.fullmatch(words):
        yield words, not os.path.exists(os.path.join(ROOT, 'crates', words))
        return
    for path in OF_THE_REPOSITORY.findall(words):
        yield path, not path.startswith(MADE) and not glob.glob(os.path.join(ROOT, path))


def wrong_lines(text):
    """The rows of a page that tell another number of lines than a file has."""
    for path, told in LINES_OF.findall(text):
        lines = read(os.path.join(ROOT, 'crates', path)).count('\n')
        if int(told) != lines:
            yield '%s has %d lines and not %s' % (path, lines, told)


def main(pages):
    named, missing, wrong = 0, [], []
    for page in pages:
        text = content(page)
        for target in re.findall(r'\]\(([^)\s]+)\)', text):
            if not target.startswith('http'):
                named += 1
                missing += ['%s: the link %s' % (page, target)] if missing_link(page, target) else []
        for words in [*re.findall('`([^`]*)`', text), *BLOCK.findall(read(page))]:
            for path, is_missing in paths_in(words):
                named += 1
                missing += ['%s: %s' % (page, path)] if is_missing else []
        wrong += ['%s: %s' % (page, line) for line in wrong_lines(text)]
    print('%d pages name %d links and paths' % (len(pages), named))
    for line in missing:
        print(line + ' leads nowhere')
    for line in wrong:
        print(line)
    return 1 if missing or wrong or not named else 0


if __name__ == '__main__':
    sys.exit(main(sys.argv[1:]))
