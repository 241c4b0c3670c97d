"""Reads texts as editors do: by a TextMate grammar, and by a syntax of Vim. Both are read from the folder `editors`.

Of each character of a text the kind is told: comment, keyword, name, number, symbol or wrong in charts, and comment, keyword,
event, value or wrong in event files; None is none of these."""
import json
import os
import re
import subprocess
import tempfile

import common                                # noqa: F401, which finds the folders of checks

# The kind that a scope of TextMate stands for, by how it begins.
SCOPES = {'comment': 'comment', 'storage': 'keyword', 'keyword.operator.flowc-chart': 'symbol', 'keyword.operator.flowc-events': 'value',
          'keyword': 'keyword', 'constant.language.flowc-chart': 'keyword', 'constant.numeric.flowc-chart': 'number',
          'constant': 'value', 'variable.other.flowc-events': 'value', 'variable': 'name', 'support.type': 'name',
          'entity.name.type': 'name', 'entity.name.function': 'event', 'punctuation': 'symbol', 'invalid': 'wrong'}
# The kind that a group of Vim stands for.
GROUPS = {'flowchartError': 'wrong', 'flowchartName': 'name', 'flowchartType': 'name', 'flowchartOperator': 'symbol',
          'flowchartDelimiter': 'symbol', 'flowchartNumber': 'number', 'flowchartComment': 'comment',
          'flowchartStructure': 'keyword', 'flowchartModifier': 'keyword', 'flowchartList': 'keyword',
          'flowchartStatement': 'keyword', 'flowchartBoolean': 'keyword', 'floweventsError': 'wrong', 'floweventsValue': 'value',
          'floweventsEvent': 'event', 'floweventsTick': 'keyword', 'floweventsComment': 'comment'}


def kind_of_scope(scope):
    return next(kind for start, kind in SCOPES.items() if scope.startswith(start))


def by_lines(text, kinds_of_line):
    """The kinds of a text that is read line by line."""
    kinds = []
    for line in text.split('\n'):
        kinds += kinds_of_line(line) + [None]
    return kinds[:len(text)]


class TextMate:
    """A grammar of patterns that each match in one line."""

    def __init__(self, folder, name):
        with open(os.path.join(folder, 'flowc-charts', 'syntaxes', name + '.tmLanguage.json'), encoding='utf-8') as file:
            self.grammar = json.load(file)
        self.patterns = self.compiled(self.grammar['patterns'])

    def compiled(self, patterns):
        """Each pattern as its expression, its kind, and of each capture the kind or the patterns."""
        found = []
        for each in patterns:
            if 'include' in each:
                found += self.compiled(self.grammar['repository'][each['include'][1:]]['patterns'])
                continue
            captures = {int(number): self.compiled(capture['patterns']) if 'patterns' in capture else kind_of_scope(capture['name'])
                        for number, capture in each.get('captures', {}).items()}
            found.append((re.compile(each['match']), kind_of_scope(each['name']) if 'name' in each else None, captures))
        return found

    def kinds(self, text):
        return by_lines(text, lambda line: self.line_kinds(line, self.patterns))

    def line_kinds(self, line, patterns, start=0, end=None):
        """The first match wins, and of those at one place the pattern that stands first."""
        end = len(line) if end is None else end
        kinds = [None] * end
        place = start
        while place < end:
            matches = [(expression.search(line, place, end), kind, captures) for expression, kind, captures in patterns]
            matches = [each for each in matches if each[0] and each[0].end() > each[0].start()]
            if not matches:
                break
            match, kind, captures = min(matches, key=lambda each: each[0].start())
            kinds[match.start():match.end()] = [kind] * (match.end() - match.start())
            for number, inside in captures.items():
                first, after = match.span(number)
                if first >= 0:
                    kinds[first:after] = [inside] * (after - first) if isinstance(inside, str) else \
                        self.line_kinds(line, inside, first, after)[first:]
            place = match.end()
        return kinds


class VimSyntax:
    """A syntax of keywords and of matches in one line."""

    def __init__(self, folder, name):
        with open(os.path.join(folder, 'vim', 'syntax', 'flow%s.vim' % name), encoding='utf-8') as file:
            text = file.read()
        self.matches = [(re.compile(for_python(expression)), GROUPS[group])
                        for group, expression in re.findall(r'^syn match (\w+) "\\v(.*)"$', text, re.MULTILINE)]
        self.keywords = {word: GROUPS[group] for group, words in re.findall(r'^syn keyword (\w+) (.*)$', text, re.MULTILINE)
                         for word in words.split()}

    def kinds(self, text):
        return by_lines(text, self.line_kinds)

    def line_kinds(self, line):
        kinds, place = [], 0
        while place < len(line):
            word = re.compile(r'\w+', re.ASCII).match(line, place)
            if word and word[0] in self.keywords:
                kind, end = self.keywords[word[0]], word.end()
            else:
                matches = [(each.match(line, place), kind) for each, kind in self.matches]
                found = [(match.end(), kind) for match, kind in matches if match and match.end() > place]
                end, kind = found[-1] if found else (place + 1, None)
            kinds += [kind] * (end - place)
            place = end
        return kinds


def for_python(expression):
    """An expression of Vim, very magic, of the few forms that the syntaxes have."""
    before, _, after = expression.partition('\\ze')
    depth = before.count('%(') - len(re.findall(r'(?<!\\)\)', before))
    if after:
        inside, outside = (after[:-depth], after[-depth:]) if depth else (after, '')
        before += '(?=%s)%s' % (inside, outside)
    return before.replace('%(', '(?:')


VIM_SCRIPT = r'''
set nocompatible encoding=latin1 fileformats=unix synmaxcol=0
let &runtimepath = $EDITORS . "/vim," . &runtimepath
syntax on
for name in split($NAMES)
  execute "edit " . name . ".chart"
  set filetype=flowchart
  syntax sync fromstart
  let out = []
  for line in range(1, line("$"))
    let groups = map(range(1, max([1, len(getline(line))])), {_, column -> synIDattr(synID(g:line, column, 1), "name")})
    call add(out, join(map(groups, {_, group -> group == "" ? "-" : group})))
  endfor
  call writefile(out, name . ".groups")
endfor
qall!
'''


def kinds_by_vim(folder, texts):
    """The kinds of some texts, each with a number, by Vim itself."""
    with tempfile.TemporaryDirectory() as place:
        for number, text in texts.items():
            with open(os.path.join(place, '%d.chart' % number), 'wb') as file:
                file.write(text.encode('latin-1'))
        with open(os.path.join(place, 'script.vim'), 'w', encoding='utf-8') as file:
            file.write(VIM_SCRIPT)
        subprocess.run(['vim', '-N', '-u', 'NONE', '-es', '-S', 'script.vim'], cwd=place, check=False, timeout=1000,
                       stdin=subprocess.DEVNULL, env={**os.environ, 'EDITORS': os.path.abspath(folder), 'NAMES': ' '.join(map(str, texts))})
        found = {}
        for number, text in texts.items():
            with open(os.path.join(place, '%d.groups' % number), encoding='latin-1') as file:
                lines = [[GROUPS.get(group) for group in line.split()] for line in file.read().split('\n')]
            found[number] = by_lines(text, lambda line, lines=iter(lines): next(lines)[:len(line)])
        return found
