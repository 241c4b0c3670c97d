#!/usr/bin/env python3
r"""Answers a table of chart texts from the rules of the language, which stand in words in chart_syntax.py.

    python3 checks/tables/chart_texts.py < checks/tables/chart_table.txt | diff - checks/tables/chart_answers.txt

The form of a table is in tables.py. A row is one text, in which `\n`, `\t`, `\r`, `\\` and `\xHH` stand for bytes, and its
answer is one line: the canonical text with each end of a line written as `\n`, or the refusal `chart L:C: N Kind`. `not a
text` is answered where a backslash begins none of these.

With the word `--without-history` the older form of the language is meant."""
import beside                                # noqa: F401, which finds the other folders of checks
from chart_syntax import answer_rows, canonical_text, read_chart


def answer(text, language):
    return canonical_text(read_chart(text, language)).replace('\n', '\\n')


if __name__ == '__main__':
    answer_rows(answer)
