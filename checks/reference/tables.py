"""Tables of cases, in one text each. Its first line is its head, which says how many cases the table has, one at least:

    # N blocks          The lines after the head make blocks, as is said below. The last line is `# end`.
    # N rows            Each line after the head is a case.

A table without a head, without a case, or with more or fewer cases than its head says is refused with status 1, and so is one whose
last line has no line feed, and a table of blocks whose last line is another one: so no check is passed by a table that is empty or
was cut.

A line of a table of blocks is empty, a comment that begins with `#`, or one of

    block NAME        A case begins. Its name is one word that no earlier block has.
    WORD REST         A part of the case. The program that answers the table says which words there are.
    > ANSWER          A line of the answer that was worked out by hand. It stands after the parts.

A TEXT in a part stands for bytes: `\\n`, `\\r`, `\\t` and `\\\\` are the bytes 10, 13, 9 and 92, and `\\xHH` is the byte
with these two hexadecimal digits. Every other byte is itself.

A program that answers a table writes for each block the line `block NAME` and then the lines of its answer. With `--check`
it writes only where an answer differs from the one worked out by hand, and then ends with status 1."""
import re
import sys


class Block:
    """A case: its name, its parts as pairs of WORD and REST, and the lines of the answer that was worked out by hand."""

    def __init__(self, name):
        self.name, self.parts, self.expected = name, [], []

    def values(self, word):
        return [rest for w, rest in self.parts if w == word]


def lines_of(source):
    """The lines of a table that is read as bytes, a character for each byte, whatever the locale is."""
    for line in source:
        if not line.endswith(b'\n'):
            raise SystemExit('the last line of a table has no line feed')
        yield line[:-1].decode('latin-1')


def counted(lines, what, cases):
    """The cases of a table that are made of the lines after its head, which must be as many as the head says."""
    head = re.fullmatch('# ([1-9][0-9]*) ' + what, next(lines, ''))
    if head is None:
        raise SystemExit('the first line of a table is `# N %s`, where N is how many it has' % what)
    read = 0
    for read, case in enumerate(cases(lines), 1):
        yield case
    if read != int(head[1]):
        raise SystemExit('the head of the table says %s %s, but it has %d' % (head[1], what, read))


def rows(source):
    """The rows of a table that is read as bytes."""
    return counted(lines_of(source), 'rows', lambda lines: lines)


def blocks(source):
    """The blocks of a table that is read as bytes."""
    return counted(lines_of(source), 'blocks', blocks_of)


def head(number, what):
    """The head of a table with so many blocks or rows."""
    return '# %d %s' % (number, what)


# The last line of a table of blocks.
END = '# end'


def blocks_of(lines):
    """The blocks that lines make."""
    block, names, line = None, set(), ''
    for line in lines:
        if not line or line.startswith('#'):
            continue
        word, _, rest = line.partition(' ')
        if word == 'block':
            if block is not None:
                yield block
            if rest in names or not rest:
                raise SystemExit('the name of a block is missing or stands twice: ' + rest)
            names.add(rest)
            block = Block(rest)
        elif block is None:
            raise SystemExit('no block has begun: ' + line)
        elif word == '>':
            block.expected.append(rest)
        else:
            block.parts.append((word, rest))
    if line != END:
        raise SystemExit('the last line of a table of blocks is `%s`' % END)
    if block is not None:
        yield block


ESCAPES = {'n': b'\n', 'r': b'\r', 't': b'\t', '\\': b'\\'}


def unescaped(text):
    def piece(match):
        if match[1] in ESCAPES:
            return ESCAPES[match[1]].decode('latin-1')
        return chr(int(match[2], 16))
    return re.sub(r'\\(?:([nrt\\])|x([0-9a-fA-F]{2}))', piece, text).encode('latin-1')


def escaped(data):
    """A text that stands for these bytes in one line of a table."""
    names = {10: '\\n', 13: '\\r', 9: '\\t', 92: '\\\\'}
    text = ''.join(names.get(b) or (chr(b) if 32 <= b < 127 else '\\x%02x' % b) for b in data)
    return text[:-1] + '\\x20' if text.endswith(' ') else text


def times(rest):
    """The bytes of `N TEXT`: the text N times."""
    count, _, text = rest.partition(' ')
    return unescaped(text) * int(count)


def answer_table(source, answer, check, is_left=lambda block: False):
    """Writes the answers of a table, or with `check` where they differ from those worked out by hand. Blocks that are left are passed
    over, and counted. Gives the status."""
    blocks_seen = wrong = left = 0
    for block in blocks(source):
        if is_left(block):
            left += 1
            continue
        blocks_seen += 1
        got = answer(block)
        if not check:
            sys.stdout.write('block %s\n' % block.name + ''.join(line + '\n' for line in got))
        elif got != block.expected:
            wrong += 1
            sys.stdout.write('block %s\n' % block.name)
            sys.stdout.write(''.join('  by hand   %s\n' % line for line in block.expected if line not in got))
            sys.stdout.write(''.join('  answered  %s\n' % line for line in got if line not in block.expected))
            if sorted(got) == sorted(block.expected):
                sys.stdout.write('  the lines differ in order or number\n')
    if check:
        print('%d blocks, %d of them differ%s' % (blocks_seen, wrong, '; %d left out' % left if left else ''))
    return 1 if wrong else 0
