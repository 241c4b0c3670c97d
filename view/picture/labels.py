"""The texts of a drawing: how wide they are, and how long labels and actions are broken into lines.

A drawing is laid out before any browser sees it, so widths are estimates that no common font exceeds."""
from chart_syntax import Between, expression_text, level_of, operand_text, statement_text

CODE_SIZE, NAME_SIZE, SMALL_SIZE = 11, 13, 10                # in pixels
CODE_LINE, NAME_LINE = 14, 17
LABEL_WIDTH, ACTION_WIDTH = 32, 36                           # in characters


def code_width(text, size=CODE_SIZE):
    """The width of a text in a font whose characters are all equally wide: 0.602 of its size in all that are common."""
    return len(text) * 0.606 * size


def name_width(text, size=NAME_SIZE):
    """The width of a bold text in a font without serifs."""
    return sum(letter_width(each) for each in text) * size


def letter_width(letter):
    if letter in "iljtfI1.,:;'|/ ":
        return 0.36
    if letter in 'mwMW':
        return 0.95
    return 0.76 if letter.isupper() else 0.66


def broken(pieces, width):
    """Lines of at most that width where words allow it. A piece is a list of words that stay together; a piece begins a line
    of its own unless it fits whole after the piece before it."""
    lines = []
    for words in pieces:
        whole = ' '.join(words)
        if lines and len(lines[-1]) + 1 + len(whole) <= width:
            lines[-1] += ' ' + whole
        else:
            lines += broken_piece(words, width)
    return lines


def broken_piece(words, width):
    """The lines of one piece. A word that is too long is broken at its blanks, and the next word then begins a line."""
    lines = []
    full = True
    for word in words:
        long = len(word) > width - 2
        full = full or long
        indent = '  ' if lines else ''
        for part in word.split(' ') if long else [word]:
            if not full and len(lines[-1]) + 1 + len(part) <= width:
                lines[-1] += ' ' + part
            else:
                lines.append(indent + part)
            full = False
            indent = '    ' if long else '  '
        full = long
    return lines


def conjuncts(expression):
    """The text of a condition in words that begin before each outer `&&` or `||`."""
    if not isinstance(expression, Between) or expression.operator not in ('&&', '||'):
        return [expression_text(expression)]
    level = level_of(expression.operator)
    is_looser = isinstance(expression.left, Between) and level_of(expression.left.operator) < level
    left = [operand_text(expression.left, level)] if is_looser else conjuncts(expression.left)
    return left + [expression.operator + ' ' + operand_text(expression.right, level + 1)]


def braced(first, statements):
    words = [statement_text(each) for each in statements]
    words[0] = first + '{ ' + words[0]
    words[-1] += ' }'
    return words


def transition_pieces(written):
    """The pieces of a transition's label: event, guard, condition action, transition action."""
    pieces = []
    if written.event is not None:
        pieces.append([written.event.text])
    if written.guard is not None:
        words = conjuncts(written.guard.expression)
        words[0] = '[' + words[0]
        words[-1] += ']'
        pieces.append(words)
    if written.condition:
        pieces.append(braced('', written.condition))
    if written.action:
        pieces.append(braced('/ ', written.action))
    return pieces


def label_lines(written, width=LABEL_WIDTH):
    return broken(transition_pieces(written), width)


def action_lines(blocks):
    """The lines of the actions of a state: a keyword or nothing, and the text after it."""
    lines = []
    for kind in ('entry', 'during', 'exit'):
        if blocks.get(kind):
            words = [statement_text(each) for each in blocks[kind]]
            for number, line in enumerate(broken([words], ACTION_WIDTH)):
                lines.append((kind + ':' if number == 0 else '', line.strip() if number else line))
    return lines
