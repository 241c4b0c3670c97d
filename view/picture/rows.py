"""Lays out things without edges between them, in rows or columns."""
from itertools import product

from picture.pictures import ACROSS, DOWN, PAD, Picture
from picture.sizes import Size, header_of, least_width, node_size

GAP = 16                                                     # between things that stand in rows
REGION_GAP = 10
MOST_TRIED = 5                                               # boxes whose directions are tried together
MOST_LINES = 24


def in_rows(box, inner, work):
    """The picture of a box without edges. `inner` has the pictures of each box in it, by direction."""
    several = [each for each in inner if len({picture.size for picture in inner[each].values()}) > 1]
    if len(several) > MOST_TRIED:
        several = []
    tries = []
    for turn in product((DOWN, ACROSS), repeat=len(several)):
        directions = dict(zip(several, turn))
        tries.append(rows_of(box, {each: pictures[directions[each]] if each in directions else work.best(pictures)
                                   for each, pictures in inner.items()}, work))
    return min(tries, key=work.cost)


def rows_of(box, pictures, work):
    """The same with one picture of each box. Regions are stretched so that they fill their row."""
    picture = Picture(box, DOWN)
    picture.pictures = pictures
    stretched = box.composition == 'and'
    sizes = sizes_of(box.inside(), pictures)
    gap = REGION_GAP if stretched else GAP
    lines = best_lines(box.inside(), sizes, gap, (True, False) if stretched else (True,), work.shape)
    header = header_of(box)
    width = max(lines.width, least_width(box))
    top = header.height + 12
    at = 0
    for line in lines.lines:
        thick, spare = lines.room(line, width)
        along = 0
        for each in line:
            size = sizes[each]
            if stretched and each in pictures:
                more = spare / len(line)
                size = Size(size.width + more, thick) if lines.across else Size(thick, size.height + more)
            picture.sizes[each] = size
            picture.places[each] = (PAD + along, top + at) if lines.across else (PAD + at, top + along)
            along += (size.width if lines.across else size.height) + gap
        at += thick + gap
    picture.size = Size(width + 2 * PAD, top + lines.height + PAD)
    picture.crossed = sum(each.crossed for each in pictures.values())
    return picture


def sizes_of(things, pictures):
    """The sizes of things in rows. Where some have listed transitions, those that aren't much smaller are equally wide."""
    sizes = {each: pictures[each].size if each in pictures else node_size(each) for each in things}
    if any(each.listed for each in things):
        wide = max(size.width for size in sizes.values())
        sizes = {each: Size(wide, size.height) if size.width > wide * 0.4 else size for each, size in sizes.items()}
    return sizes


class Lines:
    """Things in rows, or, where lines stand side by side, in columns."""

    def __init__(self, lines, sizes, gap, across):
        self.lines, self.sizes, self.gap, self.across = lines, sizes, gap, across
        lengths, thicknesses = [self.length(line) for line in lines], [self.thickness(line) for line in lines]
        thick = sum(thicknesses) + gap * (len(lines) - 1)
        self.width, self.height = (max(lengths), thick) if across else (thick, max(lengths))

    def along(self, each):
        return self.sizes[each].width if self.across else self.sizes[each].height

    def length(self, line):
        return sum(self.along(each) for each in line) + self.gap * (len(line) - 1)

    def thickness(self, line):
        return max(self.sizes[each].height if self.across else self.sizes[each].width for each in line)

    def room(self, line, width):
        """How thick a line is, and how much of its length is free, in a box of that width."""
        if self.across:
            return self.thickness(line), width - self.length(line)
        return self.thickness(line) + (width - self.width) / len(self.lines), self.height - self.length(line)


def best_lines(things, sizes, gap, ways, shape):
    """The lines that are the smallest on a screen of that shape."""
    counts = range(1, min(len(things), MOST_LINES) + 1)
    tries = [lines_of(things, sizes, gap, across, count) for count in counts for across in ways]
    return min(tries, key=lambda each: max(each.width, each.height * shape))


def lines_of(things, sizes, gap, across, count):
    """The things in about so many lines, in their order."""
    lengths = [sizes[each].width if across else sizes[each].height for each in things]
    limit = max(max(lengths), (sum(lengths) + gap * (len(things) - count)) / count * 1.04)
    lines, used = [[]], 0
    for each, length in zip(things, lengths):
        if lines[-1] and used + gap + length > limit:
            lines.append([])
            used = 0
        used += (gap if lines[-1] else 0) + length
        lines[-1].append(each)
    return Lines(lines, sizes, gap, across)
