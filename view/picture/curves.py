"""Bezier curves: points on them, and paths of SVG. A path is a list of parts, each a list of points in turn for curves."""
from math import hypot

STEPS = 16                                                   # of each curve, where a distance along it is wanted


def far(one, other):
    return hypot(one[0] - other[0], one[1] - other[1])


def point_at(curve, share):
    """The point of a curve of four points at a share of its parameter."""
    rest = 1 - share
    weights = rest ** 3, 3 * rest * rest * share, 3 * rest * share * share, share ** 3
    return tuple(sum(weight * point[axis] for weight, point in zip(weights, curve)) for axis in (0, 1))


def curves_of(points):
    """The curves of a part, each as four points."""
    return [points[first:first + 4] for first in range(0, len(points) - 3, 3)]


def samples(parts, every):
    """Points on a path that are about so far from each other."""
    found = []
    for points in parts:
        for curve in curves_of(points):
            length = sum(far(one, other) for one, other in zip(curve, curve[1:]))
            count = max(2, int(length / every))
            found += [point_at(curve, step / count) for step in range(count)]
        if points:
            found.append(points[-1])
    return found


def on_path(parts, distance):
    """The point at a distance from the beginning of a path, and the direction there."""
    before, direction = None, (1, 0)
    for points in parts:
        for curve in curves_of(points):
            for step in range(STEPS + 1):
                point = point_at(curve, step / STEPS)
                length = far(before, point) if before else 0
                if length > 0:
                    direction = (point[0] - before[0]) / length, (point[1] - before[1]) / length
                    if distance <= length:
                        return (before[0] + direction[0] * distance, before[1] + direction[1] * distance), direction
                    distance -= length
                before = point
    return before, direction


def number(value):
    text = '%.1f' % value
    return text[:-2] if text.endswith('.0') else text


def pair(point):
    return number(point[0]) + ' ' + number(point[1])


def path_text(parts):
    """The path of SVG. Where two parts don't meet quite they are joined by a line."""
    text, here = '', None
    for points in parts:
        if here is None:
            text = 'M' + pair(points[0])
        elif far(points[0], here) > 0.05:
            text += ' L' + pair(points[0])
        for curve in curves_of(points):
            text += ' C' + ' '.join(pair(each) for each in curve[1:])
        here = points[-1]
    return text


def arrow_text(base, tip):
    """The path of the head of an arrow from a base to a tip."""
    length = far(base, tip) or 1
    dx, dy = (tip[0] - base[0]) / length, (tip[1] - base[1]) / length
    back = tip[0] - 8 * dx, tip[1] - 8 * dy
    sides = [(back[0] - 3.6 * dy, back[1] + 3.6 * dx), (back[0] + 3.6 * dy, back[1] - 3.6 * dx)]
    return 'M%s L%s L%s Z' % (pair(tip), pair(sides[0]), pair(sides[1]))
