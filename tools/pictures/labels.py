"""Where the labels of a picture stand."""

from itertools import combinations
from math import atan2, cos, hypot, inf, pi, sin

FARTHEST = 44


def largest_box(polygon, width, height):
    """The centre and the scale of the largest box of this shape inside a convex polygon.

    A box is inside where it is on the inner side of each edge. Its centre and scale are three numbers, so the largest
    box touches three edges: all threes are tried. Where more than one box is largest, their mean is taken.
    """
    edges = box_edges(polygon, width, height)
    largest, centres = 0.0, []
    for three in combinations(edges, 3):
        found = solve(three)
        if found is None or found[2] <= 0 or found[2] < largest * (1 - 1e-9):
            continue
        x, y, scale = found
        if all(a * x + b * y - c * scale >= d - 1e-6 for a, b, c, d in edges):
            if scale > largest * (1 + 1e-9):
                largest, centres = scale, []
            centres.append((x, y))
    if not centres:
        return polygon[0], 0.0
    return tuple(sum(values) / len(centres) for values in zip(*centres)), largest


def box_edges(polygon, width, height):
    """For each edge the numbers a, b, c, d for which a box with centre x, y and this scale is on its inner side where
    a x + b y - c scale >= d."""
    middle = tuple(sum(values) / len(polygon) for values in zip(*polygon))
    edges = []
    for start, end in zip(polygon, polygon[1:] + polygon[:1]):
        length = hypot(end[0] - start[0], end[1] - start[1])
        if length == 0:
            continue
        a, b = (start[1] - end[1]) / length, (end[0] - start[0]) / length
        if a * (middle[0] - start[0]) + b * (middle[1] - start[1]) < 0:
            a, b = -a, -b
        edges.append((a, b, (abs(a) * width + abs(b) * height) / 2, a * start[0] + b * start[1]))
    return edges


def solve(three):
    """The x, y and scale for which three boxes' edges are touched, or None."""
    (a, b, c, d), (e, f, g, h), (i, j, k, m) = three
    whole = a * (g * j - f * k) - b * (g * i - e * k) - c * (e * j - f * i)
    if abs(whole) < 1e-12:
        return None
    x = (d * (g * j - f * k) - b * (g * m - h * k) - c * (h * j - f * m)) / whole
    y = (a * (g * m - h * k) - d * (g * i - e * k) - c * (e * m - h * i)) / whole
    scale = (a * (f * m - h * j) - b * (e * m - h * i) + d * (e * j - f * i)) / whole
    return x, y, scale


def spread(wanted, gaps, least=-inf, most=inf):
    """Places near the wanted ones, which ascend, each at least its gap above the one before.

    `gaps` has a number for each place but the first. Places that would come too near are moved by equal amounts in
    both directions. The first is at least `least`, and the last at most `most`, where there is room.
    """
    offsets = [0.0]
    for gap in gaps:
        offsets.append(offsets[-1] + gap)
    groups = []
    for value, offset in zip(wanted, offsets):
        groups.append([value - offset, 1])
        while len(groups) > 1 and groups[-2][0] >= groups[-1][0]:
            mean, count = groups.pop()
            before, more = groups.pop()
            groups.append([(mean * count + before * more) / (count + more), count + more])
    starts = [mean for mean, count in groups for _ in range(count)]
    return [min(max(start, least), most - offsets[-1]) + offset for start, offset in zip(starts, offsets)]


def beside(point, width, height, boxes, middle):
    """The centre of a box of this size near a point, where it covers the fewest of other boxes.

    Among those that cover as few it is the nearest to the point, and then the first from the way that leads from the
    middle.
    """
    away = atan2(point[1] - middle[1], point[0] - middle[0])
    near = [box for box in boxes if hypot(box[0][0] - point[0], box[0][1] - point[1]) < FARTHEST + width + box[1]]
    fewest, chosen = None, point
    for distance in range(6, FARTHEST, 4):
        for step in (0, 1, -1, 2, -2, 3, -3, 4, -4, 5, -5, 6, -6, 7, -7, 8):
            angle = away + step * pi / 8
            centre = (point[0] + cos(angle) * (distance + width / 2), point[1] + sin(angle) * (distance + height / 2))
            covered = sum(overlap((centre, width, height), box) for box in near)
            if fewest is None or covered < fewest:
                fewest, chosen = covered, centre
    return chosen


def overlap(first, second):
    """Whether two boxes have common points inside. A box is its centre, its width and its height."""
    return (abs(first[0][0] - second[0][0]) < (first[1] + second[1]) / 2
            and abs(first[0][1] - second[0][1]) < (first[2] + second[2]) / 2)
