"""The picture of a listing of rank 4 or more: the graph of its chambers by their inner facets, in rings."""

from math import atan2, cos, hypot, pi, sin

from pictures.legend import CROSSED, draw_heading, draw_legend, heading, is_marked, named, wall_sample
from pictures.svg import AT_BOUNDARY, DIGIT_HEIGHT, DIGIT_WIDTH, INSIDE, Picture, place, shown

WIDTH = 1000
MARGIN = 60
TOP = 70
LARGEST_NODE = 44
LARGEST_UNIT = 72
# How far the middles of boxes in a ring, and the rings, are at least from each other, in widths of a box.
BESIDE = 1.3
BETWEEN = 1.9
SWEEPS = 12


def draw(listing, _columns):
    """The picture of a listing of rank 4 or more. Columns are not drawn."""
    neighbours = {chamber.number: [] for chamber in listing.chambers}
    for edge in listing.edges():
        neighbours[edge.first].append(edge.second)
        neighbours[edge.second].append(edge.first)
    rings = rings_of(neighbours)
    radii = radii_of(rings)
    unit = min(LARGEST_UNIT, (WIDTH / 2 - MARGIN) / (radii[-1] + 1))
    angles = angles_of(rings, neighbours)
    ups = {number: radius * cos(angles[number]) for ring, radius in zip(rings, radii) for number in ring}
    middle = (WIDTH / 2, TOP + unit * (max(ups.values()) + 1))
    points = {number: (middle[0] + unit * radius * sin(angles[number]), middle[1] - unit * ups[number])
              for ring, radius in zip(rings, radii) for number in ring}
    node = Node(unit, len(str(len(points))))
    styles = [f'.inner{{stroke-width:{shown(min(1.1, node.width / 24))}}}']
    picture = Picture(WIDTH, heading(listing), styles, is_marked(listing))
    draw_heading(picture, listing, MARGIN)
    for kind, matched in (('inner', True), ('unmatched', False)):
        pairs = [(edge.first, edge.second) for edge in listing.edges() if edge.matched == matched]
        draw_edges(picture, kind, pairs, points, middle, unit)
    for chamber in listing.chambers:
        node.draw(picture, points[chamber.number], chamber.number, chamber.meets_boundary(), named(chamber),
                  chamber.crossed is not None)
    sample = Node(36, 1)
    marks = []
    if listing.unmatched():
        marks.append((wall_sample(picture, 'unmatched'), 'inner facet that is not shared whole'))
    if listing.crossed():
        marks.append((lambda centre: sample.draw(picture, centre, 1, False, 'a chamber', True), CROSSED))
    height = draw_legend(
        picture, MARGIN, middle[1] + unit * (1 - min(ups.values())) + 40, WIDTH - MARGIN,
        [(wall_sample(picture, 'inner'), 'inner facet between two chambers'),
         (lambda centre: sample.draw(picture, centre, 1, True, 'a chamber'), 'chamber with a boundary facet'),
         (lambda centre: sample.draw(picture, centre, 1, False, 'a chamber'), 'chamber without')] + marks,
        [f'In the middle stands chamber {rings[0][0]}, and a ring has the chambers that are as many inner facets away '
         'from it.'])
    return picture.text(height)


class Node:
    """The box of a chamber with its number, at most this wide, for numbers of this many digits."""

    def __init__(self, width, digits):
        self.width = min(width, LARGEST_NODE)
        self.height = self.width * 0.64
        self.size = min(0.8 * self.width / (DIGIT_WIDTH * digits), 0.66 * self.height / DIGIT_HEIGHT)

    def draw(self, picture, centre, number, at_boundary, title, crossed=False):
        """Draws the box at a point."""
        corner, tint, line = (0, AT_BOUNDARY, 0.07) if at_boundary else (self.height / 2, INSIDE, 0.025)
        picture.box(centre, self.width, self.height, corner, tint, title, line * self.width, crossed)
        picture.write(centre, number, self.size, 'middle')


def rings_of(neighbours):
    """The numbers of the chambers by their distance from the middle. What is not reached from there comes last."""
    rings, left = [], set(neighbours)
    while left:
        part = {number for ring in distances(neighbours, min(left)) for number in ring}
        rings += distances(neighbours, middle_of(neighbours, part))
        left -= part
    return rings


def distances(neighbours, start):
    """The numbers that are reached from a start, by their distance."""
    rings, seen, ring = [], {start}, [start]
    while ring:
        rings.append(ring)
        ring = sorted({other for number in ring for other in neighbours[number]} - seen)
        seen.update(ring)
    return rings


def middle_of(neighbours, part):
    """The number in a part whose greatest distance from another is least, and the least such number.

    A number at distance d from one whose greatest distance is e has its own from e - d, and from d. So distances from a
    few numbers decide: each time from the one that may still be best, until none may.
    """
    least = dict.fromkeys(part, 0)
    best = (len(part) + 1, 0)
    while True:
        number = min(least, key=lambda number: (least[number], number), default=None)
        if number is None or (least[number], number) > best:
            return best[1]
        rings = distances(neighbours, number)
        best = min(best, (len(rings) - 1, number))
        for distance, ring in enumerate(rings):
            for other in ring:
                if other in least:
                    least[other] = max(least[other], len(rings) - 1 - distance, distance)
        del least[number]


def radii_of(rings):
    """The radii of the rings, in widths of a box, so that no two boxes of a ring cover each other."""
    radii = []
    for ring in rings:
        least = radii[-1] + BETWEEN if radii else 0
        round_trip = BESIDE / (2 * sin(pi / len(ring))) if len(ring) > 1 else 0
        radii.append(max(least, round_trip))
    return radii


def angles_of(rings, neighbours):
    """The angle of each chamber from the top, in its ring, near those of its neighbours in the rings beside it."""
    angles = {number: 2 * pi * index / len(ring) for ring in rings for index, number in enumerate(ring)}
    level = {number: place for place, ring in enumerate(rings) for number in ring}
    for sweep in range(SWEEPS):
        outwards = sweep % 2 == 0
        for ring in rings[1:] if outwards else rings[-2:0:-1]:
            near = {number: [other for other in neighbours[number]
                             if level[other] == level[number] or (level[other] < level[number]) == outwards]
                    for number in ring}
            spread_on(ring, {number: mean_angle([angles[other] for other in near[number]], angles[number])
                             for number in ring}, angles)
    return angles


def mean_angle(angles, default):
    """The angle of the sum of unit vectors with these angles, or the default where it is near 0."""
    x, y = sum(map(sin, angles)), sum(map(cos, angles))
    return atan2(x, y) % (2 * pi) if hypot(x, y) > 1e-9 else default


def spread_on(ring, wanted, angles):
    """Spreads the chambers of a ring evenly, in the order of the wanted angles and turned towards them."""
    ring.sort(key=lambda number: (round(wanted[number], 6), number))
    step = 2 * pi / len(ring)
    turned = mean_angle([wanted[number] - step * index for index, number in enumerate(ring)], 0)
    angles.update({number: (turned + step * index) % (2 * pi) for index, number in enumerate(ring)})


def draw_edges(picture, kind, edges, points, middle, unit):
    """Draws the edges between rings as straight lines, and those within a ring as arcs outside of it."""
    straight, arcs = [], ''
    for first, second in edges:
        start, end = points[first], points[second]
        near, far = sorted(hypot(point[0] - middle[0], point[1] - middle[1]) for point in (start, end))
        if far - near > unit / 2 or far < unit:
            straight.append((start, end))
        else:
            arcs += f'M{place(start)}Q{place(outside(start, end, middle, far, unit))} {place(end)}'
    picture.segments(kind, straight)
    if arcs:
        picture.path(kind, arcs)


def outside(start, end, middle, radius, unit):
    """The point that draws an arc between two points of a ring out of the ring."""
    x, y = ((one + other) / 2 - centre for one, other, centre in zip(start, end, middle))
    depth = hypot(x, y)
    if depth < unit / 4:
        x, y, depth = middle[1] - start[1], start[0] - middle[0], radius
    far = 2 * radius + unit - depth if depth > radius / 2 else radius + unit
    return middle[0] + x / depth * far, middle[1] + y / depth * far
