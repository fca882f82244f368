"""Listings of chambers, and the reader of their text."""

import re
from typing import NamedTuple, Optional

from shared.command import Refusal, quoted
from shared.linear import dot, negative, sum_of

MOST_ROWS = 6
MOST_COLUMNS = 16
MOST = 65536
LARGEST_ENTRY = 2 ** 40
LARGEST_WEIGHT = 2 ** 57
INTEGER = re.compile(r'0|-?[1-9][0-9]{0,17}')


class Facet(NamedTuple):
    """A facet: its primitive inner normal, and the number of the chamber behind it, or None at the boundary.

    It is matched where that chamber has the facet turned round, with the same rays on it.
    """
    normal: tuple
    neighbour: Optional[int]
    matched: bool

    def kind(self):
        """The kind of its wall: boundary, inner, or unmatched."""
        if self.neighbour is None:
            return 'boundary'
        return 'inner' if self.matched else 'unmatched'


class Chamber(NamedTuple):
    """A chamber: its number, its primitive rays in order, their sum, and its facets.

    Where it is crossed by a further cone that holds this sum, it has the number of that cone, and else None.
    """
    number: int
    rays: list
    weight: tuple
    crossed: Optional[int]
    facets: list

    def rays_on(self, facet):
        """The rays on which the facet's normal is 0."""
        return [ray for ray in self.rays if dot(facet.normal, ray) == 0]

    def meets_boundary(self):
        """Whether nothing lies behind one of the facets."""
        return any(facet.neighbour is None for facet in self.facets)


class Edge(NamedTuple):
    """Two neighbouring chambers, the first of which names the second: whether the second names the first too, and
    whether all facets by which they name each other are matched."""
    first: int
    second: int
    mutual: bool
    matched: bool


class Listing(NamedTuple):
    """A listing: the numbers of rows, of columns and of distinct cones, and the chambers by their numbers from 1."""
    rows: int
    columns: int
    cones: int
    chambers: list

    def edges(self):
        """The pairs of neighbouring chambers in order. Where each names the other, the smaller is the first."""
        marks = {}
        for chamber in self.chambers:
            for facet in chamber.facets:
                if facet.neighbour:
                    marks.setdefault((chamber.number, facet.neighbour), []).append(facet.matched)
        edges = []
        for (first, second), matched in sorted(marks.items()):
            back = marks.get((second, first))
            if back is None or first < second:
                edges.append(Edge(first, second, back is not None, all(matched + (back or []))))
        return edges

    def crossed(self):
        """The chambers that are crossed."""
        return [chamber for chamber in self.chambers if chamber.crossed is not None]

    def unmatched(self):
        """The facets that are not matched, each with its chamber."""
        return [(chamber, facet) for chamber in self.chambers for facet in chamber.facets if facet.kind() == 'unmatched']


def read_listing(text):
    """The listing of a text of version 2, or of version 1, which has no marks. Refuses a text that `gitfan fan` would
    not write, with the line of its first fault."""
    lines = Lines(text)
    version = lines.one_of('gitfan-listing 1', 'gitfan-listing 2')
    rows, columns = lines.numbers('grading', 2, (MOST_ROWS, MOST_COLUMNS))
    cones, = lines.numbers('cones', 1, (MOST,))
    count, = lines.numbers('chambers', 1, (MOST,))
    read = [read_chamber(lines, number, rows, cones, count, version) for number in range(1, count + 1)]
    lines.needs('end')
    lines.ends()
    chambers = [chamber._replace(facets=[matched(read, chamber, facet) for facet in chamber.facets]) for chamber in read]
    if version == 2:
        see_marks(read, chambers)
    return Listing(rows, columns, cones, chambers)


def matched(chambers, chamber, facet):
    """The facet with the mark that the chambers' rays and facets give it."""
    if facet.neighbour is None:
        return facet
    other = chambers[facet.neighbour - 1]
    turned = negative(facet.normal)
    return facet._replace(matched=any(one.normal == turned for one in other.facets)
                          and set(chamber.rays_on(facet)) == set(other.rays_on(facet)))


def see_marks(read, chambers):
    """Sees that each facet was read with the mark that it has."""
    for chamber, right in zip(read, chambers):
        for facet, own in zip(chamber.facets, right.facets):
            if facet != own:
                raise Refusal(f'the facet {" ".join(map(str, facet.normal))} of chamber {chamber.number} of the listing '
                              f'is {"matched" if own.matched else "unmatched"}, and the other is written')


def read_chamber(lines, number, rows, cones, count, version):
    """The next chamber of a listing with so many cones and chambers, in a text of this version."""
    lines.needs(f'chamber {number}')
    line = lines.number
    rays = [lines.vector('ray', rows, LARGEST_ENTRY)]
    while lines.word() == 'ray':
        rays.append(lines.vector('ray', rows, LARGEST_ENTRY))
    weight = lines.vector('weight', rows, LARGEST_WEIGHT)
    crossed = None
    if version == 2 and lines.word() == 'crossed':
        crossed, = lines.vector('crossed', 1, cones - 1)
        if crossed < 0:
            lines.refuse(f'{crossed} is out of range')
    facets = [read_facet(lines, number, rows, count, version)]
    while lines.word() == 'facet':
        facets.append(read_facet(lines, number, rows, count, version))
    if weight != sum_of(rays):
        raise Refusal(f'line {line} of the listing: the weight of chamber {number} is not the sum of its rays')
    if any(dot(facet.normal, ray) < 0 for facet in facets for ray in rays):
        raise Refusal(f'line {line} of the listing: a ray of chamber {number} lies outside one of its facets')
    return Chamber(number, rays, weight, crossed, facets)


def read_facet(lines, number, rows, count, version):
    """The next facet of the chamber with this number."""
    words = lines.take('facet')
    side = rows + 1
    normal = lines.integers(words[1:side], rows, LARGEST_ENTRY)
    if words[side:] == ['boundary']:
        return Facet(normal, None, False)
    marks = ['matched', 'unmatched'] if version == 2 else []
    if len(words) < side + 2 or words[side] != 'inner' or len(words) > side + 2 + bool(marks):
        lines.refuse("'boundary', or 'inner' and a number, are needed behind the normal")
    neighbour, = lines.integers(words[side + 1:side + 2], 1, count)
    if neighbour < 1 or neighbour == number:
        lines.refuse(f'{neighbour} is no other chamber')
    if marks and words[side + 2:] not in ([mark] for mark in marks):
        lines.refuse("'matched' or 'unmatched' is needed behind the number")
    return Facet(normal, neighbour, words[-1] == 'matched')


class Lines:
    """The lines of a listing, or of another text that is named, taken one by one."""

    def __init__(self, text, name='the listing'):
        self.lines = text.split('\n')
        self.name = name
        self.number = 0

    def refuse(self, reason):
        raise Refusal(f'line {self.number} of {self.name}: {reason}')

    def word(self):
        """The first word of the next line, or an empty one."""
        return self.lines[self.number].split(' ')[0] if self.number < len(self.lines) else ''

    def next(self, needed):
        """Takes the next line."""
        self.number += 1
        if self.number >= len(self.lines):
            self.refuse(f"the text ends where '{needed}' is needed")
        return self.lines[self.number - 1]

    def needs(self, whole):
        """Takes the next line, which has to be this one."""
        line = self.next(whole)
        if line != whole:
            self.refuse(f"{quoted(line)} stands where '{whole}' is needed")

    def one_of(self, first, second):
        """Takes the next line, which has to be one of these two: 1 for the first, 2 for the second."""
        line = self.next(second)
        if line not in (first, second):
            self.refuse(f"{quoted(line)} stands where '{second}' is needed")
        return 1 if line == first else 2

    def take(self, word):
        """The words of the next line, the first of which has to be this one."""
        line = self.next(word)
        words = line.split(' ')
        if words[0] != word:
            self.refuse(f"{quoted(line)} stands where '{word}' is needed")
        return words

    def integers(self, words, count, largest):
        """Words that have to be `count` integers of this size at most."""
        if len(words) != count:
            self.refuse(f'integers needed: {count}, found: {len(words)}')
        for word in words:
            if not INTEGER.fullmatch(word):
                self.refuse(f'{quoted(word)} is no integer')
            if abs(int(word)) > largest:
                self.refuse(f'{word} is out of range')
        return tuple(map(int, words))

    def vector(self, word, count, largest):
        """The vector of the next line, which has to begin with this word."""
        return self.integers(self.take(word)[1:], count, largest)

    def numbers(self, word, count, most):
        """The positive integers of the next line, each with the most that it may be."""
        values = self.vector(word, count, max(most))
        for value, limit in zip(values, most):
            if not 1 <= value <= limit:
                self.refuse(f'{value} is out of range')
        return values

    def ends(self):
        """Sees that nothing follows the lines that were taken."""
        if self.lines[self.number:] != ['']:
            self.number += 1
            self.refuse("something follows 'end'")
