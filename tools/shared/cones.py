"""All cones of a listing's chambers, as `gitfan cones` writes them, and the reader of that text."""

from typing import NamedTuple, Optional

from shared.command import Refusal
from shared.listing import LARGEST_ENTRY, Lines

MOST_CONES = 2 ** 20


class AllCones(NamedTuple):
    """The faces of all chambers by dimension, each by its rays, and the first two chambers that meet in no face of both,
    or None where the chambers form a fan."""
    faces: list
    apart: Optional[tuple]

    def counts(self):
        """How many faces there are of each dimension, from 0 on."""
        return [len(faces) for faces in self.faces]


def read_cones(text, listing):
    """The cones of a text that belongs to the listing: its chambers are the faces of full dimension."""
    lines = Lines(text, 'the cones')
    lines.needs('gitfan-cones 1')
    faces = [read_faces(lines, dimension, listing.rows) for dimension in range(listing.rows + 1)]
    words = lines.take('fan')
    apart = None
    if words != ['fan', 'yes']:
        if words[:2] != ['fan', 'no']:
            lines.refuse("'yes', or 'no' and two numbers, are needed behind 'fan'")
        apart = lines.integers(words[2:], 2, len(listing.chambers))
    lines.needs('end')
    lines.ends()
    if set(faces[-1]) != {tuple(chamber.rays) for chamber in listing.chambers}:
        raise Refusal('the cones are those of another listing')
    return AllCones(faces, apart)


def read_faces(lines, dimension, rows):
    """The faces of a dimension."""
    words = lines.take('dimension')
    if words[:3] != ['dimension', str(dimension), 'count']:
        lines.refuse(f"'dimension {dimension} count' and a number are needed")
    count, = lines.integers(words[3:], 1, MOST_CONES)
    return [read_cone(lines, rows) for _ in range(count)]


def read_cone(lines, rows):
    """The rays of the next cone, of which that of 0 has none."""
    line = lines.take('cone')
    if len(line) == 1:
        return ()
    return tuple(lines.integers(ray.split(), rows, LARGEST_ENTRY) for ray in ' '.join(line[1:]).split(' ; '))
