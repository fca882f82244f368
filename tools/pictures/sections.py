"""The slice of a weight cone of rank 3 by a plane, chosen and computed exactly."""

from fractions import Fraction
from math import prod, sqrt

from shared.command import Refusal
from shared.linear import determinant, dot, primitive, rank, sum_of


class Section:
    """The slice of the weight cone of a listing by the plane on which a form is 1.

    The form is positive on the cone, so it is the sum of the coordinates in a basis in which the cone is positive.
    """

    def __init__(self, listing):
        rays = sorted({ray for chamber in listing.chambers for ray in chamber.rays})
        normals = sorted({facet.normal for chamber in listing.chambers for facet in chamber.facets
                          if facet.neighbour is None})
        self.normals = [normal for normal in normals if all(dot(normal, ray) >= 0 for ray in rays)]
        corners = [ray for ray in rays if rank([normal for normal in self.normals if dot(normal, ray) == 0]) == 2]
        if rank(self.normals) < 3 or rank(corners) < 3:
            raise Refusal('the boundary facets of the listing do not bound a cone without lines')
        self.form = positive_form(corners, self.normals)
        self.frame = Frame(self.form, [self.point(corner) for corner in corners])

    def point(self, vector):
        """Where the ray of a vector meets the plane. Refuses a vector outside the cone."""
        if not any(vector) or any(dot(normal, vector) < 0 for normal in self.normals):
            raise Refusal(f'({", ".join(map(str, vector))}) lies outside the weight cone of the listing')
        return tuple(Fraction(entry, dot(self.form, vector)) for entry in vector)

    def drawn(self, vector):
        """The point of a ray in the picture's frame, x to the right and y upwards."""
        return self.frame.drawn(self.point(vector))


class Frame:
    """How points of the plane are drawn.

    They are drawn by two of their three coordinates, all but the first with the form's largest entry: the second of the
    two upwards, and the first to the right, sheared. Widths and heights are such that the corners lie as far apart in
    all directions.
    """

    def __init__(self, form, corners):
        self.left_out = max(range(3), key=lambda place: abs(form[place]))
        flat = [self.flat(corner) for corner in corners]
        x, y = (sum(values) / len(flat) for values in zip(*flat))
        across = sum((point[0] - x) ** 2 for point in flat)
        both = sum((point[0] - x) * (point[1] - y) for point in flat)
        up = sum((point[1] - y) ** 2 for point in flat)
        self.shear = both / up
        self.width = sqrt(across - both * self.shear)
        self.height = sqrt(up)

    def flat(self, point):
        """Two of the three coordinates of a point."""
        return point[:self.left_out] + point[self.left_out + 1:]

    def drawn(self, point):
        """Where a point is drawn."""
        x, y = self.flat(point)
        return (float(x - self.shear * y) / self.width, float(y) / self.height)


def positive_form(corners, normals):
    """A form that is positive on a cone, given by its corners and its facets' normals.

    It is the form whose values on the corners miss 1 by the least sum of squares. Where that one is not positive, it is
    the sum of the normals, each divided by the sum of its values on the corners.
    """
    squares = [[sum(corner[i] * corner[j] for corner in corners) for j in range(3)] for i in range(3)]
    total = sum_of(corners)
    nearest = primitive([determinant(squares[:i] + [total] + squares[i + 1:]) for i in range(3)])
    if all(dot(nearest, corner) > 0 for corner in corners):
        return nearest
    sums = [dot(normal, total) for normal in normals]
    return primitive(sum_of([tuple(entry * prod(sums) // own for entry in normal)
                             for normal, own in zip(normals, sums)]))


def polygon_of(chamber):
    """The rays of a chamber of rank 3 in their order around it. Refuses where its facets do not close."""
    sides = {ray: [] for ray in chamber.rays}
    for facet in chamber.facets:
        ends = chamber.rays_on(facet)
        if len(ends) != 2:
            raise Refusal(f'a facet of chamber {chamber.number} holds {len(ends)} of its rays, and not 2')
        sides[ends[0]].append(ends[1])
        sides[ends[1]].append(ends[0])
    polygon = [chamber.rays[0]]
    while len(polygon) < len(chamber.rays):
        following = [ray for ray in sides[polygon[-1]] if ray not in polygon]
        if not following:
            break
        polygon.append(following[0])
    closed = len(polygon) == len(chamber.rays) and polygon[0] in sides[polygon[-1]] and len(polygon) > 2
    if not closed or any(len(ends) != 2 for ends in sides.values()):
        raise Refusal(f'the facets of chamber {chamber.number} do not close around it')
    return polygon
