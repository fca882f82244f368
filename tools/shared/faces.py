"""Faces of the chambers of a listing."""


def facets_of(face, walls):
    """The facets of a face, given by its rays: the largest of its parts that lie in a wall and aren't all of it."""
    parts = {face & wall for wall in walls} - {face}
    return {part for part in parts if not any(part < other for other in parts)}


def f_vector(listing):
    """How many cones of each dimension, from 0 on, the fan of the chambers has. The chambers have to form a fan."""
    levels = [set() for _ in range(listing.rows + 1)]
    for chamber in listing.chambers:
        walls = [frozenset(chamber.rays_on(facet)) for facet in chamber.facets]
        level = {frozenset(chamber.rays)}
        for dimension in range(listing.rows, -1, -1):
            level -= levels[dimension]
            levels[dimension] |= level
            level = set().union(*(facets_of(face, walls) for face in level))
    return [len(level) for level in levels]
