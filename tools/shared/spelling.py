"""The text of a listing, as the program writes it."""


def listing_text(listing):
    """The text of a listing, of version 2."""
    lines = ['gitfan-listing 2', f'grading {listing.rows} {listing.columns}', f'cones {listing.cones}',
             f'chambers {len(listing.chambers)}']
    for chamber in listing.chambers:
        lines += [f'chamber {chamber.number}', *(f'ray {spelled(ray)}' for ray in chamber.rays),
                  f'weight {spelled(chamber.weight)}']
        lines += [f'crossed {chamber.crossed}'] * (chamber.crossed is not None)
        lines += [f'facet {spelled(facet.normal)} {side(facet)}' for facet in chamber.facets]
    return '\n'.join([*lines, 'end', ''])


def side(facet):
    """What stands behind a facet's normal."""
    if facet.neighbour is None:
        return 'boundary'
    return f'inner {facet.neighbour} {"matched" if facet.matched else "unmatched"}'


def spelled(vector):
    """The entries of a vector with spaces between them."""
    return ' '.join(map(str, vector))
