"""Whether the chambers of a listing form a fan."""

from shared.command import Refusal, read_text
from shared.cones import read_cones
from shared.linear import dot, negative


def fan_of(listing, file):
    """All cones of the chambers from a file that `gitfan cones` wrote, or None where no file is named. Refuses chambers
    that form no fan: by the file's verdict, which is proved, or else by what is looked at here."""
    if file is None:
        reason = why_no_fan(listing)
        if reason:
            raise Refusal(f'the chambers are no fan: {reason}')
        return None
    cones = read_cones(read_text(file), listing)
    if cones.apart:
        first, second = cones.apart
        raise Refusal(f'the chambers are no fan: chambers {first} and {second} meet in no face of both')
    return cones


def why_no_fan(listing):
    """Why the chambers form no fan with a convex support, as a sentence, or None where they form one.

    Where each inner facet is a whole facet of both of its chambers, walking through the inside from chamber to chamber
    never leaves the cone that the boundary facets cut out, and as many chambers hold one point off all walls as any
    other. So the chambers cover that cone once where one such point lies in one chamber.
    """
    by_normal = [{facet.normal: facet for facet in chamber.facets} for chamber in listing.chambers]
    for chamber in listing.chambers:
        for facet in chamber.facets:
            if facet.kind() == 'unmatched':
                return (f'the facet {shown(facet.normal)} of chamber {chamber.number} '
                        f'is no whole facet of chamber {facet.neighbour}')
            if facet.neighbour is not None and not leads_back(by_normal, chamber, facet):
                return (f'the facet {shown(facet.normal)} of chamber {chamber.number} '
                        f'does not lead back from chamber {facet.neighbour}')
    rays = {ray for chamber in listing.chambers for ray in chamber.rays}
    boundary = {facet.normal for chamber in listing.chambers for facet in chamber.facets if facet.neighbour is None}
    for normal in sorted(boundary):
        if any(dot(normal, ray) < 0 for ray in rays):
            return f'chambers lie on both sides of the boundary facet {shown(normal)}'
    weight = listing.chambers[0].weight
    for chamber in listing.chambers[1:]:
        if all(dot(facet.normal, weight) >= 0 for facet in chamber.facets):
            return f'chamber {chamber.number} holds the weight of chamber 1'
    return None


def leads_back(by_normal, chamber, facet):
    """Whether the facet turned round, of the chamber behind a matched facet, leads back."""
    return by_normal[facet.neighbour - 1][negative(facet.normal)].neighbour == chamber.number


def shown(vector):
    """A vector as a listing shows it."""
    return ' '.join(map(str, vector))
