"""Inputs that are drawn from a seed, and those of planes in a space."""

import itertools
import random

# Numbers of an input are counted modulo this prime.
MODULUS = 32003

# How many monomials are drawn before those of one degree are looked for.
DRAWS = 4000

# What `random_input` draws: `factor` has generators with a monomial factor, `plain` has none.
KINDS = ['factor', 'plain']


def random_input(kind, seed):
    """An input with a random grading of one or two rows, four to seven columns, and two to five generators."""
    draw = random.Random(f'{seed} {kind}')
    rank, width = draw.choice([1, 1, 2]), draw.randint(4, 7)
    rows = [[draw.randint(1, 3) for _ in range(width)]]
    rows += [[draw.randint(0, 3) for _ in range(width)] for _ in range(rank - 1)]
    groups = monomials_by_degree(draw, rows)
    generators = [generator(draw, kind, width, groups) for _ in range(draw.randint(2, 5))]
    return input_text(rows, generators)


def monomials_by_degree(draw, rows):
    """Lists of two or more monomials of one degree."""
    top, groups = draw.choice([2, 3, 6]), {}
    for _ in range(DRAWS):
        exponents = tuple(draw.choice([0, 0, draw.randint(0, top), draw.randint(0, 2)]) for _ in rows[0])
        degree = tuple(sum(entry * exponent for entry, exponent in zip(row, exponents)) for row in rows)
        if any(exponents):
            groups.setdefault(degree, set()).add(exponents)
    return [sorted(group) for group in groups.values() if len(group) > 1]


def generator(draw, kind, width, groups):
    """A sum of two to four monomials of one degree, each with the same factor."""
    group = draw.choice(groups)
    monomials = draw.sample(group, min(len(group), draw.choice([2, 2, 3, 4])))
    factor = [draw.choice([0, 0, 1, 2]) if kind == 'factor' else 0 for _ in range(width)]
    return [(draw.randint(1, MODULUS - 1), [a + b for a, b in zip(monomial, factor)]) for monomial in monomials]


def planes(dimension):
    """The Pluecker relations of the planes in a space, graded by the places of each pair."""
    pairs = list(itertools.combinations(range(dimension), 2))
    rows = [[1 if place in pair else 0 for pair in pairs] for place in range(dimension)]
    generators = []
    for a, b, c, d in itertools.combinations(range(dimension), 4):
        terms = [(1, (a, b), (c, d)), (-1, (a, c), (b, d)), (1, (a, d), (b, c))]
        generators.append([(sign, [int(pair in two) for pair in pairs]) for sign, *two in terms])
    return input_text(rows, generators)


def input_text(rows, generators):
    """The text of an input. A generator is a list of numbers with exponents."""
    lines = ['gitfan 1', f'grading {len(rows)} {len(rows[0])}']
    lines += [' '.join(map(str, row)) for row in rows]
    lines += [f'ideal {len(generators)}'] + ['+'.join(map(term, terms)).replace('+-', '-') for terms in generators]
    return '\n'.join(lines + ['end', ''])


def term(counted):
    """A number and a monomial as a text."""
    number, exponents = counted
    powers = [f'T({i + 1})' + ('' if e == 1 else f'^{e}') for i, e in enumerate(exponents) if e]
    return '*'.join([str(number)] + powers)
