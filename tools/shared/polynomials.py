"""Polynomials over the integers modulo 32003.

A polynomial is a dictionary from monomials to numbers from 1 to 32002, and a monomial a tuple of pairs of a variable's
index and an exponent above 0, by ascending indices.
"""

MODULUS = 32003
MOST_VARIABLES = 16


def constant(number):
    """The polynomial of an integer."""
    return {(): number % MODULUS} if number % MODULUS else {}


def variable(index):
    """The polynomial of a variable."""
    return {((index, 1),): 1}


def sum_with(first, second, factor=1):
    """The first polynomial and an integer times the second."""
    total = dict(first)
    for monomial, number in second.items():
        total[monomial] = (total.get(monomial, 0) + factor * number) % MODULUS
    return {monomial: number for monomial, number in total.items() if number}


def product(first, second):
    """The product of two polynomials."""
    total = {}
    for one, number in first.items():
        for other, factor in second.items():
            monomial = monomial_product(one, other)
            total[monomial] = (total.get(monomial, 0) + number * factor) % MODULUS
    return {monomial: number for monomial, number in total.items() if number}


def monomial_product(first, second):
    """The product of two monomials."""
    exponents = dict(first)
    for index, exponent in second:
        exponents[index] = exponents.get(index, 0) + exponent
    return tuple(sorted(exponents.items()))


def polynomial_text(polynomial):
    """The line of a polynomial: terms in descending graded reverse lexicographic order, where `T(1)` is greatest."""
    terms = [term_text(monomial, polynomial[monomial]) for monomial in sorted(polynomial, key=rank, reverse=True)]
    text = ''.join(terms) or '0'
    return text[1:] if text[0] == '+' else text


def rank(monomial):
    """What ascends as monomials do: the degree, and then, from the last variable on, the smaller exponent."""
    exponents = dict(monomial)
    return sum(exponents.values()), [-exponents.get(index, 0) for index in range(MOST_VARIABLES, 0, -1)]


def term_text(monomial, number):
    """A term with its sign, its number between -16001 and 16001."""
    signed = number if number <= MODULUS // 2 else number - MODULUS
    powers = [f'T({index})' + (f'^{exponent}' if exponent > 1 else '') for index, exponent in monomial]
    if abs(signed) != 1 or not powers:
        powers.insert(0, str(abs(signed)))
    return ('-' if signed < 0 else '+') + '*'.join(powers)
