"""Polynomials as Singular writes them, with the limits of an input text."""

import re

from shared.command import Refusal, quoted
from shared.polynomials import MODULUS, MOST_VARIABLES, constant, product, sum_with, variable

LARGEST_EXPONENT = 64
MOST_TERMS = 200
SHORT_POWER = re.compile(r'([A-Za-z])([0-9]*)')


class Variables:
    """The variables of a ring by their names, or T(1) to T(16) where no ring was declared."""

    def __init__(self, names=None):
        self.names = names or [f'T({index})' for index in range(1, MOST_VARIABLES + 1)]
        self.declared = names is not None
        self.index = {name: place for place, name in enumerate(self.names, 1)}
        self.short = all(len(name) == 1 for name in self.names)


def expression(tokens, variables):
    """The polynomial of the next tokens: terms with signs between them."""
    total = term(tokens, variables)
    while tokens.next().text in ('+', '-'):
        factor = 1 if tokens.take().text == '+' else -1
        total = sum_with(total, term(tokens, variables), factor)
    return total


def term(tokens, variables):
    """A product of powers."""
    total = power(tokens, variables)
    while tokens.takes('*'):
        line = tokens.next().line
        total = within_limits(product(total, power(tokens, variables)), line)
    if tokens.next().text == '/':
        tokens.refuse('a rational number, and the coefficients of a generator have to be integers')
    return total


def power(tokens, variables):
    """An atom, its powers, or one with a minus sign before it."""
    if tokens.takes('-'):
        return sum_with({}, power(tokens, variables), -1)
    total = atom(tokens, variables)
    while tokens.takes('^', '**'):
        line = tokens.next().line
        exponent = int(tokens.take_kind('number'))
        total = raised(total, exponent, line)
    return total


def raised(base, exponent, line):
    """A power of a polynomial. Refuses one that is too large for an input text."""
    if not any(base):
        return constant(pow(base.get((), 0), exponent, MODULUS))
    if exponent > LARGEST_EXPONENT:
        raise Refusal(f'line {line}: an exponent above {LARGEST_EXPONENT}')
    total = constant(1)
    for _ in range(exponent):
        total = within_limits(product(total, base), line)
    return total


def within_limits(polynomial, line):
    """The polynomial. Refuses one that is too large for an input text."""
    if len(polynomial) > MOST_TERMS:
        raise Refusal(f'line {line}: more than {MOST_TERMS} terms')
    if any(exponent > LARGEST_EXPONENT for monomial in polynomial for _, exponent in monomial):
        raise Refusal(f'line {line}: an exponent above {LARGEST_EXPONENT}')
    return polynomial


def atom(tokens, variables):
    """A number, a variable, a monomial in the short form, or an expression in brackets."""
    if tokens.takes('('):
        line = tokens.next().line
        inside = expression(tokens, variables)
        tokens.needs(')')
        return within_limits(inside, line)
    token = tokens.next()
    if token.kind == 'number':
        return constant(int(tokens.take().text))
    if token.kind != 'word':
        tokens.refuse()
    name = indexed_name(tokens)
    if name in variables.index:
        return variable(variables.index[name])
    short = short_monomial(name, variables, token.line)
    if short is None:
        raise Refusal(f'line {token.line}: {quoted(name)} is no variable')
    return short


def indexed_name(tokens):
    """A word with the indices that may stand in brackets behind it."""
    name = tokens.take().text
    while tokens.next().text == '(':
        tokens.take()
        name += f'({int(tokens.take_kind("number"))})'
        tokens.needs(')')
    return name


def short_monomial(word, variables, line):
    """The monomial of a word as `3x2y`, where all variables are letters, or None."""
    digits = re.match('[0-9]*', word).group()
    letters = word[len(digits):]
    if not variables.short or not re.fullmatch('([A-Za-z][0-9]*)+', letters):
        return None
    total = constant(int(digits or 1))
    for name, exponent in SHORT_POWER.findall(letters):
        if name not in variables.index:
            return None
        factor = raised(variable(variables.index[name]), int(exponent or 1), line)
        total = within_limits(product(total, factor), line)
    return total
