"""The words and signs of a text of Singular."""

import re
from typing import NamedTuple

from shared.command import Refusal, quoted

LONGEST = 1000
TOKEN = re.compile(r'''
    (?P<space> \s+ | //[^\n]* | /\*.*?\*/ )
  | (?P<string> "[^"]*" )
  | (?P<word> [0-9]* [A-Za-z_@'] [A-Za-z0-9_@']* )
  | (?P<number> [0-9]+ )
  | (?P<sign> \.\. | \*\* | [-+*/^=,;()\[\]{}<>] )
''', re.VERBOSE | re.DOTALL)


class Token(NamedTuple):
    """A string, a word, a number or a sign, or the end, and the line on which it begins."""
    kind: str
    text: str
    line: int


def tokens_of(text):
    """The tokens of a text, the last its end. Refuses a character that is in none, and one that is very long."""
    tokens, place, line = [], 0, 1
    while place < len(text):
        found = TOKEN.match(text, place)
        if found is None:
            raise Refusal(f'line {line}: {quoted(text[place])} is not read')
        if found.lastgroup in ('word', 'number') and len(found.group()) > LONGEST:
            raise Refusal(f'line {line}: {quoted(found.group())} is longer than {LONGEST} characters')
        if found.lastgroup != 'space':
            tokens.append(Token(found.lastgroup, found.group(), line))
        line += found.group().count('\n')
        place = found.end()
    return tokens + [Token('end', '', line)]


class Tokens:
    """Tokens that are taken one by one."""

    def __init__(self, text):
        self.tokens = tokens_of(text)
        self.place = 0

    def next(self):
        """The next token, which is not taken."""
        return self.tokens[self.place]

    def refuse(self, reason=None):
        """Refuses the next token."""
        token = self.next()
        if token.kind == 'end':
            raise Refusal(f'line {token.line}: the text ends within a declaration')
        raise Refusal(f'line {token.line}: {reason or quoted(token.text) + " is not read here"}')

    def take(self):
        """Takes the next token."""
        token = self.next()
        if token.kind == 'end':
            self.refuse()
        self.place += 1
        return token

    def take_kind(self, kind):
        """Takes the next token, which has to be of this kind, and gives its text."""
        if self.next().kind != kind:
            self.refuse()
        return self.take().text

    def takes(self, *signs):
        """Takes the next token if it is one of these signs, and says whether it is."""
        token = self.next()
        if token.kind != 'sign' or token.text not in signs:
            return False
        self.place += 1
        return True

    def needs(self, sign):
        """Takes the next token, which has to be this sign."""
        if not self.takes(sign):
            self.refuse()
