"""The declarations that a grading and an ideal are taken from."""

from shared.command import Refusal, quoted
from shared.grading import LARGEST_ENTRY, MOST_COLUMNS, MOST_ROWS
from singular.expressions import Variables, expression, within_limits
from singular.passing import Passing
from singular.tokens import Tokens

COEFFICIENTS = ('0', '32003', 'QQ', 'ZZ', 'integer', 'ZZ/32003')
MOST_GENERATORS = 64


class Program:
    """What a text of Singular declares: the rows of a matrix of degrees and the generators of an ideal."""

    def __init__(self, text):
        self.tokens = Tokens(text)
        self.variables = Variables()
        self.rows = None
        self.matrix_line = None
        self.generators = None
        self.lines = []
        self.names = set()
        self.passing = Passing(self.tokens)
        readers = {'ring': self.read_ring, 'ideal': self.read_ideal, 'intmat': self.read_matrix,
                   'bigintmat': self.read_matrix, 'matrix': self.read_matrix, 'LIB': self.read_library,
                   'option': self.read_option, 'echo': self.read_setting, 'short': self.read_setting,
                   'printlevel': self.read_setting}
        block = False
        while self.tokens.next().kind != 'end' and not (block and self.tokens.takes('}')):
            if not block and self.opens_block():
                block = True
            elif self.tokens.next().text not in readers or self.is_weight():
                self.passing.statement(self.fixed())
            else:
                readers[self.tokens.take().text]()
                self.tokens.needs(';')
        if self.tokens.next().kind != 'end':
            self.tokens.refuse()
        if self.rows is None:
            raise Refusal('no matrix of degrees is declared')
        if self.generators is None:
            raise Refusal('no ideal is declared')
        self.check_variables()

    def opens_block(self):
        """Takes the head of an example of a library, if the text is one, and says whether it is."""
        if self.tokens.next().text != 'example':
            return False
        self.tokens.take()
        self.tokens.needs('{')
        return True

    def is_weight(self):
        """Whether a `bigintmat` comes after the matrix: gitfan.lib has its weights so, and its matrix as an `intmat`."""
        return self.tokens.next().text == 'bigintmat' and self.rows is not None

    def fixed(self):
        """The names of the ring, its variables, the matrix and the ideal, which nothing that is passed over may declare."""
        return self.names | {name.split('(')[0] for name in self.variables.names or ('T',)}

    def name(self):
        """Takes the name of a ring, a matrix or an ideal."""
        self.names.add(self.tokens.take_kind('word'))

    def read_library(self):
        """Passes over the name of a library."""
        self.tokens.take_kind('string')

    def read_option(self):
        """Passes over options, which change how Singular computes and not what is declared."""
        self.tokens.needs('(')
        while not self.tokens.takes(')'):
            self.tokens.take()

    def read_setting(self):
        """Passes over the number that a setting of what is printed is given."""
        self.tokens.needs('=')
        self.tokens.take_kind('number')

    def read_ring(self):
        """Reads the ring: its coefficients and its variables. The order of monomials is passed over."""
        if self.variables.declared or self.generators is not None:
            self.tokens.refuse('a second ring, or a ring after the ideal')
        self.name()
        self.tokens.needs('=')
        self.read_coefficients()
        bracket = self.tokens.next().text == '['
        self.tokens.needs('[' if bracket else ',')
        listed = bracket or self.tokens.takes('(')
        names = self.read_names()
        while listed and self.tokens.takes(','):
            names += self.read_names()
        if listed:
            self.tokens.needs(']' if bracket else ')')
        if len(names) > MOST_COLUMNS or len(set(names)) < len(names):
            self.tokens.refuse(f'more than {MOST_COLUMNS} variables, or two with one name')
        self.variables = Variables(names)
        while self.tokens.next().text != ';':
            self.tokens.take()

    def read_coefficients(self):
        """Reads the ring of coefficients, which has to have a meaning modulo 32003."""
        line = self.tokens.next().line
        text = ''
        while self.tokens.next().text not in (',', '[') or text.count('(') > text.count(')'):
            text += self.tokens.take().text
        if text.strip('()') not in COEFFICIENTS:
            raise Refusal(f'line {line}: the coefficients {quoted(text)} have no meaning modulo 32003')

    def read_names(self):
        """Reads a variable, or those of a range as `T(1..6)`."""
        names = [self.tokens.take_kind('word')]
        while self.tokens.next().text == '(':
            self.tokens.take()
            first = last = int(self.tokens.take_kind('number'))
            if self.tokens.takes('..'):
                last = int(self.tokens.take_kind('number'))
            self.tokens.needs(')')
            if last - first >= MOST_COLUMNS:
                self.tokens.refuse(f'more than {MOST_COLUMNS} variables')
            names = [f'{name}({index})' for name in names for index in range(first, last + 1)]
        return names

    def read_matrix(self):
        """Reads the matrix of degrees, row by row. It may stand a second time as it is."""
        line = self.tokens.next().line
        earlier, again = self.rows, self.tokens.next().text in self.names
        self.name()
        sizes = []
        for most in (MOST_ROWS, MOST_COLUMNS):
            self.tokens.needs('[')
            sizes.append(int(self.tokens.take_kind('number')))
            if not 1 <= sizes[-1] <= most:
                raise Refusal(f'line {line}: the matrix has {sizes[-1]} rows or columns, and 1 to {most} are read')
            self.tokens.needs(']')
        self.tokens.needs('=')
        entries = [self.read_entry()]
        while self.tokens.takes(','):
            entries.append(self.read_entry())
        rows, columns = sizes
        if len(entries) != rows * columns:
            raise Refusal(f'line {line}: entries needed: {rows * columns}, found: {len(entries)}')
        self.rows = [entries[start:start + columns] for start in range(0, len(entries), columns)]
        self.matrix_line = line
        if earlier is not None and not (again and earlier == self.rows):
            raise Refusal(f'line {line}: a second matrix')

    def read_entry(self):
        """Reads an entry of the matrix."""
        sign = -1 if self.tokens.takes('-') else 1
        line = self.tokens.next().line
        entry = sign * int(self.tokens.take_kind('number'))
        if abs(entry) > LARGEST_ENTRY:
            raise Refusal(f'line {line}: the entry {entry} is not from -{LARGEST_ENTRY} to {LARGEST_ENTRY}')
        return entry

    def read_ideal(self):
        """Reads the generators of the ideal. Those that are 0 modulo 32003 are left out."""
        if self.generators is not None:
            self.tokens.refuse('a second ideal')
        self.name()
        self.generators = []
        if not self.tokens.takes('='):
            return
        while True:
            line = self.tokens.next().line
            generator = within_limits(expression(self.tokens, self.variables), line)
            if generator:
                self.generators.append(generator)
                self.lines.append(line)
            if len(self.generators) > MOST_GENERATORS:
                raise Refusal(f'line {line}: more than {MOST_GENERATORS} generators')
            if not self.tokens.takes(','):
                return

    def check_variables(self):
        """Sees that the variables are as many as the columns of the matrix."""
        columns = len(self.rows[0])
        if self.variables.declared and len(self.variables.names) != columns:
            raise Refusal(f'line {self.matrix_line}: {columns} columns for {len(self.variables.names)} variables')
        for generator, line in zip(self.generators, self.lines):
            largest = max((index for monomial in generator for index, _ in monomial), default=0)
            if largest > columns:
                raise Refusal(f'line {line}: T({largest}) has no column in the matrix')
