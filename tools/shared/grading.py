"""The matrix of an input text: its reader and its writer."""

import re

from shared.command import Refusal, quoted

MOST_ROWS = 6
MOST_COLUMNS = 16
LARGEST_ENTRY = 1000
INTEGER = re.compile(r'-?[0-9]{1,18}')


def read_columns(text):
    """The columns of the matrix of an input text. What follows the matrix is not read."""
    lines = [line[:-1] if line.endswith('\r') else line for line in text.split('\n')]
    if words_of(lines, 1) != ['gitfan', '1']:
        raise Refusal(f"line 1 of the input: {quoted(lines[0])} stands where 'gitfan 1' is needed")
    sizes = words_of(lines, 2)
    if sizes[:1] != ['grading']:
        raise Refusal("line 2 of the input: 'grading' is needed")
    rows, columns = integers(sizes[1:], 2, 2)
    if not (1 <= rows <= MOST_ROWS and 1 <= columns <= MOST_COLUMNS):
        raise Refusal(f'line 2 of the input: {rows} rows and {columns} columns are out of range')
    matrix = [integers(words_of(lines, number), number, columns) for number in range(3, rows + 3)]
    return list(zip(*matrix))


def words_of(lines, number):
    """The words of the line with this number."""
    if number > len(lines):
        raise Refusal(f'line {number} of the input: the text ends before its matrix does')
    return [word for word in lines[number - 1].split(' ') if word]


def integers(words, number, count):
    """Words of the line with this number, which have to be `count` integers within the limits."""
    if len(words) != count:
        raise Refusal(f'line {number} of the input: integers needed: {count}, found: {len(words)}')
    for word in words:
        if not INTEGER.fullmatch(word):
            raise Refusal(f'line {number} of the input: {quoted(word)} is no integer')
        if abs(int(word)) > LARGEST_ENTRY:
            raise Refusal(f'line {number} of the input: {word} is out of range')
    return list(map(int, words))


def input_text(matrix, generators):
    """The input text of a matrix, given by its rows, and of the lines of generators."""
    lines = ['gitfan 1', f'grading {len(matrix)} {len(matrix[0])}']
    lines += [' '.join(map(str, row)) for row in matrix]
    lines += [f'ideal {len(generators)}', *generators, 'end']
    return '\n'.join(lines) + '\n'
