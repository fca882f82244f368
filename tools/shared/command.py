"""How a tool takes its words, reads its texts, and refuses: one line on standard error, and status 2."""

import argparse
import sys


class Refusal(Exception):
    """Why a tool writes nothing, as one line."""


class Words(argparse.ArgumentParser):
    """The words of a tool. The description is printed by --help as it stands."""

    def __init__(self, tool, description):
        super().__init__(prog=f'tools/{tool}', description=description, allow_abbrev=False,
                         formatter_class=argparse.RawDescriptionHelpFormatter)

    def error(self, message):
        raise Refusal(message)


def words_for_listing(tool, description):
    """The words of a tool that reads a listing."""
    words = Words(tool, description)
    words.add_argument('listing', nargs='?', metavar='LISTING',
                       help='a listing, as `gitfan fan` writes it; standard input where it is left out')
    return words


def read_text(name):
    """The text of the file `name`, or of standard input where there is no name. A character stands for a byte."""
    try:
        with open(0 if name is None else name, 'rb', closefd=name is not None) as file:
            return file.read().decode('latin-1')
    except OSError as fault:
        source = 'standard input' if name is None else quoted(name)
        raise Refusal(f'{source} cannot be read: {fault.strerror}') from fault


def quoted(text):
    """A piece of a text, between quotes, on one line and not long."""
    return ascii(text if len(text) <= 40 else text[:37] + '...')


def run(tool, work):
    """Writes the text that `work` makes of the words, and ends with status 0; where it refuses, with status 2."""
    try:
        text = work(sys.argv[1:])
    except Refusal as refusal:
        refuse(tool, str(refusal))
    try:
        with open(1, 'wb', closefd=False) as output:
            output.write(text.encode('ascii'))
    except OSError as fault:
        refuse(tool, f'standard output cannot be written: {fault.strerror}')


def refuse(tool, reason):
    """Ends with a reason on one line and status 2."""
    sys.stderr.write(f'{tool}: ' + reason.replace('\n', ' ') + '\n')
    sys.exit(2)
