"""How a program reads lines, and why it stops."""
from collections import namedtuple

READ = 65536    # how many bytes one read gives

# The status, standard output and standard error of a run.
Outcome = namedtuple('Outcome', 'status output complaint')
BAD_WORDS = Outcome(2, b'', b'bad words\n')


class Stop(Exception):
    """A run that stops: its status, and the complaint."""


def bad_line(number):
    return Stop(3, 'BadLine %d' % number)


def too_long(number):
    return Stop(4, 'LineTooLong %d' % number)


def lines_of(data, longest=65536, turns=2 ** 32):
    """The lines of an input with their numbers. Raises Stop where one is too long, or where it takes more reads than turns."""
    rest, number = b'', 0
    for turn, start in enumerate(range(0, len(data) + READ, READ)):
        if turn == turns:
            raise Stop(5, 'OutOfTurns')
        *whole, rest = (rest + data[start:start + READ]).split(b'\n')
        for line in whole:
            number += 1
            if len(line) > longest:
                raise too_long(number)
            yield number, line
        if len(rest) > longest:
            raise too_long(number + 1)
    if rest:
        yield number + 1, rest


def outcome_of(run):
    """The outcome of a run, which is given a function to print with, and may return a status."""
    printed = []
    try:
        status, complaint = run(printed.append) or 0, b''
    except Stop as stop:
        status, complaint = stop.args[0], stop.args[1].encode() + b'\n'
    return Outcome(status, b''.join(printed), complaint)
