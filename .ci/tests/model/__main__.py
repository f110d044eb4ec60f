"""The model by hand, in the folder .ci/tests:

    python3 -B -m model run PROGRAM [WORD].. < SCRIPT     what the model says that PROGRAM prints
    python3 -B -m model script MODE SEED [LINES]          the script of a mode and a seed; its words go to standard error"""
import shlex
import sys

from .programs import PROGRAMS
from .scripts import MODES, make


def main(words):
    if len(words) > 1 and words[0] == 'run' and words[1] in PROGRAMS:
        status, output, complaint = PROGRAMS[words[1]](words[2:], sys.stdin.buffer.read())
        sys.stdout.buffer.write(output)
        sys.stderr.buffer.write(complaint)
        return status
    if len(words) in (3, 4) and words[0] == 'script' and words[1] in MODES:
        given, data = make(words[1], *map(int, words[2:]))
        sys.stdout.buffer.write(data)
        sys.stderr.write(MODES[words[1]] + ' ' + shlex.join(given) + '\n')
        return 0
    sys.stderr.write(__doc__ + '\n')
    return 2


if __name__ == '__main__':
    sys.exit(main(sys.argv[1:]))
