"""Programs against the model: runs of both over the same scripts, compared byte by byte."""
import subprocess
import tempfile

from .programs import PROGRAMS
from .running import Outcome
from .scripts import MODES, make

SECONDS = 60


def run_program(program, words, data):
    """The outcome of a program; its status is None where it doesn't end."""
    with tempfile.TemporaryFile() as script:
        script.write(data)
        script.seek(0)
        try:
            ran = subprocess.run([program] + words, stdin=script, stdout=subprocess.PIPE, stderr=subprocess.PIPE, timeout=SECONDS)
        except subprocess.TimeoutExpired:
            return Outcome(None, b'', b'')
    return Outcome(ran.returncode, ran.stdout, ran.stderr)


def prints_all(mode, status):
    """Whether a run with that status has to print all that its lines say.

    How much goes out before a stop is left open where the reads are too many, and where a recording stops at a line."""
    return status != 5 and (mode != 'record' or status not in (3, 4))


def agree(mode, printed, wanted):
    """Whether a program did what the model says."""
    if (printed.status, printed.complaint) != (wanted.status, wanted.complaint):
        return False
    return printed.output == wanted.output or not prints_all(mode, wanted.status) and wanted.output.startswith(printed.output)


def first_difference(printed, wanted):
    """Lines that show where two outcomes differ first."""
    for name in ('output', 'status', 'complaint'):
        one, other = getattr(printed, name), getattr(wanted, name)
        if name != 'output' and one != other:
            return ['  %s: the program %r, the model %r' % (name, one, other)]
        if name == 'output' and one != other:
            lines, wanted_lines = one.split(b'\n') + [None], other.split(b'\n') + [None]
            place = next(at for at, pair in enumerate(zip(lines, wanted_lines)) if pair[0] != pair[1])
            shown = [b'nothing' if line is None else line for line in (lines[place], wanted_lines[place])]
            return ['  line %d of the output' % (place + 1)] + [
                '    the %s  %s' % (who, line.decode('utf-8', 'backslashreplace')) for who, line in zip(('program', 'model  '), shown)]
    return []


def compare(program, mode, seed, count=None):
    """Runs the script of a mode and a seed: how many lines it has, how many the model prints, and lines that tell of a difference."""
    words, data = make(mode, seed, count)
    wanted = PROGRAMS[MODES[mode]](words, data)
    printed = run_program(program, words, data)
    told = [] if agree(mode, printed, wanted) else ['%s: seed %d differs, words %s' % (mode, seed, words)] + first_difference(printed, wanted)
    return data.count(b'\n'), wanted.output.count(b'\n'), told
