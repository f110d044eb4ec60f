"""What the programs of two linked sessions have in common: their lines, and the delivery of all that waits."""
from .fields import Malformed
from .lines import event_of
from .linked import Linked
from .printing import row
from .running import BAD_WORDS, bad_line, lines_of, outcome_of
from .settings import Settings


class TwoSided:
    """A program that keeps something on each of two linked sessions.

    DECLARED are the lines that each side declares before the first line, READERS those of the fields of each line, by its word."""
    DECLARED = ()
    READERS = {}

    def __init__(self, out):
        self.linked = Linked(Settings())
        self.out = out
        for side in 'ab':
            for line in self.DECLARED:
                self.linked.take(side, event_of(line))

    @classmethod
    def run(cls, words, data):
        """The outcome of the program with these words over this input."""
        return BAD_WORDS if words else outcome_of(lambda out: cls(out).take_all(data))

    @classmethod
    def read(cls, line):
        """The side, the word and the values of a line; of a delivery `ab` or `ba` alone. None where it is none."""
        try:
            texts = line.decode('utf-8').split('\t')
        except UnicodeDecodeError:
            return None
        if texts in (['ab'], ['ba']):
            return texts
        readers = cls.READERS.get(texts[1]) if len(texts) > 1 else None
        if readers is None or texts[0] not in ('a', 'b') or len(texts) != 2 + len(readers):
            return None
        try:
            return texts[:2] + [read(text) for read, text in zip(readers, texts[2:])]
        except Malformed:
            return None

    def take_all(self, data):
        """Takes all lines of an input."""
        for number, line in lines_of(data):
            said = self.read(line)
            if said is None:
                raise bad_line(number)
            if len(said) == 1:
                self.deliver(number, said[0][0])
            else:
                side, word, *values = said
                getattr(self, 'do_' + word)(number, side, *values)

    def deliver(self, number, side):
        """Delivers all messages of a side that wait now."""
        count = len(self.linked.waiting[side])
        self.out(row(number, 'ok', count))
        for _ in range(count):
            other, turn = self.linked.deliver(side)
            if turn is not None:
                self.follow(number, other, turn)

    def refuse(self, number, cause):
        self.out(row(number, 'refused', cause))

    def follow(self, number, side, turn):
        """Does what a turn of a side brings."""
        raise NotImplementedError
