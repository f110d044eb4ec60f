"""The program zs_group: who is in a group, by the liveliness tokens of two linked sessions."""
from collections import Counter, defaultdict, deque

from .fields import split
from .printing import row
from .two_sided import TwoSided

NAME = '[a-z0-9]{1,64}'


def member(text):
    """The name of a member."""
    split(text, NAME)
    return text


class Group(TwoSided):
    """The tokens that each side holds, and what it was told of the other's."""
    DECLARED = (b'lsub\thistory\tgroup/*',)
    READERS = {'join': (member,), 'leave': (member,), 'view': ()}

    def __init__(self, out):
        super().__init__(out)
        self.held = {'a': defaultdict(deque), 'b': defaultdict(deque)}  # name -> numbers of tokens, the oldest first
        self.told = {'a': Counter(), 'b': Counter()}                    # name -> how many tokens of the other side

    def follow(self, number, side, turn):
        """Counts the tokens of the other side that come and go."""
        for effect in turn.effects:
            if effect[:2] == ('hand', 'lsub'):
                name = effect[3]['key'].partition('/')[2]
                if effect[3]['kind'] == 'put':
                    self.told[side][name] += 1
                else:
                    self.told[side][name] -= 1

    def do_join(self, number, side, name):
        turn = self.linked.take(side, {'name': 'token', 'key': (None, 'group/' + name)})
        self.held[side][name].append(turn.number)
        self.out(row(number, 'ok'))

    def do_leave(self, number, side, name):
        if not self.held[side][name]:
            self.refuse(number, 'NotMember')
            return
        self.linked.take(side, {'name': 'undeclare', 'kind': 'token', 'n': self.held[side][name].popleft()})
        self.out(row(number, 'ok'))

    def do_view(self, number, side):
        self.out(row(number, 'ok'))
        seen = Counter({name: len(numbers) for name, numbers in self.held[side].items()}) + self.told[side]
        for name in sorted(seen):
            self.out(row(number, side, 'sees', name, seen[name]))
