"""Two linked sessions: what one sends waits until it is delivered to the other."""
from collections import deque
from dataclasses import replace

from .session import Session


class Linked:
    """The sessions `a` and `b`, and the messages of each that wait."""

    def __init__(self, settings):
        self.sessions = {'a': Session(settings), 'b': Session(replace(settings, zid=2, tag=2))}
        self.waiting = {'a': deque(), 'b': deque()}

    def take(self, side, event):
        """The turn of an event of one side."""
        turn = self.sessions[side].step(event)
        self.waiting[side].extend(turn.sent)
        return turn

    def deliver(self, side):
        """Delivers the first message of a side: the other side with its turn, or with None where the message is dropped."""
        message = self.waiting[side].popleft()
        other = 'b' if side == 'a' else 'a'
        return other, None if message['name'] == 'net interest' else self.take(other, message)
