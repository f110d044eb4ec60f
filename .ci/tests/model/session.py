"""A session: a state machine that takes one event at a time and answers a turn."""
from collections import namedtuple

from .declaring import Declaring
from .hearing import Hearing
from .state import Refused

END_ORDER = ('queryable', 'sub', 'lsub', 'get', 'lget', 'listener')
REFUSED_WHEN_CLOSED = {'key', 'undeclare key', 'sub', 'pub', 'queryable', 'querier', 'token', 'lsub', 'put', 'delete', 'pput', 'pdel', 'get',
                       'qget', 'lget', 'listen', 'status', 'ctoken', 'share'}


class Turn(namedtuple('Turn', 'answer effects')):
    """The parts of the answer (`ok` with or without a number, `refused` with the cause, ..) and those of each effect."""

    @property
    def accepted(self):
        return self.answer[0] != 'refused'

    @property
    def number(self):
        """The number that was drawn, or None."""
        return self.answer[1] if self.answer[0] == 'ok' and len(self.answer) > 1 else None

    @property
    def sent(self):
        """The messages that are sent, in order."""
        return [effect[1] for effect in self.effects if effect[0] == 'send']


class Channel:
    """What a subscriber or a get is handed, to be received: a fifo, or a ring that keeps the last ones."""

    def __init__(self, kind, size):
        self.kind, self.size = kind, size
        self.items = []
        self.ended = False

    def put(self, item):
        self.items.append(item)
        if self.kind == 'ring':
            del self.items[:-self.size]

    def receive(self):
        """The parts of what a `recv` is answered."""
        if self.kind == 'ring' and self.ended:
            return ('deleted',)
        if self.items:
            return 'item', self.items.pop(0)
        return ('disconnected',) if self.ended else ('empty',)


class Session(Declaring, Hearing):
    """A client session, with the channels that its subscribers and gets were declared with."""

    def __init__(self, settings):
        super().__init__(settings)
        self.channels = {}      # (kind, number) -> Channel

    def step(self, event):
        """The turn of an event, also of a `recv`."""
        if event['name'] == 'recv':
            return Turn(self.receive(event['kind'], event['n']), [])
        if self.closed:
            return Turn(self.answer_closed(event['name']), [])
        self.begin()
        try:
            number = getattr(self, 'do_' + event['name'].replace(' ', '_'))(event)
        except Refused as refusal:
            return Turn(('refused', *refusal.args), [])
        self.ends.sort(key=lambda end: (END_ORDER.index(end[1]), end[2]))
        effects = self.sends + self.hands + self.ends + self.heard()
        turn = Turn(('ok',) if number is None else ('ok', number), effects)
        self.feed(event, turn)
        return turn

    @staticmethod
    def answer_closed(name):
        """What an event is answered behind the close."""
        if name in REFUSED_WHEN_CLOSED:
            return 'refused', 'SessionClosedError'
        return ('refused', 'Ignored') if name.startswith('net ') else ('ok',)

    def heard(self):
        """What listeners hear: each change of whether anyone matches."""
        heard = []
        for number, row in sorted(self.rows['listener'].items()):
            matched = self.matches(row['parent'], row['of'])
            if matched != row['matched']:
                row['matched'] = matched
                heard.append(('match', number, matched))
        return heard

    def feed(self, event, turn):
        """Makes the channel of an event that names one, and puts what was handed out into the channels."""
        if event.get('to') is not None:
            kind = 'get' if event['name'] == 'qget' else event['name']
            self.channels[kind, turn.number] = Channel(*event['to'])
        for effect in turn.effects:
            channel = self.channels.get(effect[1:3]) if effect[0] in ('hand', 'reply', 'end') else None
            if channel is None:
                continue
            if effect[0] == 'end':
                channel.ended = True
            else:
                channel.put(effect[3])

    def receive(self, kind, number):
        """The parts of what a `recv` is answered."""
        if (kind, number) in self.channels:
            return self.channels[kind, number].receive()
        return ('ok',) if self.closed else ('refused', 'NotFound')
