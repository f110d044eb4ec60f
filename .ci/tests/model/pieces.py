"""Random fields of a line, most of them such that they go with the state of the session that is to take it."""
from .fields import MAX16, MAX32, MAX64
from .keyexpr import intersects
from .material import BAD_KEYS, BAD_SUFFIXES, CHANNELS, ENCODINGS, KEYS, PARAMETERS, PAYLOADS, SUFFIXES, USUAL_KEYS, WIDEST
from .state import KINDS

DRAWN_AS = {'listen': 'listener', 'qget': 'get', 'share': 'query', **{kind: kind for kind in KINDS + ('get', 'lget')}}


class Followed:
    """A session that takes the lines as they are made, and all numbers that it drew."""

    def __init__(self, session):
        self.session = session
        self.drawn = {kind: [] for kind in KINDS + ('get', 'lget', 'query')}

    def note(self, event, turn):
        """Notes what an event drew."""
        kind = DRAWN_AS.get(event['name'])
        if kind is not None and turn.number is not None:
            self.drawn[kind].append(turn.number)
        self.drawn['query'] += [effect[3] for effect in turn.effects if effect[:2] == ('hand', 'queryable')]

    def live(self, kind):
        """The numbers of a kind that an event can name."""
        session = self.session
        if kind in KINDS:
            return [number for number, row in session.rows[kind].items() if not row['background']]
        return list({'get': session.gets, 'lget': session.lgets, 'query': session.queries}[kind])

    def ended(self, kind):
        """The numbers of a kind that were drawn and that no event can name now."""
        live = set(self.live(kind))
        return [number for number in self.drawn[kind] if number not in live]

    def live_tokens(self):
        return [token for token in range(self.session.next['ctoken']) if token not in self.session.cancelled]

    def key_of(self, kind):
        """The text of a key of each live entity of a kind."""
        return [row['key'].text for row in self.session.rows[kind].values()]


class Pieces:
    """A source of random fields."""

    def __init__(self, chance, about, linked):
        self.chance, self.about, self.linked = chance, about, linked
        self.hot = chance.sample(KEYS, chance.choice([3, 4, 6, 9, 15]))
        if chance.random() < 0.7:
            self.hot += chance.sample(USUAL_KEYS, 3)
        self.bad = chance.choice([0.01, 0.02, 0.05])            # how often a key is none
        self.by_number = chance.choice([0.1, 0.25, 0.5])        # how often a key is named by its number
        self.density = chance.choice([0.05, 0.15, 0.3, 0.6, 0.95])
        self.side = None                                        # the Followed session of the next line

    def often(self, likelihood):
        return self.chance.random() < likelihood

    def number(self, live, ended=(), following=9):
        """A number, most likely of a live one, sometimes of one that ended or that there never was."""
        live, ended = list(live), list(ended)
        draw = self.chance.random()
        if live and draw < 0.93:
            return self.chance.choice(live) if self.often(0.6) else live[-1] if self.often(0.7) else live[0]
        if ended and draw < 0.98:
            return self.chance.choice(ended)
        return self.chance.choice([0, 1, 2, 3, 4, 5, 99, MAX32, min(following, MAX32)])

    def entity(self, kind):
        """A number of an entity, rarely of one of another kind."""
        others = [number for other in KINDS if other != kind for number in self.side.live(other)]
        return str(self.number(self.side.live(kind), self.side.ended(kind) + others[:2], self.side.session.next['entity']))

    def query(self):
        """The number of a query that was handed out."""
        return str(self.number(self.side.live('query'), self.side.ended('query')[-5:], self.side.session.next['value']))

    def token(self):
        return str(self.number(self.side.live_tokens(), self.side.session.cancelled, self.side.session.next['ctoken']))

    def text(self):
        """A key expression, rarely a bad one."""
        if self.often(self.bad):
            return self.chance.choice(BAD_KEYS)
        return self.chance.choice(self.hot if self.often(0.75) else KEYS)

    def text_near(self, near):
        """A key expression, most likely one that meets another."""
        if near is None or self.often(0.25):
            return self.text()
        keys = self.hot if self.often(0.5) else self.hot + KEYS
        return self.chance.choice([key for key in keys if intersects(key, near)] + [near])

    def suffix(self):
        if self.often(self.bad):
            return self.chance.choice(BAD_SUFFIXES)
        return '' if self.often(0.45) else self.chance.choice(SUFFIXES)

    def key(self, near=None):
        """A key argument."""
        held = list(self.side.session.keys)
        if self.often(self.by_number) and (held or self.often(0.1)):
            following = min(self.side.session.next['key'], MAX16)
            number = self.chance.choice(held if held and self.often(0.93) else [0, 1, 2, 3, MAX16, following])
            return '#%d' % number if self.often(0.4) else '#%d:%s' % (number, self.suffix())
        return self.text_near(near)

    def wire(self, near=None):
        """A wire expression."""
        told, held = list(self.side.session.told_keys), list(self.side.session.keys)
        draw = self.chance.random()
        if draw < 0.35 and told:
            return 's%d:%s' % (self.chance.choice(told), self.suffix())
        if 0.35 < draw < 0.5 and held:
            return 'r%d:%s' % (self.chance.choice(held), self.suffix())
        if 0.5 < draw < 0.5 + self.bad:
            return '%s%d:%s' % (self.chance.choice('sr'), self.chance.choice([1, 2, 3, 4, 5, MAX16]), self.suffix())
        return '%s0:%s' % (self.chance.choice('sssr'), self.text_near(near))

    def key_of(self, kind):
        """The text of a live entity's key, about half the time."""
        keys = self.side.key_of(kind)
        return self.chance.choice(keys) if keys and self.often(0.5) else None

    def locality(self):
        return self.chance.choice(['any', 'any', 'any', 'local', 'remote'])

    def payload(self):
        return self.chance.choice(PAYLOADS)

    def session_and_entity(self):
        return '%s:%d' % (self.chance.choice(['1', '7', 'A', '0', 'ff', WIDEST, '10']), self.chance.choice([0, 1, 3, MAX32]))

    def timestamp(self):
        if self.often(0.92):
            return '%d:%s' % (self.chance.randrange(4), self.chance.choice(['1', '2', '3', 'a', 'A', '0']))
        return '%d:%s' % (self.chance.choice([0, MAX64, MAX64 - 1, 10 ** 12]), self.chance.choice(['0', WIDEST, 'aBcDef0123456789', '10']))

    def channel(self):
        """A channel, or none; two linked sessions have none but `print`."""
        if self.linked:
            return 'print' if self.often(0.1) else None
        return self.chance.choice(CHANNELS) if self.often(0.65 if self.about == 'channels' else 0.2) else None

    def options(self, names, network=False, density=None):
        """Options of these names, in order, each there or not."""
        texts = []
        for name in names.split():
            if self.often(self.likelihood(name) if density is None else density):
                value = self.option(name, network)
                if value is not None:
                    texts.append('%s=%s' % (name, value))
        return texts

    def likelihood(self, name):
        """How often an option is there."""
        about = self.about
        least = {'ts': 0.75 if about == 'consolidation' else 0, 'cons': 0.7, 'accept': 0.15, 'timeout': 0.8 if about == 'time' else 0.15,
                 'target': 0.3}
        fixed = {'token': 0.75 if about == 'cancelling' else 0.08, 'to': 1}
        return fixed.get(name, max(self.density * (0.5 if name == 'accept' else 1), least.get(name, 0)))

    def option(self, name, network):
        """A value of an option, or None."""
        choice = self.chance.choice
        if name == 'token':
            return self.token() if self.side.live_tokens() or self.often(0.2) else None
        if name == 'interest':
            return self.interest()
        if name == 'cons':
            return choice(['auto', 'none'] + ['monotonic', 'latest'] * (2 if self.about == 'consolidation' else 1))
        plain = {'enc': ENCODINGS, 'prio': '01234567' if network else '1234567', 'cc': ['drop', 'block'], 'express': '01', 'rel': '01',
                 'target': ['best', 'all', 'allcomplete', 'allcomplete'], 'timeout': [0, 1, 2, 3, 5, 10, 20, 50, 10000, MAX64 - 1, MAX64],
                 'accept': ['any'], 'params': PARAMETERS}
        if name in plain:
            return choice(plain[name])
        made = {'ts': self.timestamp, 'att': self.payload, 'payload': self.payload, 'by': self.session_and_entity, 'to': self.channel,
                'src': lambda: '%s:%d' % (self.session_and_entity(), choice([0, 1, 9, MAX32]))}
        return made[name]()

    def interest(self):
        """The number of an interest, most likely of a liveliness get."""
        kind = 'lget' if self.often(0.85 if self.about == 'channels' else 0.6) else 'lsub'
        return str(self.number(self.side.live(kind), self.side.ended(kind), 3))
