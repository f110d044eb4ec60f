"""The state of a session, and what all of its events stand on: numbers, keys, wire expressions, matching, effects."""
from collections import namedtuple

from .fields import DEFAULT_ENCODING, MAX16, MAX32
from .keyexpr import canonical, includes, intersects

KINDS = ('sub', 'lsub', 'pub', 'queryable', 'querier', 'token', 'listener')

# The localities that take what comes from this session (True), or from the network.
ORIGINS = {True: ('any', 'local'), False: ('any', 'remote')}

# A key that an event names: its text, and of a declared one the number and the text that the number stood for.
Key = namedtuple('Key', 'text number declared')


class Refused(Exception):
    """An event that is refused, by the name of the cause."""


def pick(values, names):
    """The entries of a dict with these names, None where there is none."""
    return {name: values.get(name) for name in names.split()}


def sample_of(kind, key, source):
    """A value or a deletion at a key, with the qualities that an event or a message gives it."""
    sample = {'kind': kind, 'key': key, **pick(source, 'ts prio cc express src att'), 'rel': source.get('rel', 1)}
    sample['prio'] = sample['prio'] or 5
    plain = kind == 'del'
    return {**sample, 'payload': b'' if plain else source['payload'], 'enc': DEFAULT_ENCODING if plain else source['enc']}


def sample_of_token(kind, key):
    """What a liveliness subscriber or get is handed of a token on that key."""
    return sample_of(kind, key, {'payload': b'', 'enc': DEFAULT_ENCODING, 'prio': 5, 'cc': 'drop', 'express': 0})


class State:
    """The tables of a session, and the effects of the event that it takes."""

    def __init__(self, settings):
        self.settings = settings
        self.closed = False
        self.now = 0
        self.next = {'key': settings.key, 'query': settings.query, 'entity': settings.entity + 1, 'value': 0, 'ctoken': 0}
        self.keys = {}                              # own number -> [text, how often it is held]
        self.rows = {kind: {} for kind in KINDS}    # number -> the event that declared it, its key, whether it is in the background
        self.groups = {}                            # (kind, text) -> (number that the network knows, members)
        self.gets = {}                              # number -> Get
        self.lgets = {}                             # number -> its key, deadline and token
        self.queries = {}                           # number -> (request, queryable)
        self.cancelled = set()
        self.told_keys = {}                         # the network's number -> text
        self.told = {'sub': {}, 'queryable': {}, 'token': {}}   # the network's number -> text (and whether it is complete)
        self.begin()

    def begin(self):
        """Forgets the effects of the last event."""
        self.sends, self.hands, self.ends = [], [], []

    def send(self, name, **values):
        """Sends a message, which is the event `net NAME` to the session that receives it."""
        self.sends.append(('send', {'name': 'net ' + name, **values}))

    def end(self, kind, number):
        self.ends.append(('end', kind, number))

    def need(self, counter, count):
        """Refuses where a counter has fewer numbers left."""
        if count and count > (MAX16 if counter == 'key' else MAX32) - self.next[counter]:
            raise Refused('IdsExhausted')

    def draw(self, counter):
        """Draws the next number of a counter."""
        self.need(counter, 1)
        self.next[counter] += 1
        return self.next[counter] - 1

    def key_of(self, argument):
        """The key that an argument names."""
        number, text = argument
        declared = ''
        if number is not None:
            if number not in self.keys:
                raise Refused('NotFound')
            declared = self.keys[number][0]
        if not canonical(declared + text):
            raise Refused('BadKeyExpr')
        return Key(declared + text, number, declared)

    def wire_of(self, key):
        """The wire expression of a key: by its number while that stands for the same text."""
        if key.number in self.keys and self.keys[key.number][0] == key.declared:
            return 's', key.number, key.text[len(key.declared):]
        return 's', 0, key.text

    def text_of(self, wire):
        """The text of a wire expression that the network sent."""
        side, number, suffix = wire
        declared = ''
        if number:
            if number not in (self.told_keys if side == 's' else self.keys):
                raise Refused('UnknownScope')
            declared = self.told_keys[number] if side == 's' else self.keys[number][0]
        if not canonical(declared + suffix):
            raise Refused('BadKeyExpr')
        return declared + suffix

    def named(self, kind, number):
        """The row that an event names: a live one outside of the background."""
        row = self.rows[kind].get(number)
        if row is None or row['background']:
            raise Refused('NotFound')
        return row

    def shared_key(self, kind, key):
        """Under what text a key is declared to the network, and the wire expression of that."""
        aggregates = {'sub': self.settings.aggsub, 'pub': self.settings.aggpub, 'querier': []}[kind]
        for aggregate in aggregates:
            if includes(aggregate, key.text):
                return aggregate, ('s', 0, aggregate)
        return key.text, self.wire_of(key)

    def join(self, kind, key, number):
        """Has an entity join its group: the wire expression to declare where the group was empty, or None."""
        text, wire = self.shared_key(kind, key)
        known, members = self.groups.setdefault((kind, text), (number, set()))
        members.add(number)
        return wire if known == number else None

    def leave(self, kind, key, number):
        """Has an entity leave its group: the number to undeclare where none is left in it, or None."""
        text, _ = self.shared_key(kind, key)
        known, members = self.groups[kind, text]
        members.remove(number)
        if members:
            return None
        del self.groups[kind, text]
        return known

    def matches(self, kind, number):
        """Whether anyone matches a publisher or a querier."""
        row = self.rows[kind][number]
        whom, key = ('sub' if kind == 'pub' else 'queryable'), row['key'].text
        found = []
        if row['locality'] != 'remote':
            found += [(other['key'].text, other.get('complete')) for other in self.rows[whom].values()]
        if row['locality'] != 'local':
            found += self.told[whom].values()
        if row.get('target') == 'allcomplete':
            return any(complete and includes(text, key) for text, complete in found)
        return any(intersects(text, key) for text, _ in found)

    def hand_sample(self, local, sample):
        """Hands a sample to the subscribers that take its origin and that its key meets."""
        for number, row in sorted(self.rows['sub'].items()):
            if row['locality'] in ORIGINS[local] and intersects(row['key'].text, sample['key']):
                self.hands.append(('hand', 'sub', number, sample))
