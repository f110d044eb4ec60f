"""The program zs_replica: a replicated store, in which the newest entry of each key stands."""
from .fields import DEFAULT_ENCODING, payload, show_payload, show_timestamp, timestamp
from .keyexpr import canonical, includes, intersects
from .printing import row
from .two_sided import TwoSided

UNTOLD = {'enc': DEFAULT_ENCODING, 'ts': None, 'src': None, 'att': None}
PUBLISHED = {**UNTOLD, 'locality': 'any', 'prio': 5, 'cc': 'drop', 'express': 0, 'rel': 1}
ASKED = {'name': 'get', 'locality': 'any', 'target': 'best', 'cons': 'latest', 'timeout': None, 'payload': None, 'enc': None, 'prio': 5,
         'cc': 'block', 'express': 0, 'src': None, 'att': None, 'accept': None, 'token': None, 'to': None}
ANSWERED = {**UNTOLD, 'prio': None, 'cc': None, 'express': None}


def rank(entry):
    """How new an entry is: by its timestamp, then a deletion before a put, then by the bytes."""
    kind, content, moment = entry
    return moment, kind == 'del', content


def show_entry(entry):
    kind, content, moment = entry
    return [kind] + ([show_payload(content)] if kind == 'put' else []) + [show_timestamp(moment)]


def refusal_of_written(key):
    """Why an entry may not be written at a key, or None."""
    if not canonical(key):
        return 'BadKeyExpr'
    if '*' in key:
        return 'WildKey'
    return None if includes('r/**', key) else 'Outside'


class Replica(TwoSided):
    """A store on each side, filled by a subscriber and shown to the other side by a queryable."""
    DECLARED = (b'sub\tany\tr/**', b'queryable\tany\tcomplete\tr/**')
    READERS = {'put': (str, payload, timestamp), 'del': (str, timestamp), 'get': (str,), 'dump': ()}

    def __init__(self, out):
        super().__init__(out)
        self.stores = {'a': {}, 'b': {}}    # of each side: key -> entry

    def matching(self, side, key):
        """The entries of a side whose keys another key meets, ascending by the bytes of the keys."""
        found = [(text, entry) for text, entry in self.stores[side].items() if intersects(text, key)]
        return sorted(found, key=lambda pair: pair[0].encode())

    def follow(self, number, side, turn):
        """Takes samples into the store, answers queries, and prints replies and ends of gets."""
        for effect in turn.effects:
            if effect[:2] == ('hand', 'sub'):
                self.merge(side, effect[3])
            elif effect[:2] == ('hand', 'queryable'):
                self.answer(number, side, *effect[3:])
            elif effect[0] == 'reply':
                reply = effect[3]
                shown = show_entry((reply['kind'], reply['payload'], reply['ts']))
                self.out(row(number, side, 'got', effect[2], reply['key'], *shown))
            elif effect[:2] == ('end', 'get'):
                self.out(row(number, side, 'end', effect[2]))

    def merge(self, side, sample):
        """Keeps a sample where it is newer than the entry at its key."""
        entry, store = (sample['kind'], sample['payload'], sample['ts']), self.stores[side]
        if sample['key'] not in store or rank(store[sample['key']]) < rank(entry):
            store[sample['key']] = entry

    def answer(self, number, side, query, request):
        """Answers a query with the entries that it meets, and gives it back."""
        for key, (kind, content, moment) in self.matching(side, request['key']):
            name = 'reply' if kind == 'put' else 'replydel'
            event = {**ANSWERED, 'name': name, 'query': query, 'key': (None, key), 'payload': content, 'ts': moment}
            self.follow(number, side, self.linked.take(side, event))
        self.follow(number, side, self.linked.take(side, {'name': 'finish', 'query': query}))

    def write(self, number, side, name, key, content, moment):
        """Publishes an entry."""
        refusal = refusal_of_written(key)
        if refusal is not None:
            self.refuse(number, refusal)
            return
        turn = self.linked.take(side, {**PUBLISHED, 'name': name, 'key': (None, key), 'payload': content, 'ts': moment})
        self.out(row(number, 'ok'))
        self.follow(number, side, turn)

    def do_put(self, number, side, key, content, moment):
        self.write(number, side, 'put', key, content, moment)

    def do_del(self, number, side, key, moment):
        self.write(number, side, 'delete', key, b'', moment)

    def do_get(self, number, side, key):
        turn = self.linked.take(side, {**ASKED, 'selector': ((None, key), '')})
        if turn.accepted:
            self.out(row(number, 'ok', turn.number))
            self.follow(number, side, turn)
        else:
            self.refuse(number, turn.answer[1])

    def do_dump(self, number, side):
        self.out(row(number, 'ok'))
        for key, entry in self.matching(side, '**'):
            self.out(row(number, side, 'has', key, *show_entry(entry)))
