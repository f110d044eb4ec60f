"""Gets, the queries that they are to queryables, their replies and their ends."""
from dataclasses import dataclass, field

from .fields import MAX64
from .keyexpr import intersects
from .parameters import has, trimmed, with_name
from .state import ORIGINS, Refused, State, pick, sample_of

QUERY = 'params payload enc prio cc express src att'
TIMED_OUT = {'kind': 'err', 'payload': b'Timeout', 'enc': 'zenoh/string', 'by': None}


@dataclass
class Get:
    """An open get."""
    key: str
    any_key: bool               # whether replies on keys are taken that don't meet its own
    consolidation: str
    finals: set                 # whose final it waits for: this session's, the network's
    deadline: int
    querier: int
    token: int
    kept: dict = field(default_factory=dict)    # key -> the newest reply, in the order of the first ones
    last: dict = field(default_factory=dict)    # key -> the timestamp of the last reply that was handed out


def is_older(one, other):
    """Whether a timestamp is below the other; none is below each."""
    return other is not None and (one is None or one < other)


class Asking(State):
    """Takes the events of gets and queries. Every refusal comes before the first change."""

    def check_token(self, token):
        """Refuses a cancellation token that was not made."""
        if token is not None and token >= self.next['ctoken']:
            raise Refused('NotFound')

    def check_cancelled(self, token):
        if token in self.cancelled:
            raise Refused('QueryCancelled')

    def do_ctoken(self, _):
        return self.draw('ctoken')

    def do_cancel(self, event):
        token = event['token']
        self.check_token(token)
        self.cancelled.add(token)
        for number in [number for number, get in self.gets.items() if get.token == token]:
            del self.gets[number]
            self.end('get', number)
        for number in [number for number, row in self.lgets.items() if row['token'] == token]:
            del self.lgets[number]
            self.end('lget', number)

    def do_get(self, event):
        self.check_token(event['token'])
        key, params = event['selector']
        return self.ask({**event, 'key': self.key_of(key), 'params': params}, None)

    def do_qget(self, event):
        row = self.named('querier', event['n'])
        self.check_token(event['token'])
        return self.ask({**row, **event}, event['n'])

    def met(self, local, key, target):
        """The queryables that are handed a query."""
        return [number for number, row in sorted(self.rows['queryable'].items())
                if row['locality'] in ORIGINS[local] and intersects(row['key'].text, key)
                and (target != 'allcomplete' or row['complete'])]

    def ask(self, asked, querier):
        """Opens a get, by itself or of a querier."""
        self.check_cancelled(asked['token'])
        key, locality = asked['key'], asked['locality']
        met = self.met(True, key.text, asked['target']) if locality != 'remote' else []
        self.need('query', 1)
        self.need('value', len(met))
        number = self.draw('query')
        params = trimmed(asked['params'])
        if asked['accept']:
            params = with_name(params, '_anyke')
        consolidation = asked['cons']
        if consolidation == 'auto':
            consolidation = 'none' if has(params, '_time') else 'latest'
        timeout = self.settings.timeout if asked['timeout'] is None else asked['timeout']
        finals = {'any': {'own', 'network'}, 'local': {'own'}, 'remote': {'network'}}[locality]
        self.gets[number] = Get(key.text, has(params, '_anyke'), consolidation, finals, self.deadline(timeout), querier,
                                asked['token'])
        query = {**pick(asked, QUERY), 'params': params}
        if locality != 'local':
            self.send('request', n=number, wire=self.wire_of(key), target=asked['target'], cons=consolidation, timeout=timeout,
                      **query)
        if met:
            self.hand_query(met, {**query, 'local': True, 'n': number, 'key': key.text, 'left': 0})
        else:
            self.take_final(number, 'own')
        return number

    def deadline(self, timeout):
        return min(MAX64, self.now + timeout)

    def hand_query(self, met, request):
        """Hands a query to queryables, to each under a number of its own."""
        for queryable in met:
            number = self.draw('value')
            self.queries[number] = request, queryable
            request['left'] += 1
            self.hands.append(('hand', 'queryable', queryable, number, request))

    def do_lget(self, event):
        self.check_token(event['token'])
        key = self.key_of(event['key'])
        self.check_cancelled(event['token'])
        number = self.draw('entity')
        timeout = self.settings.timeout if event['timeout'] is None else event['timeout']
        self.lgets[number] = {'key': key.text, 'deadline': self.deadline(timeout), 'token': event['token']}
        self.send('interest', n=number, mode='current', what='tokens', wire=self.wire_of(key))
        return number

    def query(self, number):
        """The request and the queryable of a query that is still to be given back."""
        if number not in self.queries:
            raise Refused('NotFound')
        return self.queries[number]

    def hand_reply(self, kind, number, item):
        self.hands.append(('reply', kind, number, item))

    def take_reply(self, number, reply):
        """Hands out or keeps a value for a get, by its consolidation."""
        get, key = self.gets[number], reply['key']
        if get.consolidation == 'latest':
            if key not in get.kept or not is_older(reply['ts'], get.kept[key]['ts']):
                get.kept[key] = reply
        elif get.consolidation == 'none':
            self.hand_reply('get', number, reply)
        elif not is_older(reply['ts'], get.last.get(key)):
            get.last[key] = reply['ts']
            self.hand_reply('get', number, reply)

    def end_get(self, number):
        """Ends a get, and hands out what it keeps."""
        for reply in self.gets.pop(number).kept.values():
            self.hand_reply('get', number, reply)
        self.end('get', number)

    def take_final(self, number, side):
        """Counts the final of this session or of the network for a get."""
        get = self.gets.get(number)
        if get is not None and side in get.finals:
            get.finals.remove(side)
            if not get.finals:
                self.end_get(number)

    def do_reply(self, event):
        request, queryable = self.query(event['query'])
        key = self.key_of(event['key'])
        if not intersects(key.text, request['key']) and not has(request['params'], '_anyke'):
            raise Refused('ReplyDisjoint')
        kind = 'put' if event['name'] == 'reply' else 'del'
        qualities = {name: request[name] if event[name] is None else event[name] for name in ('prio', 'cc', 'express')}
        reply = {**pick(event, 'payload enc ts src att'), **qualities, 'by': (self.settings.zid, queryable)}
        if not request['local']:
            self.send('response ' + kind, n=request['n'], wire=self.wire_of(key), **reply)
        elif request['n'] in self.gets:
            self.take_reply(request['n'], {**sample_of(kind, key.text, reply), 'by': reply['by']})

    do_replydel = do_reply

    def do_replyerr(self, event):
        request, queryable = self.query(event['query'])
        error = {**pick(event, 'payload enc'), 'by': (self.settings.zid, queryable)}
        if not request['local']:
            self.send('response err', n=request['n'], wire=('s', 0, request['key']), **error, **pick(request, 'prio cc express'))
        elif request['n'] in self.gets:
            self.hand_reply('get', request['n'], {'kind': 'err', **error})

    def do_share(self, event):
        request, queryable = self.query(event['query'])
        number = self.draw('value')
        self.queries[number] = request, queryable
        request['left'] += 1
        return number

    def do_finish(self, event):
        request, _ = self.query(event['query'])
        del self.queries[event['query']]
        request['left'] -= 1
        if request['left']:
            return
        if request['local']:
            self.take_final(request['n'], 'own')
        else:
            self.send('responsefinal', n=request['n'])

    def do_tick(self, event):
        if event['moment'] < self.now:
            return
        self.now = event['moment']
        for number, get in sorted(self.gets.items()):
            if get.deadline <= self.now:
                self.end_get(number)
                self.hand_reply('get', number, TIMED_OUT)
        for number, row in sorted(self.lgets.items()):
            if row['deadline'] <= self.now:
                del self.lgets[number]
                self.hand_reply('lget', number, TIMED_OUT)
                self.end('lget', number)
