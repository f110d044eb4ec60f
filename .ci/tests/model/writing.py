"""Random lines of a session's script."""
from .fields import MAX32, MAX64
from .material import BAD_LINES, LINES, NOT_UTF8, PARAMETERS, PROFILES
from .pieces import Pieces

NEEDED = {'pput': 'pub', 'pdel': 'pub', 'qget': 'querier', 'reply': 'query', 'replydel': 'query', 'replyerr': 'query', 'share': 'query',
          'finish': 'query', 'net_response': 'get', 'net_responsefinal': 'get'}
PUBLISHED = 'ts prio cc express rel src att'
REPLIED = 'ts prio cc express src att'
ASKED = 'target cons timeout payload enc prio cc express src att'


class Writer(Pieces):
    """A source of random lines, each as a list of fields."""

    def __init__(self, chance, about, linked):
        super().__init__(chance, about, linked)
        weights = dict.fromkeys(LINES, 1.2)
        weights.update(close=0.03, net_close=0.5)
        for line, weight in PROFILES[about].items():
            weights[line] += weight
        if self.often(0.3):
            for line, weight in PROFILES[chance.choice(list(PROFILES))].items():
                weights[line] += weight / 2
        if linked:
            for line in ('reply', 'replydel', 'replyerr', 'finish'):
                weights[line] = 2 * weights[line] + 3
        self.weights = weights

    def line(self, without=()):
        """A random line, but none whose word begins with one of these."""
        lines = [line for line in LINES if not line.startswith(tuple(without))]
        weights = [self.weights[line] for line in lines]
        for _ in range(6):
            line = self.chance.choices(lines, weights)[0]
            if self.is_usable(line) or self.often(0.03):
                return self.write(line)
        return self.write(self.chance.choice(['sub', 'key', 'put', 'get']))

    def is_usable(self, line):
        """Whether there is something that a line can name, or the session is closed."""
        session = self.side.session
        if session.closed:
            return True
        word, _, kind = line.partition('_')
        if word in ('undeclare', 'background'):
            return bool(session.keys if kind == 'key' else session.rows[kind])
        if line in NEEDED:
            return bool(self.side.live(NEEDED[line]))
        if line in ('listen', 'status'):
            return bool(session.rows['pub'] or session.rows['querier'])
        if line in ('net_unsub', 'net_unqueryable'):
            return bool(session.told[kind[2:]])
        return bool({'recv': session.channels, 'cancel': session.next['ctoken']}.get(line, True))

    def write(self, line):
        """The fields of a line by its word."""
        word, _, kind = line.partition('_')
        if word in ('undeclare', 'background') and kind != 'key':
            return [word, kind, self.entity(kind)]
        return getattr(self, 'write_' + line)()

    def write_key(self):
        return ['key', self.key()]

    def write_undeclare_key(self):
        held = list(self.side.session.keys)
        if not held or self.often(0.15):
            return ['undeclare', 'key', self.key()]
        suffix = '' if self.often(0.8) else ':' if self.often(0.5) else ':' + self.suffix()
        number = self.chance.choice(held) if self.often(0.96) else self.chance.randrange(self.side.session.next['key'])
        return ['undeclare', 'key', '#%d%s' % (number, suffix)]

    def write_sub(self):
        channel = self.channel()
        return ['sub', self.locality(), self.key()] + ([] if channel is None else [channel])

    def write_lsub(self):
        return ['lsub', self.chance.choice(['history', 'live']), self.key()]

    def write_pub(self):
        return ['pub', self.locality(), self.key()] + self.options('enc prio cc express rel')

    def write_queryable(self):
        return ['queryable', self.locality(), self.chance.choice(['complete', 'partial']), self.key()]

    def write_querier(self):
        return ['querier', self.locality(), self.key()] + self.options('target cons timeout prio cc express accept')

    def write_token(self):
        return ['token', self.key()]

    def parent(self):
        """A kind that has listeners, and a number of one of that kind."""
        rows = self.side.session.rows
        kind, other = self.chance.sample(['pub', 'querier'], 2)
        kind = kind if rows[kind] else other
        return [kind, self.entity(kind)]

    def write_listen(self):
        return ['listen'] + self.parent()

    def write_status(self):
        return ['status'] + self.parent()

    def write_put(self):
        return ['put', self.locality(), self.key(self.key_of('sub')), self.payload()] + self.options('enc ' + PUBLISHED)

    def write_delete(self):
        return ['delete', self.locality(), self.key(self.key_of('sub'))] + self.options(PUBLISHED)

    def write_pput(self):
        return ['pput', self.entity('pub'), self.payload()] + self.options('enc ts src att')

    def write_pdel(self):
        return ['pdel', self.entity('pub')] + self.options('ts src att')

    def write_ctoken(self):
        return ['ctoken']

    def write_cancel(self):
        return ['cancel', self.token()]

    def write_get(self):
        params = '?' + self.chance.choice(PARAMETERS) if self.often(0.35) else ''
        return ['get', self.locality(), self.key(self.key_of('queryable')) + params] + self.options(ASKED + ' accept token to')

    def write_qget(self):
        return ['qget', self.entity('querier')] + self.options('params payload enc src att token to')

    def write_lget(self):
        return ['lget', self.key()] + self.options('timeout token to')

    def query_and_key(self):
        """The number of a query, and a key that most likely meets its own."""
        query = self.query()
        request, _ = self.side.session.queries.get(int(query), ({}, None))
        return [query, self.key(request.get('key'))]

    def write_reply(self):
        return ['reply'] + self.query_and_key() + [self.payload()] + self.options('enc ' + REPLIED)

    def write_replydel(self):
        return ['replydel'] + self.query_and_key() + self.options(REPLIED)

    def write_replyerr(self):
        return ['replyerr', self.query(), self.payload()] + self.options('enc')

    def write_share(self):
        return ['share', self.query()]

    def write_finish(self):
        return ['finish', self.query()]

    def write_recv(self):
        channels = list(self.side.session.channels)
        if channels and self.often(0.9):
            kind, number = self.chance.choice(channels) if self.often(0.55) else channels[-1 if self.often(0.7) else 0]
        else:
            kind = self.chance.choice(['sub', 'get', 'lget'])
            number = self.number(self.side.live(kind), (), self.side.session.next['entity'])
        return ['recv', kind, str(number)]

    def write_tick(self):
        now, choice, draw = self.side.session.now, self.chance.choice, self.chance.random()
        if draw < 0.86:
            moment = now + choice([0, 1, 1, 2, 3, 5, 10])
        elif draw < 0.95:
            moment = now - choice([1, 2, 5])
        elif draw < 0.985:
            moment = now + choice([100, 9999, 10000, 10001])
        else:
            moment = choice([0, MAX64 - 1, MAX64])
        return ['tick', str(min(max(moment, 0), MAX64))]

    def write_close(self):
        return ['close']

    def write_net_keyexpr(self):
        number = 0 if self.often(0.04) else self.chance.choice([1, 2, 3, 4, 7, 65535])
        return ['net', 'keyexpr', str(number), self.wire()]

    def write_net_unkeyexpr(self):
        return ['net', 'unkeyexpr', self.chance.choice('01239')]

    def told_number(self):
        """A number under which the network declares something."""
        return str(self.chance.choice([0, 1, 2, 3, 4, 5, MAX32]))

    def write_net_sub(self):
        return ['net', 'sub', self.told_number(), self.wire()]

    def write_net_unsub(self):
        return ['net', 'unsub', str(self.number(self.side.session.told['sub'], [1, 2]))]

    def write_net_queryable(self):
        return ['net', 'queryable', self.told_number(), self.chance.choice(['complete', 'partial']), self.wire()]

    def write_net_unqueryable(self):
        return ['net', 'unqueryable', str(self.number(self.side.session.told['queryable'], [1, 2]))]

    def write_net_token(self):
        return ['net', 'token', self.told_number(), self.wire()] + self.options('interest', density=0.8 if self.about == 'channels' else 0.45)

    def write_net_untoken(self):
        number = self.number(self.side.session.told['token'], [1, 2, 6]) if self.often(0.65) else self.chance.choice([1, 2, 7, 8])
        wire = [] if self.often(0.4) else [self.wire() if self.often(0.85) else self.chance.choice(['s0:', 'r0:'])]
        return ['net', 'untoken', str(number)] + wire + self.options('interest', density=0.35)

    def write_net_declarefinal(self):
        return ['net', 'declarefinal'] + self.options('interest', density=0.93)

    def write_net_push(self):
        start = ['net', 'push', self.wire(self.key_of('sub'))]
        if self.often(0.65):
            return start + ['put', self.payload()] + self.options('enc ' + PUBLISHED, network=True)
        return start + ['del'] + self.options(PUBLISHED, network=True)

    def write_net_request(self):
        number = self.chance.choice([0, 1, 2, 3, 9, MAX32])
        return ['net', 'request', str(number), self.wire(self.key_of('queryable'))] + self.options('params ' + ASKED, network=True)

    def asked_number(self, ended):
        """The number of a get, rarely of one of these last ended ones. Where it is about consolidation few gets have many replies."""
        live = self.side.live('get')
        return self.number(live[:2] if self.about == 'consolidation' else live, self.side.ended('get')[-ended:], self.side.session.next['query'])

    def write_net_response(self):
        number, draw = self.asked_number(4), self.chance.random()
        get = self.side.session.gets.get(number)
        start = ['net', 'response', str(number), self.wire(get.key if get else None)]
        if draw < 0.65:
            return start + ['put', self.payload()] + self.options('enc ' + REPLIED + ' by', network=True)
        if draw < 0.85:
            return start + ['del'] + self.options(REPLIED + ' by', network=True)
        return start + ['err', self.payload()] + self.options('enc prio cc express by', network=True)

    def write_net_responsefinal(self):
        return ['net', 'responsefinal', str(self.asked_number(3))]

    def write_net_close(self):
        return ['net', 'close']

    def bad_line(self):
        """Bytes of a line that is most likely no event."""
        chance, draw = self.chance, self.chance.random()
        if draw < 0.62:
            return chance.choice(BAD_LINES).encode()
        texts = self.line()
        place = chance.randrange(len(texts))
        if draw < 0.70:
            line = '\t'.join(texts).encode()
            cut = chance.randrange(len(line) + 1)
            return line[:cut] + chance.choice(NOT_UTF8) + line[cut:]
        if draw < 0.78:
            texts.insert(place, '')
        elif draw < 0.84:
            del texts[place]
        elif draw < 0.90:
            texts.insert(0, texts.pop())
        elif draw < 0.95:
            texts.insert(place, texts[place])
        else:
            line = '\t'.join(texts).encode()
            cut = chance.randrange(len(line))
            return line[:cut] + bytes([chance.choice(b'\t\r xX0:=#?*')]) + line[cut + chance.choice([0, 1]):]
        return '\t'.join(texts).encode()
