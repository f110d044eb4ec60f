"""The application's declarations and publications: keys, entities and their ends, and puts."""
from .keyexpr import intersects
from .state import Refused, State, pick, sample_of, sample_of_token

PUBLICATION = 'payload enc ts prio cc express rel src att'


class Declaring(State):
    """Takes the events of declarations and publications. Every refusal comes before the first change."""

    def do_key(self, event):
        key = self.key_of(event['key'])
        for number, held in self.keys.items():
            if held[0] == key.text:
                held[1] += 1
                return number
        number = self.draw('key')
        self.keys[number] = [key.text, 1]
        self.send('keyexpr', n=number, wire=('s', 0, key.text))
        return number

    def do_undeclare_key(self, event):
        key = self.key_of(event['key'])
        if key.number is None or key.text != key.declared:
            raise Refused('NotDeclared')
        held = self.keys[key.number]
        held[1] -= 1
        if held[1] == 0:
            del self.keys[key.number]
            self.send('unkeyexpr', n=key.number)

    def declare(self, kind, event):
        """Makes the row of an entity with a key: its number and the row."""
        key = self.key_of(event['key'])
        number = self.draw('entity')
        row = self.rows[kind][number] = {**event, 'key': key, 'background': False}
        return number, row

    def do_sub(self, event):
        number, row = self.declare('sub', event)
        wire = self.join('sub', row['key'], number) if row['locality'] != 'local' else None
        if wire is not None:
            self.send('sub', n=number, wire=wire)
        return number

    def declare_asking(self, kind, what, event):
        """Declares a publisher or a querier, for which the network is asked who matches."""
        number, row = self.declare(kind, event)
        wire = self.join(kind, row['key'], number) if row['locality'] != 'local' else None
        if wire is not None:
            self.send('interest', n=number, mode='currentfuture', what=what, wire=wire)
        return number

    def do_pub(self, event):
        return self.declare_asking('pub', 'subscribers', event)

    def do_querier(self, event):
        return self.declare_asking('querier', 'queryables', event)

    def do_queryable(self, event):
        number, row = self.declare('queryable', event)
        if row['locality'] != 'local':
            self.send('queryable', n=number, complete=row['complete'], wire=self.wire_of(row['key']))
        return number

    def do_token(self, event):
        number, row = self.declare('token', event)
        self.send('token', n=number, wire=self.wire_of(row['key']), interest=None)
        return number

    def do_lsub(self, event):
        number, row = self.declare('lsub', event)
        mode = 'currentfuture' if row['history'] else 'future'
        self.send('interest', n=number, mode=mode, what='tokens', wire=self.wire_of(row['key']))
        if row['history']:
            for _, text in sorted(self.told['token'].items()):
                if intersects(text, row['key'].text):
                    self.hands.append(('hand', 'lsub', number, sample_of_token('put', text)))
        return number

    def do_listen(self, event):
        self.named(event['parent'], event['n'])
        number = self.draw('entity')
        self.rows['listener'][number] = {'parent': event['parent'], 'of': event['n'], 'matched': False, 'background': False}
        return number

    def do_status(self, event):
        self.named(event['parent'], event['n'])
        return int(self.matches(event['parent'], event['n']))

    def do_background(self, event):
        self.named(event['kind'], event['n'])['background'] = True

    def do_undeclare(self, event):
        kind, number = event['kind'], event['n']
        row = self.named(kind, number)
        del self.rows[kind][number]
        getattr(self, 'undeclare_' + kind)(number, row)

    def undeclare_sub(self, number, row):
        known = self.leave('sub', row['key'], number) if row['locality'] != 'local' else None
        if known is not None:
            self.send('unsub', n=known)
        self.end('sub', number)

    def undeclare_lsub(self, number, _):
        self.send('interest', n=number, mode='final', what='tokens', wire=None)
        self.end('lsub', number)

    def undeclare_asking(self, kind, what, number, row):
        """Ends a publisher or a querier, with its listeners."""
        known = self.leave(kind, row['key'], number) if row['locality'] != 'local' else None
        if known is not None:
            self.send('interest', n=known, mode='final', what=what, wire=None)
        for listener, heard in list(self.rows['listener'].items()):
            if (heard['parent'], heard['of']) == (kind, number):
                del self.rows['listener'][listener]
                self.end('listener', listener)

    def undeclare_pub(self, number, row):
        self.undeclare_asking('pub', 'subscribers', number, row)

    def undeclare_querier(self, number, row):
        self.undeclare_asking('querier', 'none', number, row)
        for asked, get in list(self.gets.items()):
            if get.querier == number:
                del self.gets[asked]
                self.end('get', asked)

    def undeclare_queryable(self, number, row):
        if row['locality'] != 'local':
            self.send('unqueryable', n=number)
        self.end('queryable', number)

    def undeclare_token(self, number, _):
        self.send('untoken', n=number, wire=None, interest=None)

    def undeclare_listener(self, number, _):
        self.end('listener', number)

    def publish(self, kind, key, locality, publication):
        """Sends a publication, and hands it to the subscribers of this session."""
        if locality != 'local':
            self.send('push ' + kind, wire=self.wire_of(key), **publication)
        if locality != 'remote':
            self.hand_sample(True, sample_of(kind, key.text, publication))

    def do_put(self, event):
        kind = 'put' if event['name'] == 'put' else 'del'
        self.publish(kind, self.key_of(event['key']), event['locality'], pick(event, PUBLICATION))

    do_delete = do_put

    def do_pput(self, event):
        row = self.named('pub', event['n'])
        publication = {**pick(event, PUBLICATION), **pick(row, 'prio cc express rel')}
        publication['enc'] = publication['enc'] or row['enc']
        self.publish('put' if event['name'] == 'pput' else 'del', row['key'], row['locality'], publication)

    do_pdel = do_pput

    def do_close(self, _):
        self.send('close')
        for kind in ('queryable', 'sub', 'lsub', 'listener'):
            for number in self.rows[kind]:
                self.end(kind, number)
        for kind, open_ones in (('get', self.gets), ('lget', self.lgets)):
            for number in open_ones:
                self.end(kind, number)
        self.closed = True
        for table in (*self.rows.values(), self.gets, self.lgets, self.keys, self.groups, self.queries):
            table.clear()
