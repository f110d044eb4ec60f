"""The messages of the network."""
from .asking import QUERY, Asking
from .keyexpr import intersects
from .parameters import trimmed
from .state import Refused, pick, sample_of, sample_of_token


class Hearing(Asking):
    """Takes messages. Every refusal comes before the first change."""

    def do_net_keyexpr(self, message):
        if message['n'] == 0:
            raise Refused('UnknownScope')
        self.told_keys[message['n']] = self.text_of(message['wire'])

    def do_net_unkeyexpr(self, _):
        """Changes nothing: what a number stood for goes on to be known."""

    def do_net_close(self, _):
        """Changes nothing."""

    def do_net_sub(self, message):
        self.told['sub'][message['n']] = self.text_of(message['wire']), None

    def do_net_queryable(self, message):
        self.told['queryable'][message['n']] = self.text_of(message['wire']), message['complete']

    def forget(self, kind, number):
        """Takes out what the network declared under a number."""
        if number not in self.told[kind]:
            raise Refused('Ignored')
        del self.told[kind][number]

    def do_net_unsub(self, message):
        self.forget('sub', message['n'])

    def do_net_unqueryable(self, message):
        self.forget('queryable', message['n'])

    def hand_token(self, kind, text, interest):
        """Tells liveliness subscribers of a token; one that answers an interest only those with history."""
        for number, row in sorted(self.rows['lsub'].items()):
            if intersects(row['key'].text, text) and (interest is None or row['history']):
                self.hands.append(('hand', 'lsub', number, sample_of_token(kind, text)))

    def do_net_token(self, message):
        text, interest = self.text_of(message['wire']), message['interest']
        if interest in self.lgets:
            self.hand_reply('lget', interest, sample_of_token('put', text))
        elif message['n'] not in self.told['token']:
            self.told['token'][message['n']] = text
            self.hand_token('put', text, interest)

    def do_net_untoken(self, message):
        if message['n'] in self.told['token']:
            text = self.told['token'].pop(message['n'])
        elif message['wire'] is None:
            return
        else:
            text = self.text_of(message['wire'])
        self.hand_token('del', text, message['interest'])

    def do_net_declarefinal(self, message):
        interest = message['interest']
        if interest is None:
            raise Refused('Ignored')
        if interest in self.lgets:
            del self.lgets[interest]
            self.end('lget', interest)

    def do_net_push_put(self, message):
        kind = message['name'].split()[-1]
        self.hand_sample(False, sample_of(kind, self.text_of(message['wire']), message))

    do_net_push_del = do_net_push_put

    def do_net_request(self, message):
        text = self.text_of(message['wire'])
        met = self.met(False, text, message['target'])
        self.need('value', len(met))
        if not met:
            self.send('responsefinal', n=message['n'])
            return
        query = {**pick(message, QUERY), 'params': trimmed(message['params'])}
        self.hand_query(met, {**query, 'local': False, 'n': message['n'], 'key': text, 'left': 0})

    def do_net_response_err(self, message):
        if message['n'] not in self.gets:
            raise Refused('Ignored')
        self.hand_reply('get', message['n'], {'kind': 'err', **pick(message, 'payload enc by')})

    def do_net_response_put(self, message):
        text = self.text_of(message['wire'])
        get = self.gets.get(message['n'])
        if get is None or not get.any_key and not intersects(text, get.key):
            raise Refused('Ignored')
        kind = message['name'].split()[-1]
        self.take_reply(message['n'], {**sample_of(kind, text, message), 'by': message['by']})

    do_net_response_del = do_net_response_put

    def do_net_responsefinal(self, message):
        get = self.gets.get(message['n'])
        if get is None or 'network' not in get.finals:
            raise Refused('Ignored')
        self.take_final(message['n'], 'network')
