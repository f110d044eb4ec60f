"""Whole random scripts of each mode, by a seed: the words of a program and its input."""
import random

from . import material, record
from .fields import MAX64
from .lines import event_of
from .linked import Linked
from .pieces import Followed
from .session import Session
from .settings import Settings, settings_of
from .writing import Writer

LENGTHS = [20, 30, 40, 50, 60, 70, 80, 100, 120, 150, 200]
# How often each word of a line stands in a script of two sides.
OPERATIONS = {mode: [material.weights(text) for text in texts] for mode, texts in {
    'replica': ['put=10 del=4 ab=4 ba=4 get=1 dump=2', 'put=6 del=2 ab=6 ba=6 get=6 dump=1', 'put=8 del=8 ab=2 ba=2 get=3 dump=4',
                'put=4 del=2 ab=3 ba=3 get=10 dump=1'],
    'group': ['join=5 leave=4 view=3 ab=4 ba=4', 'join=8 leave=3 view=2 ab=3 ba=3', 'join=3 leave=3 view=4 ab=8 ba=8',
              'join=5 leave=5 view=1 ab=1 ba=1'],
}.items()}
STORED = ['r/k', 'r/m', 'r/a/b', 'r', 'r/k/x', 'r/é', 'r/z', 'r/kk', 'r/a', 'r/aa', 'r/k y', 'r/K']
OUTSIDE = 'q r/@v rr r/@v/x @r/k q/r/k r/k/@a @v R/k'.split()
WILD = 'r/* r/** ** r/k$* q/* r/a/* */k * **/b r/@v/* r/$*k r/*/b */** r/**/b q/** @r/**'.split()
NO_KEYS = 'r/*** #1 a?x r//k r/ /r r/**/** r/$* #x r/k* #1:/k r/k? r/**/* $ #'.split() + ['']
MEMBERS = ['x', 'y', 'z', 'a1', '0', 'abc', '9' * 64, 'xx', 'x0']
# Lines that are none of a program's; `|` is a tab.
NO_LINES = {
    'replica': [b'', b'a', b'a|put|r/k|x01', b'a|put|r/k|x01|1', b'a|put|r/k|x01|1:01', b'a|put|r/k|x0|1:1', b'a|del|r/k|x01|1:1', b'a|del|r/k',
                b'a|dump|x', b'a|get', b'a|get|r/k|x', b'ab|', b'c|dump', b'a|close', b'a|put|r/k|x01|ts=1:1', b'a|put|r/k\xff|x01|1:1',
                b'a|put|r/k|x01|1:1|', b'A|dump', b'dump', b'a|put|r/k|x01|18446744073709551616:1', b'a|put|r/k|x01|1:' + b'f' * 33, b'a|dump\r',
                b'a|get|r/' + b'k' * 65536],
    'group': [b'', b'a|join', b'a|join|', b'a|join|X', b'a|join|' + b'x' * 65, b'a|join|a/b', b'a|join|*', b'a|view|x', b'a|leave', b'ab|',
              b'c|view', b'a|join|x|y', b'a|join|x ', b'a|join|\xc3\xa9', b'a|join|x_y', b'a|close', b'view', b'a|view\r', b'a|join|x\xff',
              b'a|leave|x-'],
    'link': [b'ab|', b'ab|close', b'aa', b'bb', b'a', b'b', b'a|', b'c|close', b'A|close', b'a|net|close', b'a|net|push|s0:a|put|x01',
             b'b|recv|sub|2', b'a|sub|any|k|fifo:1', b'a|sub|any|k|ring:2', b'a|get|any|k|to=fifo:1', b'b|lget|k|to=ring:1',
             b'b|qget|2|to=fifo:3', b'', b'close', b'a|a|close', b'a|ab', b'ab ', b'a close'],
}
# Lines that are put into recordings; `|` is a tab.
SPOILING = [b'', b'x', b'<', b'<|', b'<|\xff\xfe', b'<|1|ok', b'>', b'>|', b'> close', b'>|close', b'>|ctoken', b'>|key|k', b'>|recv|sub|2',
            b'>|net|close', b'>|net|interest|1|final|none', b'>|put|any|k|x01|prio=5|rel=1', b'>|sub|any|k|print', b'>|put|any|#1: |X01']


def tabbed(line):
    """A line with tabs where it has `|`."""
    return line.replace(b'|', b'\t')


class Maker:
    """A source of scripts of one mode, of so many lines."""

    def __init__(self, mode, seed, count):
        self.chance = random.Random('%s/%d' % (mode, seed))
        self.mode = mode
        self.count = count or self.chance.choice(LENGTHS)
        self.stops = self.often(0.18)   # whether the last line is most likely bad
        profiles = list(material.PROFILES)
        self.writer = Writer(self.chance, profiles[seed % len(profiles)], mode == 'link')

    def often(self, likelihood):
        return self.chance.random() < likelihood

    def joined(self, lines):
        """An input of these lines, most likely with a last line feed."""
        return b'\n'.join(lines) + (b'\n' if lines and self.often(0.85) else b'')

    def settings_words(self):
        """Words of settings, rarely bad ones."""
        words = ['%s=%s' % (name, self.chance.choice(values)) for name, likelihood, values in material.SETTINGS if self.often(likelihood)]
        for name, likelihood in (('aggsub', 0.4), ('aggpub', 0.3)):
            if self.often(likelihood):
                words += ['%s=%s' % (name, self.chance.choice(material.AGGREGATES)) for _ in range(self.chance.choice([1, 1, 2, 2, 3]))]
        if self.often(0.3):
            self.chance.shuffle(words)
        if self.mode == 'drive' and self.often(0.02):
            words.append('turns=%d' % self.chance.choice([1, 2, 3, 2 ** 32, MAX64]))
        if self.often(0.03):
            words.insert(self.chance.randrange(len(words) + 1), self.chance.choice(material.BAD_WORDS))
        return words

    def make_drive(self):
        words = self.settings_words()
        data = self.session_script(settings_of(words) or Settings(), () if self.mode == 'drive' else ('recv',))
        return (['drive'] if words or self.often(0.5) else []) + words, data

    def make_record(self):
        return ['record'], self.session_script(Settings(), ('recv',))

    def texts(self, likely_close, without):
        """The fields of a line for the writer's side, rarely a close."""
        close = likely_close and self.often(0.02 if self.mode == 'link' else 0.01)
        return ['close'] if close else self.writer.line(without)

    def session_script(self, settings, without):
        """An input for one session."""
        side = self.writer.side = Followed(Session(settings))
        lines = []
        for place in range(self.count):
            lines.append('\t'.join(self.texts(place > 0.8 * self.count, without)).encode())
            event = event_of(lines[-1])
            if event is not None:
                side.note(event, side.session.step(event))
        if self.stops:
            lines.append(self.writer.bad_line())
        elif self.often(0.01) and settings.turns > 3:
            lines.append(b'key\t' + b'k' * self.chance.choice([65531, 65532, 65533]))
        return self.joined(lines)

    def make_link(self):
        words = [word for word in self.settings_words() if word != 'zid=2'] + (['tag=2'] if self.often(0.005) else [])
        linked = Linked(settings_of(words) or Settings())
        sides = {name: Followed(session) for name, session in linked.sessions.items()}
        lazy = self.chance.choice([0.0, 0.1, 0.3, 0.6])
        lines = []
        while len(lines) < self.count:
            if self.often((0.5 if linked.waiting['a'] or linked.waiting['b'] else 0.03) * (1 - lazy)):
                lines += self.deliveries(linked, sides)
                continue
            name = self.chance.choice('ab')
            side = self.writer.side = sides[name]
            texts = self.texts(len(lines) > 0.8 * self.count, ('net_', 'recv'))
            lines.append('\t'.join([name] + texts).encode())
            event = event_of('\t'.join(texts).encode())
            if event is not None and event.get('to') is None:
                side.note(event, linked.take(name, event))
        if self.stops:
            bad = (b'a\t' if self.often(0.7) else b'') + self.writer.bad_line()
            lines.append(bad if self.often(0.4) else tabbed(self.chance.choice(NO_LINES['link'])))
        if self.often(0.3):
            lines += [self.chance.choice([b'ab', b'ba']) for _ in range(self.chance.choice([5, 30]))]
        return ['link'] + words, self.joined(lines)

    def deliveries(self, linked, sides):
        """Some deliveries in a row from one side, which most likely has something to deliver."""
        name = self.chance.choice([name for name in 'ab' if linked.waiting[name]] or ['a', 'b'])
        count = 0
        for _ in range(self.chance.choice([1, 1, 1, 2, 3, 5])):
            if not linked.waiting[name]:
                count += self.often(0.1)
                break
            message = linked.waiting[name][0]
            other, turn = linked.deliver(name)
            if turn is not None:
                sides[other].note(message, turn)
            count += 1
        return [b'ab' if name == 'a' else b'ba'] * count

    def two_sided(self, line_of_word):
        """Lines for a program of two linked sessions."""
        operations = self.chance.choice(OPERATIONS[self.mode])
        lines = []
        for _ in range(self.count):
            word = self.chance.choices(list(operations), list(operations.values()))[0]
            if word not in ('ab', 'ba'):
                word = '\t'.join([self.chance.choice('ab'), word] + line_of_word(word))
            lines.append(word.encode())
        return lines

    def finished(self, lines, show):
        """Words, rarely bad ones, and an input of these lines and a bad one or a look at both sides."""
        if self.often(0.4):
            lines += [self.chance.choice([b'ab', b'ba', b'a\t' + show, b'b\t' + show]) for _ in range(8)] + [b'a\t' + show, b'b\t' + show]
        if self.stops:
            lines.append(tabbed(self.chance.choice(NO_LINES[self.mode])))
            lines += [b'a\t' + show] if self.often(0.2) else []
        return [self.chance.choice(['x', '', 'drive', '--foo'])] if self.often(0.02) else [], self.joined(lines)

    def make_replica(self):
        hot = self.chance.sample(STORED, self.chance.choice([2, 3, 5, 8]))
        latest = self.chance.choice([3, 6, 30])

        def texts(word):
            choice, draw = self.chance.choice, self.chance.random()
            if word == 'dump':
                return []
            if word == 'get':
                return [choice(hot if draw < 0.35 else WILD if draw < 0.9 else OUTSIDE + NO_KEYS)]
            key = choice(hot if draw < 0.9 else OUTSIDE + WILD + NO_KEYS if draw < 0.97 else STORED)
            moment = self.chance.randrange(latest) if self.often(0.97) else choice([MAX64, 0])
            content = [choice(material.PAYLOADS[:5] if self.often(0.8) else material.PAYLOADS)] if word == 'put' else []
            return [key] + content + ['%d:%s' % (moment, choice(['1', '2', '0', 'A', 'ff', material.WIDEST]))]

        return self.finished(self.two_sided(texts), b'dump')

    def make_group(self):
        hot = self.chance.sample(MEMBERS, self.chance.choice([1, 2, 3, 6]))

        def texts(word):
            return [] if word == 'view' else [self.chance.choice(hot if self.often(0.95) else MEMBERS)]

        return self.finished(self.two_sided(texts), b'view')

    def make_replay(self):
        lines = record.run(*self.make_record()).output.split(b'\n')[:-1]
        draw = self.chance.random()
        if draw < 0.05:
            return self.chance.choice([['replay', 'x'], ['replay', 'replay'], ['Replay'], []]), self.joined(lines)
        if draw < 0.20:
            lines = lines[:self.chance.randrange(len(lines) + 1)]
        elif draw < 0.27:
            lines = lines[:self.chance.choice([place for place, line in enumerate(lines) if line[:1] == b'>'] or [0])]
        elif draw < 0.80:
            for _ in range(self.chance.choice([1, 1, 1, 2])):
                self.spoil(lines)
        return ['replay'], self.joined(lines)

    def spoil(self, lines):
        """Changes something in a recording."""
        if not lines:
            return
        chance, draw = self.chance, self.chance.random()
        place, other = chance.randrange(len(lines)), chance.randrange(len(lines))
        if draw < 0.2:
            del lines[place]
        elif draw < 0.35:
            lines.insert(place, lines[other])
        elif draw < 0.5:
            lines[place], lines[other] = lines[other], lines[place]
        elif draw < 0.8:
            line, cut = lines[place], chance.randrange(len(lines[place]) + 1)
            lines[place] = line[:cut] + chance.choice([b'', b'x', b'0', b'\t', b'\xff', b'<', b' ']) + line[cut + chance.choice([0, 1]):]
        else:
            lines.insert(place, tabbed(chance.choice(SPOILING)))


# The modes, each with its program.
MODES = {'drive': 'zenoh_drive', 'link': 'zenoh_drive', 'replica': 'zs_replica', 'group': 'zs_group', 'record': 'zs_record', 'replay': 'zs_record'}


def make(mode, seed, count=None):
    """The words and the input of the script of a mode and a seed, of so many lines where that is said."""
    return getattr(Maker(mode, seed, count), 'make_' + mode)()
