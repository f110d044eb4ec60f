"""The forms of fields and options: a reader takes a text and gives a value or raises Malformed, a writer gives the text back."""
import re

MAX16, MAX32, MAX64 = 2 ** 16 - 1, 2 ** 32 - 1, 2 ** 64 - 1
DEFAULT_ENCODING = 'zenoh/bytes'


class Malformed(Exception):
    """A field that doesn't have its form."""


def split(text, form):
    """The groups of a regular expression that must match the whole text."""
    found = re.fullmatch(form, text, re.DOTALL)
    if found is None:
        raise Malformed
    return found.groups()


def number_to(last):
    """A reader of decimal numbers without leading zeros, up to the last one."""
    def read(text):
        split(text, '0|[1-9][0-9]{0,19}')
        if int(text) > last:
            raise Malformed
        return int(text)
    return read


number16, number32, number64 = number_to(MAX16), number_to(MAX32), number_to(MAX64)


def one_of(*words):
    """A reader of one of these words."""
    def read(text):
        if text not in words:
            raise Malformed
        return text
    return read


def either(yes, no):
    """A reader and a writer of a truth that two words say."""
    def read(text):
        return one_of(yes, no)(text) == yes
    return read, lambda value: yes if value else no


def hexadecimal(text):
    """A number of at most 32 hexadecimal digits without leading zeros."""
    split(text, '0|[1-9a-fA-F][0-9a-fA-F]{0,31}')
    return int(text, 16)


def payload(text):
    """Bytes, each as two hexadecimal digits behind one `x`."""
    split(text, 'x(?:[0-9a-fA-F]{2})*')
    return bytes.fromhex(text[1:])


def show_payload(value):
    return 'x' + value.hex()


def key(text):
    """A key argument: (None, text), or a declared key's number and the text behind it."""
    try:
        digits, _, suffix = split(text, '#([^:]*)(:(.*))?')
        return number16(digits), suffix or ''
    except Malformed:
        return None, text


def show_key(value):
    number, text = value
    if number is None:
        return text
    return '#%d:%s' % value if text else '#%d' % number


def selector(text):
    """A key argument and the parameters behind the first `?`."""
    named, _, params = text.partition('?')
    return key(named), params


def show_selector(value):
    named, params = value
    return show_key(named) + ('?' + params if params else '')


def wire(text):
    """Whose number it is (`s`ender's, `r`eceiver's), the number, and the text behind what it stands for."""
    side, number, suffix = split(text, '([sr])([^:]*):(.*)')
    return side, number16(number), suffix


def show_wire(value):
    return '%s%d:%s' % value


def some_wire(text):
    """A wire expression, or None where it is an empty text."""
    value = wire(text)
    return value if value[1:] != (0, '') else None


def channel(text):
    """A kind of channel and its size, or None where items are printed only."""
    if text == 'print':
        return None
    kind, size = split(text, '(fifo|ring):(.*)')
    if number16(size) == 0:
        raise Malformed
    return kind, int(size)


def show_channel(value):
    return '%s:%d' % value


def timestamp(text):
    """A time, and the identifier of the clock that told it."""
    time, clock = split(text, '([^:]*):([^:]*)')
    return number64(time), hexadecimal(clock)


def show_timestamp(value):
    return '%d:%x' % value


def source(text):
    """A session, an entity in it, and the number of the sample there."""
    session, entity, sample = split(text, '([^:]*):([^:]*):([^:]*)')
    return hexadecimal(session), number32(entity), number32(sample)


def show_source(value):
    return '%x:%d:%d' % value


def replier(text):
    """A session, and the entity in it that answered."""
    session, entity = split(text, '([^:]*):([^:]*)')
    return hexadecimal(session), number32(entity)


def show_replier(value):
    return '%x:%d' % value


def encoding(text):
    """An encoding; the empty text is the default one."""
    return text or DEFAULT_ENCODING


def bit(text):
    return int(one_of('0', '1')(text))


def priority_from(first):
    """A reader of priorities from the first one to 7."""
    def read(text):
        return int(one_of(*map(str, range(first, 8)))(text))
    return read


# What a name of a field or option reads and writes: the field of an event, the reader, the writer.
FIELDS = {
    'KEY': ('key', key, show_key),
    'SELECTOR': ('selector', selector, show_selector),
    'WIRE': ('wire', wire, show_wire),
    'SOME_WIRE': ('wire', some_wire, show_wire),
    'BYTES': ('payload', payload, show_payload),
    'CHANNEL': ('to', channel, show_channel),
    'N': ('n', number32, str),
    'N16': ('n', number16, str),
    'QUERY': ('query', number32, str),
    'TOKEN': ('token', number32, str),
    'MOMENT': ('moment', number64, str),
    'LOCALITY': ('locality', one_of('any', 'local', 'remote'), str),
    'COMPLETE': ('complete', *either('complete', 'partial')),
    'HISTORY': ('history', *either('history', 'live')),
    'PARENT': ('parent', one_of('pub', 'querier'), str),
    'KIND': ('kind', one_of('sub', 'lsub', 'pub', 'queryable', 'querier', 'token', 'listener'), str),
    'RECEIVING': ('kind', one_of('sub', 'lsub', 'queryable', 'listener'), str),
    'FED': ('kind', one_of('sub', 'get', 'lget'), str),
    'MODE': ('mode', str, str),
    'WHAT': ('what', str, str),
}
OPTIONS = {
    'params': (str, str),
    'enc': (encoding, str),
    'ts': (timestamp, show_timestamp),
    'prio': (priority_from(1), str),
    'cc': (one_of('drop', 'block'), str),
    'express': (bit, str),
    'rel': (bit, str),
    'src': (source, show_source),
    'att': (payload, show_payload),
    'payload': (payload, show_payload),
    'by': (replier, show_replier),
    'target': (one_of('best', 'all', 'allcomplete'), str),
    'cons': (one_of('auto', 'none', 'monotonic', 'latest'), str),
    'timeout': (number64, str),
    'accept': (one_of('any'), str),
    'token': (number32, str),
    'to': (channel, show_channel),
    'interest': (number32, str),
}
ABSENT = {'params': '', 'enc': DEFAULT_ENCODING, 'prio': 5, 'cc': 'drop', 'express': 0, 'rel': 1, 'target': 'best', 'cons': 'auto'}
