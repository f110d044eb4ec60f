"""The lines of scripts: a grammar, read into events and written back.

An event is a dict of `name` (the literal words of its line) and the values of its fields and options. A message is the event
`net ..` that it is to the session that receives it."""
from .fields import ABSENT, DEFAULT_ENCODING, FIELDS, OPTIONS, Malformed, priority_from

# Literal words are in lower case, fields in upper case (FIELDS). A field with `?` may be left out. Options stand behind the colon, each
# with what its absence gives where that isn't the usual (ABSENT, or nothing); `name=?` is nothing.
GRAMMAR = """
key KEY
undeclare key KEY
undeclare KIND N
sub LOCALITY KEY CHANNEL?
pub LOCALITY KEY : enc prio cc express rel
queryable LOCALITY COMPLETE KEY
querier LOCALITY KEY : target cons timeout prio cc=block express accept
token KEY
lsub HISTORY KEY
listen PARENT N
status PARENT N
background RECEIVING N
put LOCALITY KEY BYTES : enc ts prio cc express rel src att
delete LOCALITY KEY : ts prio cc express rel src att
pput N BYTES : enc=? ts src att
pdel N : ts src att
get LOCALITY SELECTOR : target cons timeout payload enc prio cc=block express src att accept token to
qget N : params payload enc src att token to
lget KEY : timeout token to
ctoken
cancel TOKEN
reply QUERY KEY BYTES : enc ts prio=? cc=? express=? src att
replydel QUERY KEY : ts prio=? cc=? express=? src att
replyerr QUERY BYTES : enc
share QUERY
finish QUERY
recv FED N
tick MOMENT
close
net keyexpr N16 WIRE
net unkeyexpr N16
net sub N WIRE
net unsub N
net queryable N COMPLETE WIRE
net unqueryable N
net token N WIRE : interest
net untoken N SOME_WIRE? : interest
net declarefinal : interest
net push WIRE put BYTES : enc ts prio cc express rel src att
net push WIRE del : ts prio cc express rel src att
net request N WIRE : params target cons timeout=10000 payload enc prio cc=block express src att
net response N WIRE put BYTES : enc ts prio cc=block express src att by
net response N WIRE del : ts prio cc=block express src att by
net response N WIRE err BYTES : enc prio cc=block express by
net responsefinal N
net close
"""
SENT_ONLY = 'net interest N MODE WHAT WIRE?'


class Form:
    """One row of the grammar."""

    def __init__(self, row):
        fields, _, options = row.partition(':')
        self.elements = fields.split()
        self.name = ' '.join(word for word in self.elements if word.islower())
        self.readers = {}
        self.absent = {}
        for option in options.split():
            name, given, value = option.partition('=')
            self.readers[name] = OPTIONS[name][0]
            self.absent[name] = ABSENT.get(name)
            if given:
                self.absent[name] = None if value == '?' else OPTIONS[name][0](value)
        if row.startswith('net') and 'prio' in self.readers:
            self.readers['prio'] = priority_from(0)
        self.untold = dict(self.absent)     # what a line that is as short as can be doesn't tell
        if 'payload' in self.absent:
            self.absent['enc'] = None

    def read(self, texts):
        """The event of a line's fields; raises Malformed where it has another form."""
        texts = list(texts)
        event = {'name': self.name}
        for element in self.elements:
            if element.endswith('?'):
                field, read, _ = FIELDS[element[:-1]]
                try:
                    event[field] = read(texts[0]) if texts else None
                    del texts[:1]
                except Malformed:
                    event[field] = None
                continue
            if not texts:
                raise Malformed
            text = texts.pop(0)
            if element in FIELDS:
                field, read, _ = FIELDS[element]
                event[field] = read(text)
            elif text != element:
                raise Malformed
        return {**event, **self.read_options(texts)}

    def read_options(self, texts):
        """The values of all options of the form: each at most once, and in the order of the form."""
        values = dict(self.absent)
        names = list(self.readers)
        for text in texts:
            name, equals, value = text.partition('=')
            if not equals or name not in names:
                raise Malformed
            values[name] = self.readers[name](value)
            del names[:names.index(name) + 1]
        if 'payload' in values and (values['payload'], values['enc']) != (None, None):
            values['payload'] = values['payload'] or b''
            values['enc'] = values['enc'] or DEFAULT_ENCODING
        return values

    def write(self, event, untold):
        """The fields of an event's line, without the options whose values are among the untold ones."""
        texts = []
        for element in self.elements:
            if element.islower():
                texts.append(element)
                continue
            field, _, show = FIELDS[element.rstrip('?')]
            if event[field] is not None:
                texts.append(show(event[field]))
        return texts + show_options(event, self.readers, untold)


def show_options(values, names, untold=None):
    """The options that are there, but those of which the value is an untold one."""
    untold = {'params': ''} if untold is None else untold
    told = [(name, values.get(name)) for name in names]
    return ['%s=%s' % (name, OPTIONS[name][1](value)) for name, value in told if value is not None and value != untold.get(name)]


FORMS = [Form(row) for row in GRAMMAR.split('\n') if row]
FORM_OF = {form.name: form for form in FORMS + [Form(SENT_ONLY)]}


def head(words):
    """By what the forms of a line are found: its first word, and of a message the second too."""
    return tuple(words[:2] if words[0] == 'net' else words[:1])


def event_of(line):
    """The event of a line of bytes, or None where it is none."""
    try:
        texts = line.decode('utf-8').split('\t')
    except UnicodeDecodeError:
        return None
    for form in FORMS:
        if head(form.elements) == head(texts):
            try:
                return form.read(texts)
            except Malformed:
                pass
    return None


def line_of(event):
    """The line of bytes that says an event, as short as can be."""
    form = FORM_OF[event['name']]
    return '\t'.join(form.write(event, form.untold)).encode()


def show_message(message):
    """The fields that tell of a message that is sent, with all its options."""
    return FORM_OF[message['name']].write(message, {'params': ''})[1:]
