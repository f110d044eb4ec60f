"""The program zenoh_drive in its modes `drive` and `link`."""
from .lines import event_of
from .linked import Linked
from .printing import row, rows_of
from .running import BAD_WORDS, bad_line, lines_of, outcome_of
from .session import Session
from .settings import settings_of

CLOSE = {'name': 'close'}


def run(words, data):
    """The outcome of zenoh_drive with these words over this input."""
    mode = words[0] if words else 'drive'
    settings = settings_of(words[1:])
    if mode not in ('drive', 'link') or settings is None:
        return BAD_WORDS
    if mode == 'link' and 2 in (settings.zid, settings.tag):
        return BAD_WORDS
    return outcome_of(lambda out: (link if mode == 'link' else drive)(settings, data, out))


def drive(settings, data, out):
    """Takes each line as an event, and the end of the input as the close."""
    session = Session(settings)
    number = 0
    for number, line in lines_of(data, settings.line, settings.turns):
        event = event_of(line)
        if event is None:
            raise bad_line(number)
        out(rows_of(number, session.step(event)))
    out(rows_of(number + 1, session.step(CLOSE)))


def linked_line(line):
    """`ab`, `ba`, or the side and the event of a line of two linked sessions; None where it is none."""
    if line in (b'ab', b'ba'):
        return line.decode()
    side, event = line[:2], event_of(line[2:])
    if side not in (b'a\t', b'b\t') or event is None or event.get('to') is not None:
        return None
    return None if event['name'].startswith(('net ', 'recv')) else (side[:1].decode(), event)


def link(settings, data, out):
    """Takes events of two linked sessions, and delivers their messages one by one."""
    linked = Linked(settings)
    number = 0
    for number, line in lines_of(data, settings.line, settings.turns):
        said = linked_line(line)
        if said is None:
            raise bad_line(number)
        if said not in ('ab', 'ba'):
            side, event = said
            out(rows_of(number, linked.take(side, event), side))
        elif not linked.waiting[said[0]]:
            out(row(number, 'none'))
        else:
            side, turn = linked.deliver(said[0])
            out(row(number, 'dropped') if turn is None else rows_of(number, turn, side))
    for side in 'ab':
        out(rows_of(number + 1, linked.take(side, CLOSE), side))
