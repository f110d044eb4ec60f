"""The program zs_record: a session is recorded, and a recording is replayed."""
from .lines import event_of, line_of
from .printing import row, rows_of
from .running import BAD_WORDS, bad_line, lines_of, outcome_of
from .session import Session
from .settings import Settings


def run(words, data):
    """The outcome of zs_record with these words over this input."""
    if words not in (['record'], ['replay']):
        return BAD_WORDS
    return outcome_of(lambda out: (record if words == ['record'] else replay)(data, out))


def session_event(line):
    """The event of a session that a line says, or None."""
    event = event_of(line)
    return None if event is None or event['name'] == 'recv' else event


def record(data, out):
    """Prints each event and, behind it, what comes of it."""
    session = Session(Settings())

    def enter(number, event):
        rows = rows_of(number, session.step(event)).split(b'\n')[:-1]
        out(b'>\t' + line_of(event) + b'\n' + b''.join(b'<\t' + line + b'\n' for line in rows))

    number = 0
    for number, line in lines_of(data):
        event = session_event(line)
        if event is None:
            raise bad_line(number)
        enter(number, event)
    enter(number + 1, {'name': 'close'})


def replay(data, out):
    """Compares what comes of each event with what was recorded of it; the status."""
    session = Session(Settings())
    events, recorded, printed = 0, b'', b''
    other = None            # the first event before the last one of which something else was recorded
    headless = False        # whether something was recorded before all events
    for number, line in lines_of(data):
        mark, told = line[:2], line[2:]
        event = session_event(told) if mark == b'>\t' else None
        if event is not None:
            other = other or (events if recorded != printed else None)
            events += 1
            recorded, printed = b'', rows_of(events, session.step(event))
        elif mark != b'<\t':
            raise bad_line(number)
        elif events == 0:
            headless = True
        else:
            recorded += told + b'\n'
    if headless:
        raise bad_line(1)
    other = other or (events if recorded != printed else None)
    out(row('same', events) if other is None else row('differs', other))
    return 0 if other is None else 1
