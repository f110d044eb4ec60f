"""What is printed of a turn: a line for the answer and one for each effect."""
from .fields import show_payload
from .lines import show_message, show_options


def show_item(item):
    """The fields of what a subscriber or a get is handed: a value, a deletion or an error."""
    if item['kind'] == 'err':
        return ['err', show_payload(item['payload'])] + show_options(item, ['enc', 'by'])
    options = ['enc', 'ts', 'prio', 'cc', 'express', 'rel', 'src', 'att', 'by']
    return [item['kind'], item['key'], show_payload(item['payload'])] + show_options(item, options)


def show_query(query):
    """The fields of a query that is handed to a queryable."""
    shown = {**query, 'prio': query['prio'] or 5}
    return [query['key']] + show_options(shown, ['params', 'payload', 'enc', 'prio', 'cc', 'express', 'src', 'att'])


def show_part(part):
    """The fields of a part of an answer or an effect: a word, a number, a truth, or what a dict tells."""
    if isinstance(part, bool):
        return ['true' if part else 'false']
    if not isinstance(part, dict):
        return [str(part)]
    if 'name' in part:
        return show_message(part)
    return show_item(part) if 'kind' in part else show_query(part)


def row(*texts):
    """A line of bytes with tabs between its fields."""
    return ('\t'.join(map(str, texts)) + '\n').encode()


def rows_of(number, turn, side=None):
    """The lines of a turn, each beginning with the number of its line, and of two linked sessions with the side."""
    start = [number] if side is None else [number, side]
    told = [turn.answer] + turn.effects
    return b''.join(row(*start, *(text for part in parts for text in show_part(part))) for parts in told)
