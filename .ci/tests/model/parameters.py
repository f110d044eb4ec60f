"""The parameters of a selector: `name=value` or `name`, separated by `;`."""


def trimmed(text):
    """The text without each `;`, `=` and `|` at its end."""
    return text.rstrip(';=|')


def pairs(text):
    """Names with their values, in order; an empty piece is none."""
    return [(name, value) for name, _, value in (piece.partition('=') for piece in text.split(';') if piece)]


def has(text, name):
    """Whether a parameter of that name is there, with whatever value."""
    return any(found == name for found, _ in pairs(text))


def with_name(text, name):
    """The parameters with that name, without a value, behind all others."""
    others = [pair for pair in pairs(text) if pair[0] != name]
    return ';'.join(found + '=' + value if value else found for found, value in others + [(name, '')])
