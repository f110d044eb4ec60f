"""The settings of a session, and the words that say them."""
from dataclasses import dataclass, field

from .fields import MAX32, MAX64, Malformed, hexadecimal, number16, number32, number64
from .keyexpr import canonical

READERS = {'zid': hexadecimal, 'tag': number64, 'entity': number32, 'key': number16, 'query': number32, 'timeout': number64,
           'line': number32, 'turns': number64}


@dataclass
class Settings:
    """Identifiers, the first numbers that are drawn, the timeout of gets, the limits of a run, and the aggregates."""
    zid: int = 1
    tag: int = 1
    entity: int = 1
    key: int = 1
    query: int = 0
    timeout: int = 10000
    line: int = 65536
    turns: int = 2 ** 32
    aggsub: list = field(default_factory=list)
    aggpub: list = field(default_factory=list)

    def valid(self):
        limits = self.entity < MAX32 and self.key > 0 and 0 < self.line <= 2 ** 20 and 0 < self.turns <= MAX64
        return self.zid != 0 and limits


def settings_of(words):
    """The settings that words `name=value` say, or None where they say none."""
    settings = Settings()
    seen = set()
    for word in words:
        name, equals, value = word.partition('=')
        if name in ('aggsub', 'aggpub') and equals and canonical(value) and '\t' not in value and '\n' not in value:
            getattr(settings, name).append(value)
            continue
        if name not in READERS or not equals or name in seen:
            return None
        seen.add(name)
        try:
            setattr(settings, name, READERS[name](value))
        except Malformed:
            return None
    return settings if settings.valid() else None
