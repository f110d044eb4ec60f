"""Key expressions: which texts are canonical, and where one intersects or includes another.

Both relations are searches over the pairs of positions that can be reached, so many wild signs don't make them slow."""
import re
from functools import lru_cache


def canonical(text):
    """Whether a text is a key expression in its canonical form."""
    chunks = text.split('/')
    if '#' in text or '?' in text:
        return False
    for chunk, following in zip(chunks, chunks[1:] + ['']):
        if chunk == '**' and following in ('*', '**'):
            return False
        if chunk in ('*', '**'):
            continue
        if chunk in ('', '$*') or '$*$*' in chunk or re.search(r'[$*]', chunk.replace('$*', '')):
            return False
    return True


def is_verbatim(chunk):
    """Whether no wild sign stands for a chunk."""
    return chunk.startswith('@')


def units(chunk):
    """The characters of a chunk, `$*` being one."""
    return re.findall(r'\$\*|.', chunk, re.DOTALL)


def reaches(goal, following):
    """Whether a pair of positions can be reached from (0, 0) by the steps that `following` gives."""
    seen = {(0, 0)}
    waiting = [(0, 0)]
    while waiting:
        place = waiting.pop()
        if place == goal:
            return True
        for step in following(*place):
            if step not in seen:
                seen.add(step)
                waiting.append(step)
    return False


@lru_cache(maxsize=100000)
def chunks_intersect(one, other):
    """Whether some plain chunk is in both."""
    if is_verbatim(one) or is_verbatim(other):
        return one == other
    if '*' in (one, other):
        return True
    left, right = units(one), units(other)

    def following(i, j):
        if i < len(left) and left[i] == '$*':
            yield i + 1, j
            if j < len(right):
                yield i, j + 1
        elif j < len(right) and right[j] == '$*':
            yield i, j + 1
            if i < len(left):
                yield i + 1, j
        elif i < len(left) and j < len(right) and left[i] == right[j]:
            yield i + 1, j + 1

    return reaches((len(left), len(right)), following)


@lru_cache(maxsize=100000)
def chunk_includes(one, other):
    """Whether all plain chunks of the other are in the one."""
    if one == other:
        return True
    if is_verbatim(one) or is_verbatim(other):
        return False
    if '*' in (one, other):
        return one == '*'
    left, right = units(one), units(other)

    def following(i, j):
        if i < len(left) and left[i] == '$*':
            yield i + 1, j
            if j < len(right):
                yield i, j + 1
        elif i < len(left) and j < len(right) and right[j] != '$*' and left[i] == right[j]:
            yield i + 1, j + 1

    return reaches((len(left), len(right)), following)


@lru_cache(maxsize=100000)
def intersects(one, other):
    """Whether some plain key is in both of two canonical key expressions."""
    if '*' not in one and '*' not in other:
        return one == other
    left, right = one.split('/'), other.split('/')

    def following(i, j):
        if i < len(left) and left[i] == '**':
            yield i + 1, j
            if j < len(right) and not is_verbatim(right[j]):
                yield i, j + 1
        elif j < len(right) and right[j] == '**':
            yield i, j + 1
            if i < len(left) and not is_verbatim(left[i]):
                yield i + 1, j
        elif i < len(left) and j < len(right) and chunks_intersect(left[i], right[j]):
            yield i + 1, j + 1

    return reaches((len(left), len(right)), following)


@lru_cache(maxsize=100000)
def includes(one, other):
    """Whether all plain keys of the other are in the one, both canonical."""
    left, right = one.split('/'), other.split('/')

    def following(i, j):
        if i < len(left) and left[i] == '**':
            yield i + 1, j
            if j < len(right) and not is_verbatim(right[j]):
                yield i, j + 1
        elif i < len(left) and j < len(right) and right[j] != '**' and chunk_includes(left[i], right[j]):
            yield i + 1, j + 1

    return reaches((len(left), len(right)), following)
