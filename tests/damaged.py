"""An index as it is, and many damaged copies of it."""
import random

from tests.common import ID_LEN
from tests.made import sealed


def unsound(kind, body):
    """Copies whose first path is above all others, and whose cached tree counts more at its root."""
    first, tree = 12 + 40 + ID_LEN[kind] + 2, body.find(b"TREE")
    yield body[:first] + b"\xff" + body[first + 1 :]
    if tree >= 0:
        yield body[: tree + 9] + b"9" + body[tree + 10 :]


def damaged(kind, data):
    """The bytes as they are, and many damaged ones."""
    draw = random.Random(len(data))
    body = data[: -ID_LEN[kind]]
    yield data
    yield b""
    yield body + bytes(ID_LEN[kind])
    for end_at in (*range(0, 13), *(draw.randrange(len(data)) for _ in range(6)), len(data) - 1):
        yield data[:end_at]
        yield sealed(kind, data[:end_at])
    for at in (*range(4, 12), *(draw.randrange(len(body)) for _ in range(6))):
        other = body[:at] + bytes([body[at] ^ draw.randrange(1, 256)]) + body[at + 1 :]
        yield other + data[len(body) :]
        yield sealed(kind, other)
    for other in unsound(kind, body):
        yield sealed(kind, other)
    yield sealed(kind, body + b"zzzz\0\0\0\0")
    yield sealed(kind, body + b"sdir\0\0\0\1x")
    yield sealed(kind, body + b"link\0\0\0\1x")
    yield sealed(kind, body + b"x")
