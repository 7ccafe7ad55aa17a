"""Files that the model makes: of entries, with trailers, and long ones."""
import hashlib

from tests.common import ID_LEN
from tests.model import state, words, writing

# How many entries a file has, and how many bytes their paths have.
SIZES = {"three entries": (3, 10), "70 KiB": (750, 30), "1.5 MiB": (20_000, 10)}


def sealed(kind, data):
    """The bytes with their digest at the end."""
    return data + hashlib.new(kind, data).digest()


def trailers(kind, data):
    """The bytes with their digest, and with a null trailer."""
    return sealed(kind, data), data + bytes(ID_LEN[kind])


def table(kind, size):
    """The entries of a file of a size."""
    count, length = SIZES[size]
    return words.list_of(f"[{';'.join(f'{number:06d}'.ljust(length, 'a') for number in range(count))}]", kind)


def image(entries, is_version_4):
    """All bytes of the file of entries."""
    return writing.image(entries, writing.Options(is_version_4=is_version_4))[2]


def body(kind, version, listed):
    """A file of these entries without a trailer."""
    found = state.State(kind)
    for one in listed:
        found.push(one)
    return writing.body(found, writing.Options(is_version_4=version == 4))[1]
