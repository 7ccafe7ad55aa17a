"""Pieces and numbers at the front of a list of bytes, and digests.

Each reader answers a value and the bytes behind it, and raises `Unreadable` where the front spells no such value.
Numbers of several bytes are big-endian, as gitformat-index says.
"""

import hashlib

HASHES = {"sha1": hashlib.sha1, "sha256": hashlib.sha256}
ID_LENGTH = {"sha1": 20, "sha256": 32}


class Unreadable(Exception):
    """The bytes at the front spell no value of the kind that is asked for."""


def digest(kind, data):
    """The digest of the bytes, by FIPS 180-4."""
    return HASHES[kind](data).digest()


def null_id(kind):
    """The id whose bytes are all 0."""
    return bytes(ID_LENGTH[kind])


def kind_of_id(data):
    """The kind of hash whose ids have as many bytes, or None."""
    for kind, length in ID_LENGTH.items():
        if len(data) == length:
            return kind
    return None


def take(data, count):
    """The first `count` bytes."""
    if len(data) < count:
        raise Unreadable
    return data[:count], data[count:]


def number(data, width):
    """The number of the first `width` bytes."""
    piece, rest = take(data, width)
    return int.from_bytes(piece, "big"), rest


def numbers(data, width, count):
    """So many numbers of the same width."""
    piece, rest = take(data, width * count)
    found = [int.from_bytes(piece[at:at + width], "big") for at in range(0, len(piece), width)]
    return found, rest


def up_to(data, byte):
    """The bytes before the first `byte`; what is left begins behind that one. Asks for two bytes at least."""
    piece, found, rest = data.partition(bytes([byte]))
    if len(data) < 2 or not found:
        raise Unreadable
    return piece, rest


def offset_number(data):
    """The number that gitformat-pack spells for the offset of a delta.

    Bit 7 is set in each byte but the last. The other bits are joined, and 2^7, 2^14 and so on are added for each byte
    beyond the first, so that no number has two spellings. A number must be below 2^64.
    """
    length = next((place + 1 for place, byte in enumerate(data) if byte < 128), None)
    if length is None:
        raise Unreadable
    value = 0
    for byte in data[:length]:
        value = 128 * value + byte % 128
    value += sum(128 ** place for place in range(1, length))
    if value >= 2 ** 64:
        raise Unreadable
    return value, data[length:]


def offset_number_bytes(value):
    """The one spelling of the number."""
    length = 1
    while value >= 128 ** length:
        value -= 128 ** length
        length += 1
    digits = [value // 128 ** place % 128 for place in range(length)]
    digits.reverse()
    return bytes([128 + digit for digit in digits[:-1]] + digits[-1:])
