"""Compressed bitmaps, by gitformat-bitmap: words of 64 bits, of which each run word says what follows it."""

from dataclasses import dataclass

from tests.model.bytes import Unreadable, number, numbers

# What stands in the place of a position where the words break off.
MALFORMED = "malformed"

LAST_PLACE = 2 ** 64 - 1
# A word whose bits are all set.
FULL = 2 ** 64 - 1


class PartMissing(Exception):
    """A bitmap can't be read: the part that its bytes lack."""

    def __init__(self, part):
        super().__init__(part)
        self.part = part


@dataclass
class Bitmap:
    """The declared number of bits, and the words."""

    bits: int
    words: list

    def positions(self):
        """The places of the bits that are 1, ascending.

        The last item is `MALFORMED` where the words break off, or where a place is past what 64 bits hold.
        """
        for place in self.unbounded_positions():
            if place == MALFORMED or place > LAST_PLACE:
                yield MALFORMED
                return
            yield place

    def is_within(self, count):
        """Whether no more bits than this are declared, each that is 1 is among so many, and no words are missing."""
        return self.bits <= count and all(run != MALFORMED and run.stop <= count for run in self.runs())

    def unbounded_positions(self):
        for run in self.runs():
            if run == MALFORMED:
                yield MALFORMED
                return
            yield from run

    def runs(self):
        """The same places as ranges, one for the run of a run word, and one for each bit of a literal word."""
        place, at = 0, 0
        while at < len(self.words):
            word = self.words[at]
            bit, run, literals = word % 2, word // 2 % 2 ** 32 * 64, word // 2 ** 33
            if bit and run:
                yield range(place, place + run)
            follow = self.words[at + 1:at + 1 + literals]
            if len(follow) < literals:
                yield MALFORMED
                return
            place, at = place + run, at + 1 + literals
            for literal in follow:
                yield from (range(place + digit, place + digit + 1) for digit in range(64) if literal >> digit & 1)
                place += 64

    def set_ranges(self):
        """The declared bits that are 1, as the fewest ranges, and whether the words break off before the last of them.

        A number of bits has 32 bits, so no place among those is past what 64 bits hold.
        """
        ranges = []
        for run in self.runs():
            if run == MALFORMED:
                return ranges, True
            declared = range(run.start, min(run.stop, self.bits))
            if declared and ranges and ranges[-1].stop == declared.start:
                ranges[-1] = range(ranges[-1].start, declared.stop)
            elif declared:
                ranges.append(declared)
            if run.stop > self.bits:
                break
        return ranges, False


def last_run(words):
    """The place of the last run word: the first word is one, and so is that behind the literal words of each."""
    last = place = 0
    while place < len(words):
        last, place = place, place + 1 + (words[place] >> 33)
    return last


def to_bytes(bitmap):
    """All bytes of a bitmap."""
    pieces = [bitmap.bits.to_bytes(4, "big"), len(bitmap.words).to_bytes(4, "big")]
    pieces += [word.to_bytes(8, "big") for word in bitmap.words]
    return b"".join(pieces) + last_run(bitmap.words).to_bytes(4, "big")


def of_places(places):
    """The bitmap that git's encoder makes of the places of bits, ascending: none is declared behind the last of them.

    A run word counts as many equal words as it can whose bits are all alike, and then the others up to the next such.
    """
    bits = places[-1] + 1 if places else 0
    plain = [0] * -(-bits // 64)
    for place in places:
        plain[place // 64] |= 1 << place % 64
    words = []
    while plain:
        first, runs, literals = plain[0], 0, 0
        if first in (0, FULL):
            runs = next((at for at, word in enumerate(plain) if word != first), len(plain))
        rest = plain[runs:]
        literals = next((at for at, word in enumerate(rest) if word in (0, FULL)), len(rest))
        words += [(runs > 0 and first == FULL) + 2 * runs + (literals << 33), *rest[:literals]]
        plain = rest[literals:]
    return Bitmap(bits, words or [0])


def read(data):
    """The bitmap at the front and what is left. `PartMissing` names the first part that isn't there."""
    part = "number of bits"
    try:
        bits, data = number(data, 4)
        part = "number of words"
        count, data = number(data, 4)
        part = "words"
        words, data = numbers(data, 8, count)
        part = "last run word"
        _, data = number(data, 4)
    except Unreadable:
        raise PartMissing(part) from None
    return Bitmap(bits, words), data
