"""Numbers drawn at random from a fixed seed, the same ones with each version of Python."""

import hashlib


class Draws:
    """Numbers that SHA-256 makes of a name and a count."""

    def __init__(self, name):
        self.name, self.count = name, 0

    def below(self, bound):
        """A number from 0 up to the bound, which isn't one of them."""
        self.count += 1
        drawn = hashlib.sha256(f"{self.name} {self.count}".encode()).digest()
        return int.from_bytes(drawn[:8], "big") % bound

    def once_in(self, count):
        """Whether what happens once in so many draws happens now."""
        return self.below(count) == 0

    def one_of(self, items):
        return items[self.below(len(items))]

    def some_of(self, items):
        """Each item or not, in their order."""
        return [item for item in items if self.once_in(2)]

    def shuffled(self, items):
        left, found = list(items), []
        while left:
            found.append(left.pop(self.below(len(left))))
        return found
