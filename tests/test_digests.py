"""The digest of an index is that of Python's hashlib, of files of each length up to 1,100 bytes past the least.

A file has no entries, and an extension of so many bytes that isn't known, so that its digest is of a message of each
length in turn: of each rest of a block, and of each number of blocks up to seventeen. `index-tool list` prints nothing
of it, with status 0. With one byte of the content changed, which differs from length to length, it refuses the file.
"""
import hashlib

import worst  # (bench/worst.py)

from tests.case import Case
from tests.common import answer


def file_of(kind, length):
    """An index without entries and with so many bytes in an extension."""
    content = bytes(place * 7 % 251 for place in range(length))
    body = b"DIRC" + (2).to_bytes(4, "big") + bytes(4) + worst.item(b"ABCD", content)
    return body + hashlib.new(kind, body).digest()


def damaged(data, length):
    """Returns the file with one byte of the content changed, if it has any."""
    place = 20 + length * length % max(length, 1)
    return data[:place] + bytes([data[place] ^ 1]) + data[place + 1 :]


class Digests(Case):
    def look(self, kind, most):
        path = self.room() / "index"
        for length in range(most + 1):
            data = file_of(kind, length)
            path.write_bytes(data)
            is_right = answer((self.tool, "list", kind, path)) == (0, b"", b"")
            path.write_bytes(damaged(data, length))
            is_right = is_right and answer((self.tool, "list", kind, path))[0] == 1
            self.hold(f"{length} bytes in the extension", is_right)

    def test_sha1(self):
        self.look("sha1", 1_100)

    def test_sha256(self):
        """The kit's crate has it, which is tested there, so that fewer lengths suffice."""
        self.look("sha256", 200)
