"""An index in a file, read with the shared index that it links to."""

from pathlib import Path

from tests.model import merging, state
from tests.model.bytes import null_id


class Unread(Exception):
    """The file of this name can't be opened or read."""


class Folder:
    """The files of a folder by their names."""

    def __init__(self, path):
        self.path = Path(path)

    def __contains__(self, name):
        return (self.path / name).is_file()

    def __getitem__(self, name):
        return (self.path / name).read_bytes()

    def has(self, name):
        """Whether there is a file, or a folder, of this name."""
        return (self.path / name).exists()


def index_at(kind, name, files):
    """The state and the checksum of the index in a file, with its link followed and taken out."""
    found, checksum = state.read_file(bytes_of(name, files), kind)
    link, found.link = found.link, None
    if link is not None and link.shared != null_id(kind):
        found.entries = merging.merged(link, found, shared_at(kind, link.shared, files))
        found.fits = link.has_bitmaps
    return found, checksum


def shared_at(kind, checksum, files):
    """The shared index of this id, which its trailer has too, or a null one."""
    data = bytes_of(f"sharedindex.{checksum.hex()}", files)
    return state.read_file(data, kind, options=state.Options(checksum=checksum))[0]


def bytes_of(name, files):
    if name not in files:
        raise Unread(name)
    return files[name]
