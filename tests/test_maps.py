"""What `map`, `salvage` and `show` tell of whole and of damaged files is what the model finds in them.

Files of either kind of id and of each version are cut at each byte; each byte of the header and of the trailer is
changed; the number of entries is wrong; entries are out of order or there twice; a length field passes the end; each
extension is malformed, and must or need not be understood. Each file has its old trailer, the digest of its bytes, and
a null one. The lines of `map` are those of the model, the status is 1 where the model can't read the file as an index,
and then one line names the fault with the offset of the last part. `salvage` writes an index of the entries before that
which have a path, of each path and stage the first, in order; and tells of them, and of the same fault. It has the mark
of a sparse index where one of these is that of a whole directory, whether the file has it or not. Where the header
can't be read, nothing is written. A split index whose link is whole is saved with the entries of its shared index, if
that is there and the bitmaps fit; such files are damaged after the link, too. `show` prints the lines that the model
has of a file that can be read, and else one line of fault.
"""
import functools
import pathlib
import re
import tempfile

from tests.case import Case
from tests.common import ID_LEN, KINDS, answer
from tests.each import in_processes
from tests.made import body
from tests.model import entries, extensions, parts, shown, state, writing
from tests.model.bytes import digest, null_id
from tests.model.files import Folder

PATHS = (b"a", b"dir/\xc3\xa4\n\\", b"dir/sub/longer name")
OPTIONAL = (b"TREE", b"REUC", b"UNTR", b"FSMN", b"EOIE", b"IEOT", b"\n\\~\xff")
MANDATORY = (b"link", b"sdir", b"zzzz")


def entry(kind, path, flags=0, mode=entries.FILE):
    return entries.Entry(path, bytes([0x11]) * ID_LEN[kind], mode, flags)


def directory(kind, path):
    """What stands for a whole directory in a sparse index."""
    return entry(kind, path, mode=entries.DIRECTORY)


def entries_of(kind, version):
    """Three entries, of which the second asks for version 3 where that is wanted."""
    flags = entries.EXTENDED | entries.INTENT_TO_ADD if version == 3 else 0
    return [entry(kind, path, flags if place == 1 else 0) for place, path in enumerate(PATHS)]


def shared_index(kind):
    """The id of a shared index of four entries, the last of which stands for a directory, and its bytes."""
    found = state.State(kind)
    for path in (b"b", b"dir/sub/longer name", b"m"):
        found.push(entry(kind, path))
    found.push(directory(kind, b"z/"))
    return writing.image(found)[1:]


def bitmap(places):
    """A bitmap of 64 bits, of which these are set."""
    bits = sum(1 << place for place in places)
    return bytes.fromhex("00000040 00000002 0000000200000000") + bits.to_bytes(8, "big") + bytes(4)


def linked(kind, version):
    """Split indices without a trailer: what their link names is there, missing, null, or doesn't fit."""
    whole = body(kind, version, entries_of(kind, version))
    replacing = body(kind, version, [entry(kind, b""), *entries_of(kind, version)])
    shared = shared_index(kind)[0]
    for name in (shared, null_id(kind), bytes([0x11]) * ID_LEN[kind]):
        for delete, replace in ((), ()), ((1, 2), ()), ((0, 6), (3,)), ((), (0, 1)), ((7, 8), ()), ((), (4,)):
            content = name + bitmap(delete) + bitmap(replace)
            yield whole + writing.item_bytes(b"link", content)
            yield replacing + writing.item_bytes(b"link", content)
    link = writing.item_bytes(b"link", shared + bitmap((1,)) + bitmap((0,)))
    yield whole + writing.item_bytes(b"link", shared)
    yield replacing + link + writing.item_bytes(b"link", shared + bitmap((2,)) + bitmap(()))
    yield replacing + link + writing.item_bytes(b"link", shared + b"more")
    yield replacing + link + writing.item_bytes(b"zzzz", b"")
    behind = replacing + link + writing.item_bytes(b"TREE", bytes(40))
    yield from (behind[:length] for length in range(len(replacing), len(behind)))


def trailers(kind, data, old):
    """The bytes with each trailer."""
    yield data + old
    yield data + digest(kind, data)
    yield data + null_id(kind)


def changed(data, places):
    """Each of these bytes is another."""
    for place in places:
        yield data[:place] + bytes([data[place] ^ 0x41]) + data[place + 1:]


def monitors():
    """File system monitors with runs side by side, with one past the declared bits, and with words that break off."""
    for bits, *words in (
        (300, 1 | 1 << 1, 1 | 2 << 1 | 1 << 33, 0b111), (100, 1 | 2 << 1), (200, 1 | 1 << 1 | 2 << 33, 1),
        (0, 1 | 1 << 1), (64, 1 << 33, 1 << 63 | 0b1011), (2 ** 32 - 1, 2 ** 33 - 1),
    ):
        spelled = b"".join(word.to_bytes(8, "big") for word in words)
        bitmap = bits.to_bytes(4, "big") + len(words).to_bytes(4, "big") + spelled + bytes(4)
        yield b"\0\0\0\2token\0" + len(bitmap).to_bytes(4, "big") + bitmap


def trees():
    """Cached trees as deep as the directories that `show` indents furthest, less deep by one, and deeper by three."""
    for depth in (shown.DEEPEST_INDENT - 1, shown.DEEPEST_INDENT, shown.DEEPEST_INDENT + 3):
        yield b"\0-1 2\n" + b"a\0-1 1\n" * (depth - 1) + b"a\0-1 0\n" + b"b\0-1 0\n"


def bodies(kind, version):
    """What stands before a trailer, whole and damaged."""
    listed = entries_of(kind, version)
    whole = body(kind, version, listed)
    yield whole
    yield from changed(whole, range(12))
    for count in (0, 1, 2, 4, 5, 255, 2 ** 32 - 1):
        yield whole[:8] + count.to_bytes(4, "big") + whole[12:]
    for order in ((2, 1, 0), (0, 0, 1), (1, 1, 1), (0, 2, 1)):
        yield body(kind, version, [listed[place] for place in order])
    word = 12 + 40 + ID_LEN[kind]
    for field in (b"\x0f\xfe", b"\x0f\xff", b"\x00\x00", b"\x00\x09"):
        yield whole[:word] + field + whole[word + 2:]
    for signature in OPTIONAL + MANDATORY:
        for content in (b"", b"\0", b"malformed", bytes(64)):
            yield whole + writing.item_bytes(signature, content)
            yield whole + writing.item_bytes(b"TREE", b"x") + writing.item_bytes(signature, content) + b"more"
        yield whole + signature + b"\0\0\xff\xff"
        yield whole + signature + b"\0\0\xff\xff" + b"behind"
    yield whole + writing.item_bytes(b"link", bytes([0x11]) * ID_LEN[kind])
    items = [(b"TREE", b"x")]
    yield whole + writing.item_bytes(*items[0]) + extensions.end_marker_bytes(kind, len(whole), items)
    yield whole + writing.item_bytes(*items[0]) + extensions.end_marker_bytes(kind, 12, items)
    table = (b"IEOT", b"\0\0\0\1" + b"\0\0\0\x0c\0\0\0\2" + bytes(8))
    yield whole + writing.item_bytes(*table) + extensions.end_marker_bytes(kind, len(whole), [table])
    yield whole + writing.item_bytes(b"IEOT", b"") + writing.item_bytes(*table) + writing.item_bytes(b"EOIE", bytes(24))
    yield from (whole + writing.item_bytes(b"FSMN", content) for content in monitors())
    yield from (whole + writing.item_bytes(b"TREE", content) for content in trees())
    yield from sparse(kind, version)


def sparse(kind, version):
    """Entries that stand for directories, in order and not, more than once and without a path; with the mark of a
    sparse index, and without."""
    one, two, nameless = directory(kind, b"b/"), directory(kind, b"z/"), directory(kind, b"")
    files = entries_of(kind, version)
    for listed in ([one], [nameless], [nameless, *files], [*files, two], [two, *files], [*files, two, two],
                   [entry(kind, b"b/"), one], [one, entry(kind, b"b/"), two], [*files, *files]):
        whole = body(kind, version, listed)
        yield whole
        yield whole + writing.item_bytes(b"sdir", b"")
        yield whole + writing.item_bytes(b"sdir", b"content")
        yield whole[:-10]


def files(kind, version):
    """Whole files and damaged ones, each once."""
    whole = body(kind, version, entries_of(kind, version))
    sealed = whole + digest(kind, whole)
    yield from (sealed[:length] for length in range(len(sealed) + 1))
    yield from changed(sealed, range(len(whole), len(sealed)))
    for data in [*bodies(kind, version), *linked(kind, version)]:
        yield from trailers(kind, data, sealed[len(whole):])


def is_index(data, kind):
    """Whether the bytes can be read as an index."""
    try:
        state.read_file(data, kind)
    except state.Fault:
        return False
    return True


def is_held(tool, place, kind, data):
    """Whether the program prints of a file what the model finds, and whether that has a fault where it is no index."""
    status, out, faults = answer((tool, "map", kind, place))
    found = parts.parts_of(data, kind)
    if out != found.lines() or found.is_damaged == is_index(data, kind):
        return False
    if not found.is_damaged:
        return (status, faults) == (0, b"")
    begin = b"index-tool: %s: at byte %d: " % (bytes(place), found.last)
    return status == 1 and faults.startswith(begin) and faults.count(b"\n") == 1


def is_saved(tool, place, kind, data):
    """Whether the program saves of a file what the model does, with and without `--all`."""
    return all(is_saved_so(tool, place, kind, data, keeps_all) for keeps_all in (False, True))


def is_saved_so(tool, place, kind, data, keeps_all):
    """Whether it is so with these words, and whether the program tells of it and of the fault that `map` names."""
    made = place.with_name("saved")
    made.unlink(missing_ok=True)
    status, out, faults = answer((tool, "salvage", *(["--all"] if keeps_all else []), kind, place, made))
    found = parts.parts_of(data, kind)
    line = b"index-tool: %s: " % bytes(place)
    fault = answer((tool, "map", kind, place))[2].partition(b": at byte ")[2].rstrip(b"\n")
    if len(found.found) == 1:
        line += fault.partition(b": ")[2] + b"\n"
        return (status, out, faults) == (1, b"", line) and not made.exists()
    kept, counts, told = found.saved(kind, Folder(place.parent), keeps_all)
    wanted = state.State(kind)
    for one in kept:
        wanted.push(one)
    wanted.is_sparse = any(one.mode == entries.DIRECTORY for one in wanted.entries)
    ending = (b"; first fault at " + fault if fault else b"") + told + b"\n"
    image = writing.image(wanted, writing.Options(is_kept=True, is_version_4=found.version == 4))[2]
    # (the words of what is wrong with an entry aren't the model's)
    words = rb"[^;\n]+" if counts.endswith(b": ") else b""
    is_told = re.fullmatch(re.escape(line + counts) + words + re.escape(ending), faults) is not None
    is_written = (status, out) == (0, b"") and made.read_bytes() == image
    return is_told and is_written and answer((tool, "check", kind, made)) == (0, b"ok\n", b"")


def is_shown(tool, place, kind, data):
    """Whether the program shows of a file what the model reads in it."""
    status, out, faults = answer((tool, "show", kind, place))
    if not is_index(data, kind):
        return (status, out, faults.count(b"\n")) == (1, b"", 1)
    wanted = shown.shown(*state.read_file(data, kind), state.read_marks(data, kind))
    return (status, out, faults) == (0, wanted, b"")


def looked_at(tool, look, version):
    """The files of a version of which something isn't so, and how many files there were; in a folder of their own."""
    kind, number = version
    with tempfile.TemporaryDirectory(prefix="maps-") as folder:
        place = pathlib.Path(folder) / "index"
        name, shared = shared_index(kind)
        place.with_name(f"sharedindex.{name.hex()}").write_bytes(shared)
        every, wrong = [*dict.fromkeys(files(kind, number))], []
        for data in every:
            place.write_bytes(data)
            wrong += [] if look(tool, place, kind, data) else [data]
        return len(every), wrong


class Maps(Case):
    def look(self, look):
        """At all files, of two kinds and three versions side by side."""
        versions = [(kind, version) for kind in KINDS for version in (2, 3, 4)]
        found = in_processes(functools.partial(looked_at, self.tool, look), versions)
        for (kind, version), (count, wrong) in zip(versions, found):
            self.hold_all(("", True) for _ in range(count - len(wrong)))
            self.hold_all((f"{kind}, version {version}: {data.hex()}", False) for data in wrong)

    def test_maps_are_those_of_the_model(self):
        self.look(is_held)

    def test_what_is_saved_is_that_of_the_model(self):
        self.look(is_saved)

    def test_what_is_shown_is_that_of_the_model(self):
        self.look(is_shown)
