"""Index files that are longer than the windows in which files are read are listed, or refused, as short ones are.

Files of versions 2 and 4 have several windows, entries that lie across the end of one at each place of theirs, paths
that are longer than a window, and the least length that is read so, one byte less and one more. Each has its digest, a
null trailer, an extension after the entries, an end marker, and one that doesn't fit. `index-tool list` prints the
entries that the file was made of. The same comes out of a pipe, which isn't read in windows. Of a file with a byte
changed, cut, or longer by a byte (of one with a null trailer, cut), it prints no entry, and one line of fault.

All files that are listed with KIND are listed without it where they have a digest.
"""
import hashlib
import os
import resource
import threading

import worst  # (bench/worst.py)

from tests import failing
from tests.case import Case, needs
from tests.common import answer

# As large.rt and windows.rt have them.
SMALL, WINDOW = 1 << 20, 1 << 18
# How many bytes an extension has that isn't known.
UNKNOWN = 64 << 20
# How many bytes a hole has, and files that are no index, and how many such files may take.
HOLE, OTHER, HELD = 512 << 20, 64 << 20, 16 << 20
# What is said of a header that has another signature or version.
UNSIGNED = "Signature mismatch - this doesn't claim to be a header file"
UNSUPPORTED = "index version 5 isn't supported, but 2, 3 and 4 are"
# What is said outside of a repository of a trailer that tells no kind.
UNTOLD = (
    "neither its trailer nor a file config beside it says the kind of its ids, so KIND has to be given: sha1 or sha256"
)
# The forms of a file that are read in windows, as its variants count them: the others have a marker that doesn't fit.
IN_WINDOWS = (0, 1, 2, 7)


def deltas(paths):
    """Entries of version 4, each path as a difference to the one before."""
    last = b""
    for path in paths:
        shared = len(os.path.commonprefix((last, path)))
        yield worst.delta(len(last) - shared, path[shared:], len(path))
        last = path


def body(version, paths):
    """A file of these paths without its trailer."""
    data = worst.index(version, len(paths), *(map(worst.entry, paths) if version == 2 else deltas(paths)))
    return data[:-20]


def marker(start, *items):
    """An end marker behind these extensions, of which the first stands there."""
    heads = hashlib.sha1(b"".join(each[:8] for each in items)).digest()
    return worst.item(b"EOIE", start.to_bytes(4, "big") + heads)


def variants(data):
    """The file with its digest, with an extension, with end markers that fit and that don't, with a null trailer."""
    unknown = worst.item(b"ABCD", b"\x22" * 1000)
    ends = (b"", unknown, unknown + marker(len(data), unknown), marker(len(data), unknown), unknown + marker(len(data)))
    for behind in (*ends, unknown + marker(len(data) - 8, unknown), unknown + marker(12, unknown)):
        yield data + behind + hashlib.sha1(data + behind).digest()
    yield data + bytes(20)


def names(count, length):
    """So many paths of a length, in order."""
    return [b"%06d" % number + b"a" * (length - 6) for number in range(count)]


def lists():
    """Lists of paths, for files of 1 MiB and more."""
    for length in (10, 11, 13, 40, 62):
        yield names(1 + SMALL * 5 // 2 // (62 + length), length)
    yield [b"a" * WINDOW, *(b"b%d" % number for number in range(1000, 9999)), b"c" * (3 * WINDOW + 1), b"d"]
    yield [b"a" * (SMALL + 5)]
    # A file of the least length that is read in windows, in version 2, and those around it.
    for more in range(-16, 17, 8):
        yield [b"a" * (SMALL - 12 - 62 - 20 + more)]


def listed(paths):
    """What is listed of a file of these paths."""
    return b"".join(b"100644 %s 0\t%s\n" % (b"11" * 20, each) for each in paths)


def through_pipe(tool, path, data, **options):
    """What the tool answers where the path is a pipe's."""
    os.mkfifo(path)

    def give():
        with open(path, "wb") as out:
            out.write(data)

    thread = threading.Thread(target=give)
    thread.start()
    found = answer((tool, "list", "sha1", path), **options)
    thread.join()
    path.unlink()
    return found


def largest_requests(tool, path, paths):
    """Whether each form that is sound is listed without a request for as many bytes as it has."""
    wanted, counts = listed(paths), path.with_name("counts")
    for version in (2, 4):
        for place, data in enumerate(variants(body(version, paths))):
            if place not in IN_WINDOWS:
                continue
            path.write_bytes(data)
            done, numbers = failing.counts_of((tool, "list", "sha1", path), counts)
            is_listed, most = done == (0, wanted, b""), numbers["largest"]
            what = f"version {version}, form {place} of {len(data)} bytes: {most} are asked for at once"
            yield what, is_listed and most < len(data)


def of_the_unknown(path, paths, count, is_marked):
    """Writes a file of these paths and of an extension of so many bytes that isn't known, between two short ones."""
    short, start = worst.item(b"ABCD", b"abc"), body(2, paths)
    long = b"ABCD" + count.to_bytes(4, "big")
    digest = hashlib.sha1(start + short + long)
    for _ in range(count >> 20):
        digest.update(bytes(1 << 20))
    behind = short + marker(len(start), short, long, short) * is_marked
    digest.update(behind)
    with path.open("wb") as out:
        out.write(start + short + long)
        out.seek(count, os.SEEK_CUR)
        out.write(behind + digest.digest())


def bounded(count):
    """What bounds the addresses of a program that is begun: to 40 MiB and so many."""
    return lambda: resource.setrlimit(resource.RLIMIT_AS, (count + (40 << 20),) * 2)


def held():
    """Bounds the data of a program that is begun to what a file without a header may take."""
    resource.setrlimit(resource.RLIMIT_DATA, (HELD,) * 2)


def headless():
    """Files without a header, each with its first fault, which may be its digest, and with that of its header."""
    body = b"\x01" * (OTHER - 20)
    digest = hashlib.sha1(body).hexdigest()
    why = "the file may be damaged, have ids of the other kind, or be no index"
    yield body + b"\x01" * 20, f"the index's digest is {digest} and not {'01' * 20}: {why}", UNSIGNED
    yield body + bytes.fromhex(digest), UNSIGNED, UNSIGNED
    body = b"DIRC" + (5).to_bytes(4, "big") + body[8:]
    yield body + hashlib.sha1(body).digest(), UNSUPPORTED, UNSUPPORTED
    yield body + bytes(20), UNSUPPORTED, UNSUPPORTED


def refused(path, wanted, *words):
    """Whether a program with these words refuses a file by this text, and takes little memory; and what it answers."""
    found = answer(words, preexec_fn=held)
    is_right = found == (1, b"", f"index-tool: {path}: {wanted}\n".encode())
    return f"{' '.join(map(str, words[1:3]))} of {path.stat().st_size} bytes without a header: {found}", is_right


def told_as_one_part(tool, path, fault):
    """Whether `map` and `map-svg` tell that all bytes of a file are one part, by the fault of its header."""
    size = path.stat().st_size
    wanted = f"index-tool: {path}: at byte 0: {fault}\n".encode()
    status, out, faults = answer((tool, "map", "sha1", path), preexec_fn=held)
    is_right = (status, out, faults) == (1, b"0\t%d\tunread\n" % size, wanted)
    yield f"map of {size} bytes without a header: {status}, {out[:100]}, {faults}", is_right
    status, out, faults = answer((tool, "map-svg", "sha1", path), preexec_fn=held)
    is_whole = out.startswith(b"<svg ") and out.endswith(b"</svg>\n") and str(size).encode() in out
    yield f"map-svg of them: {status}, {out[:100]}, {faults}", is_whole and (status, faults) == (1, wanted)


def not_held(tool, path, fault):
    """Whether a file is refused by the fault of its header: `salvage` makes none; and `--auto` one without DIRC."""
    yield from told_as_one_part(tool, path, fault)
    out = path.with_name("out")
    yield refused(path, fault, tool, "salvage", "sha1", path, out)
    made = [each.name for each in path.parent.iterdir() if each.name.startswith(out.name)]
    yield f"salvage leaves {made}", not made
    with path.open("rb") as file:
        start = file.read(4)
        file.seek(-20, os.SEEK_END)
        is_null = file.read() == bytes(20)
    wanted = fault
    if start != b"DIRC":
        shown = "".join(f"\\x{byte:02x}" for byte in start)
        wanted = f'no index of git: it begins with "{shown}" and not with DIRC'
    elif is_null:
        wanted = UNTOLD
    yield refused(path, wanted, tool, "list", "--auto", path)


def of_hole(tool, path):
    """Whether a file that is a hole is refused by its header, and takes little memory."""
    with path.open("wb") as hole:
        hole.truncate(HOLE)
    for command in ("list", "check", "show"):
        yield refused(path, UNSIGNED, tool, command, "sha1", path)
    yield from not_held(tool, path, UNSIGNED)


def of_no_header(tool, path, pipe):
    """Whether files without a header are refused as they should be, and take little memory."""
    for place, (data, wanted, fault) in enumerate(headless()):
        path.write_bytes(data)
        yield refused(path, wanted, tool, "list", "sha1", path)
        yield from not_held(tool, path, fault)
        found = through_pipe(tool, pipe, data, preexec_fn=held)
        is_right = found == (1, b"", f"index-tool: {pipe}: {wanted}\n".encode())
        yield f"file {place} without a header, through a pipe: {found}", is_right


def marked_wrongly(start):
    """What may stand behind entries that end there: several extensions, and an end marker that doesn't fit them."""
    unknown, other, known = worst.item(b"ABCD", b"abc"), worst.item(b"WXYZ", bytes(WINDOW)), worst.item(b"TREE", b"")
    items = unknown + other + known
    for heads in ((unknown, other), (other, unknown, known), (unknown, known), (unknown, other, known, known)):
        yield items + marker(start, *heads)
    fits = marker(start, unknown, other, known)
    yield items + fits + unknown
    yield items + unknown + fits
    yield items[:-1] + fits
    for place in range(8, len(fits)):
        yield items + fits[:place] + bytes([fits[place] ^ 1]) + fits[place + 1 :]


def resized(tool, path, data, wanted):
    """Whether a file that has another length before its nth reading is refused, or listed as it was."""
    for size in (0, len(data) // 2, len(data) - 1, len(data) + 1, 2 * len(data)):
        told = set()
        for nth in range(1, 32):
            path.write_bytes(data)
            status, out, faults = answer((tool, "list", "sha1", path), env=failing.settings(NTH=nth, SIZE=size))
            told.add(status)
            is_right = (status, out, faults) == (0, wanted, b"") or (status, out, faults.count(b"\n")) == (1, b"", 1)
            yield f"{size} bytes in place of {len(data)} before reading {nth}: {status}, {faults}", is_right
        yield f"{size} bytes in place of {len(data)}: statuses {told}", told == {0, 1}


class Windows(Case):
    def setUp(self):
        room = self.room()
        self.path, self.pipe = room / "index", room / "pipe"

    def listing(self, word="sha1", **options):
        return answer((self.tool, "list", word, self.path), **options)

    def forms(self):
        """Each form of each file: its name, its place among the forms, its bytes, and what is listed of it."""
        for paths in lists():
            wanted = listed(paths)
            for version in (2, 4):
                for place, data in enumerate(variants(body(version, paths))):
                    what = f"version {version}, {len(paths)} paths, the first of {len(paths[0])} bytes, form {place}"
                    yield what, place, data, wanted

    def test_each_form_is_listed(self):
        for what, place, data, wanted in self.forms():
            self.path.write_bytes(data)
            self.hold(what, self.listing() == (0, wanted, b""))
            if place == 0:
                self.hold(f"{what}, checked", answer((self.tool, "check", "sha1", self.path)) == (0, b"ok\n", b""))

    def test_each_form_is_listed_without_kind(self):
        for what, place, data, wanted in self.forms():
            if place in (0, 7):
                self.path.write_bytes(data)
                untold = (1, b"", f"index-tool: {self.path}: {UNTOLD}\n".encode())
                found = self.listing("--auto")
                self.hold(f"{what}, without KIND: {found[2]}", found == (untold if place else (0, wanted, b"")))

    def test_each_file_is_listed_through_a_pipe(self):
        for what, place, data, wanted in self.forms():
            if place == 0:
                self.hold(f"{what}, through a pipe", through_pipe(self.tool, self.pipe, data) == (0, wanted, b""))

    def test_damaged_forms_are_refused(self):
        for what, _, data, _ in self.forms():
            middle = len(data) // 2
            changed = data[:middle] + bytes([data[middle] ^ 1]) + data[middle + 1 :]
            for how, wrong in (("changed", changed), ("cut", data[:-21]), ("longer", data + b"\0")):
                if how == "cut" or not data.endswith(bytes(20)):
                    self.path.write_bytes(wrong)
                    status, out, faults = self.listing()
                    self.hold(f"{what}, {how}", (status, out, faults.count(b"\n")) == (1, b"", 1))

    def test_end_markers_that_do_not_fit_change_nothing(self):
        data = body(2, names(SMALL // 50, 40))
        for place, behind in enumerate(marked_wrongly(len(data))):
            self.path.write_bytes(data + behind + hashlib.sha1(data + behind).digest())
            found, wanted = self.listing(), through_pipe(self.tool, self.pipe, self.path.read_bytes())
            what = f"extensions with wrong marker {place}: {found[2]}"
            self.hold(what, found[0] == wanted[0] and found[1] == wanted[1])

    def test_long_extension_that_is_not_known_takes_little_memory(self):
        """64 MiB that aren't known take 40 MiB of addresses and the room for paths, or with an end marker 40 MiB."""
        paths = names(3, 40)
        for is_marked in (False, True):
            of_the_unknown(self.path, paths, UNKNOWN, is_marked)
            # (if no marker says how long entries are, room for paths is as long as the file)
            bound = bounded(0 if is_marked else UNKNOWN)
            calls = (("list", "sha1", listed(paths)), ("check", "sha1", b"ok\n"), ("list", "--auto", listed(paths)))
            for command, word, wanted in calls:
                found = answer((self.tool, command, word, self.path), preexec_fn=bound)
                what = f"{command} {word} of a long extension that isn't known, end marker {is_marked}"
                self.hold(f"{what}: {found}", found == (0, wanted, b""))

    def test_hole_is_refused_by_its_header_in_little_memory(self):
        """A hole of 512 MiB, whose trailer is null, in 16 MiB of data. `salvage` makes no file of it."""
        self.hold_all(of_hole(self.tool, self.path))

    def test_files_without_a_header_are_refused_in_little_memory(self):
        """64 MiB of other bytes, which end in their digest, are null there, or neither, in 16 MiB of data."""
        self.hold_all(of_no_header(self.tool, self.path, self.pipe))

    @needs("cc")
    def test_file_that_changes_its_length_meanwhile_is_refused(self):
        """It grows or shrinks before each of its readings in turn: no part of it is listed then."""
        paths = names(SMALL // 50, 40)
        self.hold_all(resized(self.tool, self.path, next(variants(body(2, paths))), listed(paths)))

    @needs("cc")
    def test_no_request_for_memory_is_as_large_as_the_file(self):
        """So it is where the end marker fits, or where there is none: the file is read in windows."""
        # (paths of a length by which neither all of them nor all entries beside them take as much as the file)
        self.hold_all(largest_requests(self.tool, self.path, names(SMALL // 50, 60)))
