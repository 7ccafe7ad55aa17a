"""Callers in C and in Rust read and write long files and pipes whole, and tell where calls of the system fail.

Neither git nor `index-tool` is asked. The model makes the files: of three entries, of 70 KiB, which no first room for a
pipe holds, and of 1.5 MiB; of both kinds of ids, in versions 2 and 4. The examples list and check each by its path and
through a pipe, and write it anew, in its own version and in version 4, byte for byte as the model does. A table of a
file without a link is filled from its bytes, so that nothing larger than these is asked for.

The examples that write do so over a file of 70 KiB behind a symbolic link. By tests/refused.c each call of the system
fails in turn, moves one byte, and is interrupted. The index is the old one or the new one, with permissions and time of
the old one, and no lock is left. tests/files.c counts, in the same way, the files that are open after each call of
c/gix_index_file.h. There each request for memory is refused too: a split index, read by its path, is never one without
its shared entries, nor told to be damaged. One that is damaged never passes a check.
"""
import contextlib
import errno
import itertools
import os
import shutil
import threading

from tests import failing, installed
from tests.case import Case, needs
from tests.common import KINDS, answer
from tests.failing import ALONE, GOING_ON
from tests.made import image, table
from tests.model import extensions, writing
from tests.model.bytes import digest

USED = ("list", "check", "rewrite")
COUNTED = ("call", "move", "wait")
# How many calls may fail and change nothing: C's closing of the file that was read, and both closings in Rust, whose
# library doesn't tell of them.
PASSED_OVER = {"C": 1, "Rust": 2}
# What a call of the system says that fails.
ERROR = os.strerror(errno.EIO).encode()


def through_pipe(words_of, path, data):
    """What is answered where the path is a pipe's, which need not be read to its end."""
    os.mkfifo(path)

    def give():
        with contextlib.suppress(BrokenPipeError), open(path, "wb", buffering=0) as out:
            out.write(data)

    thread = threading.Thread(target=give)
    thread.start()
    found = answer(words_of)
    # (what was never opened lets the writer go)
    os.close(os.open(path, os.O_RDONLY | os.O_NONBLOCK))
    thread.join()
    path.unlink()
    return found


def readings(room, kind, programs, data, wanted):
    """What is looked at of a file that is read."""
    path, pipe = room / "read.index", room / "pipe.index"
    path.write_bytes(data)
    for language, those in programs.items():
        for word, told in (("list", wanted), ("check", b"ok\n")):
            whole = (0, told, b"")
            yield f"a {word} in {language}", answer((those[word], kind, path)) == whole
            piped = through_pipe((those[word], kind, pipe), pipe, data)
            yield f"a {word} of a pipe in {language}", piped == whole


def rewritings(room, kind, programs, data, in_four):
    """What is looked at of a file that is written anew."""
    path, out = room / "read.index", room / "written.index"
    for language, those in programs.items():
        for more, wanted in (((), data), (("4",), in_four)):
            out.unlink(missing_ok=True)
            is_done = answer((those["rewrite"], kind, path, out, *more)) == (0, b"", b"")
            yield f"a rewriting in {language}{more}", is_done and out.read_bytes() == wanted


def each_file(room, programs, size):
    """What is looked at of each file of a size."""
    for kind in KINDS:
        entries = table(kind, size)
        wanted = b"".join(b"100644 %s 0\t%s\n" % (it.id.hex().encode(), it.path) for it in entries.entries)
        in_four = image(entries, True)
        for data in (image(entries, False), in_four):
            looks = (readings(room, kind, programs, data, wanted), rewritings(room, kind, programs, data, in_four))
            for what, holds in itertools.chain(*looks):
                yield f"{kind}, version {data[7]}: {what}", holds


def memory(room):
    """What is looked at of the memory that is asked for where a table is filled."""
    path = room / "short.index"
    data = image(table("sha1", "1.5 MiB"), False)
    path.write_bytes(data)
    done, told = failing.counts_of((installed.in_c("list"), "sha1", path), room / "counts")
    most = told["largest"]
    yield f"a table in C, for which {most} bytes are asked for", done[0] == 0 and most == len(data) + 1


def each_failure(totals, *more):
    """How each call of the system fails, moves one byte, or is interrupted: a name and variables of refused.c."""
    kinds = (("call", ALONE), ("call", GOING_ON), ("move", ALONE), ("wait", ALONE), *more)
    for what, refusal in failing.each(totals, *kinds):
        yield what, {"ALSO": 1} | refusal


def rewritten(program_of, place, refusal):
    """What is answered where an index, by way of a link, is rewritten in version 4; the file, and if a lock is left."""
    index, link = place / "index", place / "link"
    shutil.copy(place / "old", index)
    index.chmod(0o640)
    os.utime(index, (1600000000, 1600000000))
    (place / "index.lock").unlink(missing_ok=True)
    counts = place / "counts"
    counts.unlink(missing_ok=True)
    words_of = (program_of, "sha1", link, link, "4")
    done = answer(words_of, env=failing.settings(COUNTS=counts, **refusal))
    seen = index.stat()
    return done, (index.read_bytes(), seen.st_mode, seen.st_mtime), (place / "index.lock").exists()


def failures(room, writers):
    """What is looked at where the examples that write are refused calls of the system."""
    place = room / "failing"
    place.mkdir()
    entries = table("sha1", "70 KiB")
    (place / "old").write_bytes(image(entries, False))
    (place / "link").symlink_to("index")
    for language, program_of in writers.items():
        done, new, _ = rewritten(program_of, place, {"ALSO": 1})
        totals = failing.counts_in(place / "counts")
        # (two readings, and one writing at least)
        yield f"calls in {language}: {totals}", totals["call"] > 8 and totals["move"] > 1 and totals["wait"] > 4
        is_written = new[0] == image(entries, True) and new[2] == 1600000000 and new[1] & 0o777 == 0o640
        yield f"a rewriting in {language}", done == (0, b"", b"") and is_written
        old, passed_over = (place.joinpath("old").read_bytes(), *new[1:]), 0
        for what, refusal in each_failure(totals):
            (status, out, faults), file, is_locked = rewritten(program_of, place, refusal)
            # (where all calls fail from then on, nothing can be told, nor a lock be removed)
            is_last = "ON" in refusal
            is_told = status != 0 if is_last else (status, faults.count(b"\n"), ERROR in faults) == (1, 1, True)
            is_refused = refusal["KIND"] == "call" and is_told and file == old
            is_done = (status, faults) == (0, b"") and file == new
            holds = (is_done or is_refused) and out == b"" and (is_last or not is_locked)
            passed_over += is_done and refusal["KIND"] == "call"
            yield f"{what} of {totals} refused in {language}", holds
        yield f"calls that failed unseen in {language}: {passed_over}", passed_over == PASSED_OVER[language]


def split_index(place, change=0):
    """Writes a split index without entries, whose shared one has three, of which a byte may be changed."""
    old = image(table("sha1", "three entries"), False)
    # (a link that takes nothing out of the shared one, by bitmaps of three bits, all zero, for which memory is asked)
    bitmap = bytes.fromhex("00000003 00000001 0000000000000002 00000000")
    link = writing.item_bytes(extensions.LINK, old[-20:] + 2 * bitmap)
    split = old[:8] + bytes(4) + link
    (place / "split.index").write_bytes(split + digest("sha1", split))
    (place / f"sharedindex.{old[-20:].hex()}").write_bytes(old[:20] + bytes([old[20] ^ change]) + old[21:])
    return old


def descriptors(room):
    """What is looked at of the files that calls in C leave open."""
    place = room / "open"
    place.mkdir()
    (place / "old").write_bytes(split_index(place))
    given = ("sha1", place / "old", place / "split.index")
    yield "open files", answer((installed.in_c_sanitized("files"), *given)) == (0, b"ok\n", b"")
    words_of = (installed.in_c("files"), *given)
    done, totals = failing.counts_of(words_of, room / "counts", ALSO=1)
    yield f"open files, with the preload: {totals}", done == (0, b"ok\n", b"") and totals["call"] > 60
    for what, refusal in each_failure(totals, ("request", ALONE), ("request", GOING_ON)):
        for left in place.glob("old.out*"):
            left.unlink()
        # (a writing to standard output may be the one that fails)
        status, out, faults = answer(words_of, env=failing.settings(**refusal))
        yield f"open files, {what} refused: {out}", (status, faults) == (0, b"") and out in (b"ok\n", b"")


def damage(room, checkers):
    """What is looked at of a split index whose shared one is damaged, where memory is refused: it never passes."""
    place = room / "damaged"
    place.mkdir()
    split_index(place, 1)
    for language, program_of in checkers.items():
        words_of = (program_of, "sha1", place / "split.index")
        done, totals = failing.counts_of(words_of, room / "counts")
        yield f"a damaged shared index in {language}: {done}", done[0] == 1 and totals["request"] > 3
        for what, refusal in each_failure(totals | dict.fromkeys(COUNTED, 0), ("request", ALONE)):
            status = answer(words_of, env=failing.settings(**refusal))[0]
            yield f"a damaged shared index in {language}, {what}", status != 0


class Whole(Case):
    def look(self, size):
        programs = {}
        if shutil.which("cc"):
            programs["C"] = {word: installed.in_c_sanitized(word) for word in USED}
        if shutil.which("cargo"):
            programs["Rust"] = installed.in_rust()
        self.hold_all(each_file(self.room(), programs, size))

    def test_files_of_three_entries(self):
        self.look("three entries")

    def test_files_of_70_kib(self):
        self.look("70 KiB")

    def test_files_of_1_5_mib(self):
        self.look("1.5 MiB")


@needs("cc")
class Failing(Case):
    def programs(self, name):
        """The example of a name in each language. (A preload doesn't go with AddressSanitizer.)"""
        found = {"Rust": installed.in_rust()[name]} if shutil.which("cargo") else {}
        return found | {"C": installed.in_c(name)}

    def test_table_is_filled_from_the_bytes_of_the_file(self):
        self.hold_all(memory(self.room()))

    def test_calls_that_fail_leave_the_old_index_or_the_new_one(self):
        self.hold_all(failures(self.room(), self.programs("rewrite")))

    def test_no_file_stays_open(self):
        self.hold_all(descriptors(self.room()))

    def test_damaged_shared_index_never_passes_a_check(self):
        self.hold_all(damage(self.room(), self.programs("check")))
