"""The commands of index-tool on small files: their statuses, what they print, and the bytes that they write.

Each status of each command, by its words and by its file: one line on standard error names the file where the status
is 1, whatever characters its name has; where it is 2, one line names what is wrong with the words.
"""
import json
import os
import shutil
import subprocess
import threading
import xml.etree.ElementTree as xml

from words import NAMES, PROGRAM, VERSION, help_of, help_text  # (tools/words.py)

from tests import TOP
from tests.case import Case
from tests.common import answer
from tests.model import document, shown, state
from tests.spelled import (
    BARE, BARE_MARKER, BODY, DIGEST, ENTRY, FILES, FOUR, HEADER, ID, LINKED_SHARED, LISTED, MARKER, NULL, SHARED, SOUND,
    SPLIT, TOLD, TREED, TREE_ID, UNDO, UNSOUND, UPDATES, WILD, WRONG, named, of, sealed
)

# The most processor seconds that are taken to tell of a bitmap of 2^32 bits: bit by bit it would be some ten.
MOST_SECONDS = 1
# How many seconds of the clock are waited for a program that might wait for a second writer of a pipe.
MOST_WAIT = 60
TELLING = ("list", "check", "trees", "check-trees", "map", "map-svg", "show", "show-json")
PRINTING = ("list", "map", "map-svg", "show", "show-json", "trees", "check")


class Commands(Case):
    """Calls of the program in a folder that has the files of tests/spelled.py."""

    def setUp(self):
        self.folder = self.room()
        for name, data in FILES.items():
            (self.folder / name).write_bytes(data)

    def answer(self, *words, **options):
        return answer((self.tool, *words), cwd=self.folder, **options)

    def call(self, words, status, listed, begin):
        """The call's status, all that it prints, and how the line of its fault begins."""
        got, out, faults = self.answer(*(words.split(" ") if words else ()))
        is_line = faults.startswith(begin.encode()) and faults.count(b"\n") == (begin != "")
        self.hold(f"{ascii(words)}: {got}, {out}, {faults}", (got, out) == (status, listed) and is_line)

    def written(self, name, data):
        self.hold(f"the bytes of {name}", (self.folder / name).read_bytes() == data)


class Reading(Commands):
    """Commands that tell of a file."""

    def test_list(self):
        self.call("list sha1 whole.index", 0, LISTED, "")
        self.call("list sha256 whole.index", 1, b"", "index-tool: whole.index: the index's digest is ")
        self.call("list sha1 cut.index", 1, b"", "index-tool: cut.index: Declared entry count exceeds ")
        self.call("list sha1 sealed.index", 1, b"", "index-tool: sealed.index: the index's digest is ")
        self.call("list sha1 no\nfile", 1, b"", "index-tool: no\\nfile: No such file or directory")
        self.call("list sha1 ", 1, b"", "index-tool: : No such file or directory")
        self.call("list --auto whole.index", 1, b"", "index-tool: whole.index: ")
        self.call("list sha1 \udcff.index", 2, b"", "index-tool: a word of the command isn't UTF-8\n")

    def test_list_of_a_split_index_without_the_shared_one(self):
        self.call("list sha1 split.index", 1, b"", f"index-tool: {SHARED}: No such file or directory")

    def test_digest_of_the_index_of_one_entry(self):
        self.hold("another digest", sealed(BODY) == BODY + DIGEST)

    def test_check(self):
        self.call("check sha1 whole.index", 0, b"ok\n", "")
        self.call("check sha1 sealed.index", 1, b"", "index-tool: sealed.index: the index's digest is ")
        self.call("check sha1 twice.index", 1, b"", 'index-tool: twice.index: entry 1, "\\n" of stage ')
        self.call("check sha1 falling.index", 1, b"", 'index-tool: falling.index: entry 1, "a" of stage ')
        self.call("update sha1 falling.index", 1, b"", 'index-tool: falling.index: entry 1, "a" of stage ')

    def test_paths_with_nul(self):
        self.call(
            "list -z sha1 nul.index", 1, b"",
            "index-tool: nul.index: entry 0: the path has a NUL byte, so no line can end ",
        )
        self.call(
            "map -z sha1 nul.index", 1, b"",
            "index-tool: nul.index: entry 0: the path has a NUL byte, so no line can end ",
        )
        self.call("list -z --quote sha1 nul.index", 0, b'100644 %s 0\t"a\\000b"\0' % ENTRY[40:60].hex().encode(), "")

    def test_trees(self):
        self.call("trees sha1 whole.index", 0, TREE_ID.hex().encode() + b" 1\t\n", "")
        self.call("trees sha1 twice.index", 1, b"", 'index-tool: twice.index: entry 1, "\\n" of stage ')

    def test_check_trees(self):
        self.call("check-trees sha1 whole.index", 0, b"ok\n", "")
        self.call("check-trees sha1 lie.index", 1, b"", "index-tool: lie.index: the cached tree has the tree ")
        self.call("check-trees sha1 conflict.index", 0, b"ok\n", "")
        self.call(
            "check-trees sha1 deep.index", 1, b"",
            f"index-tool: deep.index: the cached tree has the tree {TREE_ID.hex()} with 1 entries for the directory "
            "\"d\", but no entry is there, or one is only intended to be added, or isn't merged\n",
        )

    def test_files_that_cannot_be_read(self):
        self.call("show-json sha1 cut.index", 1, b"", "index-tool: cut.index: Declared entry count exceeds ")
        self.call("show-json sha1 no.index", 1, b"", "index-tool: no.index: No such file or directory")
        self.call("map-svg sha1 no.index", 1, b"", "index-tool: no.index: No such file or directory")


class Writing(Commands):
    """Commands that write an index."""

    def test_rewrite(self):
        self.call("rewrite sha1 whole.index again.index", 0, b"", "")
        self.call("list sha1 again.index", 0, LISTED, "")
        self.call("check sha1 again.index", 0, b"ok\n", "")
        self.call("list --auto again.index", 0, LISTED, "")
        self.written("again.index", BODY + DIGEST)

    def test_rewrite_in_version_4_and_back(self):
        self.call("rewrite4 sha1 whole.index four.index", 0, b"", "")
        self.call("list sha1 four.index", 0, LISTED, "")
        self.call("check sha1 four.index", 0, b"ok\n", "")
        self.written("four.index", sealed(FOUR))
        self.call("rewrite sha1 four.index back.index", 0, b"", "")
        self.written("back.index", BODY + DIGEST)

    def test_version_4_is_kept(self):
        self.call("rewrite4 sha1 whole.index four.index", 0, b"", "")
        self.call("rewrite --keep sha1 four.index stays.index", 0, b"", "")
        self.call("rewrite4 --keep sha1 whole.index kept4.index", 0, b"", "")
        for name in ("stays.index", "kept4.index"):
            self.written(name, sealed(FOUR))

    def test_path_with_nul(self):
        """A file of version 4 can't hold it."""
        self.call(
            "rewrite4 sha1 nul.index no4.index", 1, b"",
            "index-tool: no4.index: a path of the index has a NUL byte",
        )
        self.call("rewrite sha1 nul.index two.index", 0, b"", "")

    def test_no_name_for_the_file(self):
        self.call("rewrite sha1 whole.index ", 1, b"", "index-tool: : the index can't be locked: : ")

    def test_lock_of_another(self):
        self.call(
            "rewrite sha1 whole.index held.index", 1, b"",
            "index-tool: held.index: the index is locked, as held.index.lock is there: another process writes the "
            "index, or ended while it did; if none does, remove that file\n",
        )
        self.written("held.index.lock", FILES["held.index.lock"])

    def test_rewrite_trees(self):
        self.call("rewrite-trees sha1 lie.index bare.index", 0, b"", "")
        self.call("check-trees sha1 bare.index", 0, b"ok\n", "")
        self.written("bare.index", sealed(BODY + BARE))
        self.call("rewrite-trees sha1 ended.index end.index", 0, b"", "")
        self.written("end.index", sealed(BODY + BARE + BARE_MARKER))
        self.call("rewrite-trees sha1 right.index kept.index", 0, b"", "")
        self.written("kept.index", sealed(TREED))
        self.call("rewrite-trees sha1 conflict.index none.index", 1, b"", "index-tool: conflict.index: ")

    def test_rewrite_trees_with_trees_that_are_missing(self):
        self.call("rewrite-trees --missing-ok sha1 lie.index treed.index", 0, b"", "")
        self.call("check-trees sha1 treed.index", 0, b"ok\n", "")
        self.written("treed.index", sealed(TREED))

    def test_extensions_are_kept(self):
        self.call("rewrite-trees sha1 undo.index kept-undo.index", 0, b"", "")
        self.call("rewrite --keep sha1 undo.index undone.index", 0, b"", "")
        for name in ("kept-undo.index", "undone.index"):
            self.written(name, sealed(TREED + UNDO))
        self.call("rewrite --keep sha1 no-undo.index gone.index", 0, b"", "")
        self.written("gone.index", sealed(TREED))

    def test_plain_rewrite_has_a_cached_tree_and_an_end_marker(self):
        self.call("rewrite sha1 undo.index plain.index", 0, b"", "")
        self.written("plain.index", sealed(TREED + MARKER))


class Salvage(Commands):
    def test_entries_that_are_there_twice(self):
        self.call(
            "salvage sha1 twice.index saved.index", 0, b"",
            "index-tool: twice.index: 2 declared, 2 read, 1 kept; 1 before the first entry at fault, 0 behind it: "
            "the path and the stage don't come behind those of the entry before it\n",
        )
        self.call("check sha1 saved.index", 0, b"ok\n", "")

    def test_entry_without_a_mode(self):
        self.call(
            "salvage sha1 modeless.index front.index", 0, b"",
            "index-tool: modeless.index: 3 declared, 3 read, 1 kept; 1 before the first entry at fault, 1 behind it: "
            "the mode 0 is none that an index has\n",
        )
        self.call("list sha1 front.index", 0, LISTED, "")
        self.call(
            "salvage --all sha1 modeless.index both.index", 0, b"",
            "index-tool: modeless.index: 3 declared, 3 read, 2 kept; ",
        )
        self.call("list sha1 both.index", 0, LISTED + f"100644 {ID} 0\tc\n".encode(), "")

    def test_entries_in_falling_order(self):
        self.call(
            "salvage sha1 falling.index front.index", 0, b"",
            "index-tool: falling.index: 2 declared, 2 read, 1 kept; ",
        )
        self.call(
            "salvage --all sha1 falling.index both.index", 0, b"",
            "index-tool: falling.index: 2 declared, 2 read, 2 kept; ",
        )
        self.call("list sha1 both.index", 0, LISTED + f"100644 {ID} 0\tb\n".encode(), "")

    def test_cut_file(self):
        self.call(
            "salvage sha1 cut.index one.index", 0, b"",
            "index-tool: cut.index: 1 declared, 1 read, 1 kept; first fault at 76: ",
        )
        self.call("list sha1 one.index", 0, LISTED, "")

    def test_no_file(self):
        self.call("salvage sha1 no.index none.index", 1, b"", "index-tool: no.index: No such file or directory")

    def test_split_index_alone(self):
        self.call(
            "salvage sha1 split.index alone.index", 0, b"",
            "index-tool: split.index: 0 declared, 0 read, 0 kept; the entries of the shared index are missing\n",
        )


class Split(Commands):
    """A split index with its shared one, and with others in the place of that."""

    def share(self, data):
        (self.folder / SHARED).write_bytes(data)

    def test_shared_index_without_a_digest(self):
        self.share(BODY + NULL)
        self.call("list sha1 split.index", 0, LISTED, "")
        told = "index-tool: split.index: 0 declared, 0 read, 1 kept; merged with the shared index\n"
        self.call("salvage sha1 split.index joined.index", 0, b"", told)
        self.written("joined.index", BODY + DIGEST)

    def test_shared_index_that_is_split_itself(self):
        self.share(SPLIT)
        fault = "the link to a shared index can't be followed: shared index has a link of its own"
        self.call("list sha1 split.index", 1, b"", f"index-tool: split.index: {fault}")
        told = "index-tool: split.index: 0 declared, 0 read, 0 kept; the entries of the shared index are missing\n"
        self.call("salvage sha1 split.index alone.index", 0, b"", told)

    def test_damaged_cut_and_other_shared_indexes(self):
        saved = "index-tool: linked.index: 0 declared, 0 read, "
        for data in (BODY[:-2] + b"b\0" + DIGEST, (BODY + DIGEST)[:95], sealed(HEADER + named(b"b"))):
            (self.folder / LINKED_SHARED).write_bytes(data)
            for command in ("list", "check", "trees"):
                self.call(f"{command} sha1 linked.index", 1, b"", "index-tool: linked.index: ")
            self.call("rewrite sha1 linked.index none.index", 1, b"", "index-tool: linked.index: ")
            self.call("salvage sha1 linked.index alone.index", 0, b"", f"{saved}0 kept; ")

    def test_whole_shared_index(self):
        (self.folder / LINKED_SHARED).write_bytes(BODY + DIGEST)
        self.call("list sha1 linked.index", 0, LISTED, "")
        told = "index-tool: linked.index: 0 declared, 0 read, 1 kept; merged with the shared index\n"
        self.call("salvage sha1 linked.index joined.index", 0, b"", told)
        self.written("joined.index", BODY + DIGEST)


class Update(Commands):
    def test_lines_give_the_file_that_git_writes(self):
        for text, listed, digest in UPDATES:
            got = self.answer("update", "sha1", "updated.index", input=text.encode())
            self.hold(f"update by {text}: {got}", got == (0, b"", b""))
            self.call("list --quote sha1 updated.index", 0, listed.encode(), "")
            data = (self.folder / "updated.index").read_bytes()
            is_sealed = data[-20:].hex() == digest and sealed(data[:-20]) == data
            self.hold(f"the file after {text}", is_sealed)


class Strict(Commands):
    def test_first_entry_that_git_does_not_work_with_is_named(self):
        for entries, line in UNSOUND:
            (self.folder / "unsound.index").write_bytes(of(entries))
            self.call("check sha1 unsound.index", 0, b"ok\n", "")
            self.call("check --strict sha1 unsound.index", 1, b"", f"index-tool: unsound.index: {line}")
            self.call("check-trees --strict sha1 unsound.index", 1, b"", f"index-tool: unsound.index: {line}")

    def test_others_pass(self):
        for entries in SOUND:
            (self.folder / "sound.index").write_bytes(of(entries))
            self.call("check --strict sha1 sound.index", 0, b"ok\n", "")
            self.call("check-trees --strict sha1 sound.index", 0, b"ok\n", "")


class Words(Commands):
    """The words of a call, and help."""

    def test_wrong_words_are_told_in_a_line(self):
        before = sorted(path.name for path in self.folder.iterdir())
        for words, line in WRONG:
            got = self.answer(*(words.split(" ") if words else ()))
            is_kept = before == sorted(path.name for path in self.folder.iterdir())
            self.hold(f"{ascii(words)}: {got}", got == (2, b"", f"index-tool: {line}\n".encode()) and is_kept)

    def test_help_and_version(self):
        """They are what tools/words.py has."""
        whole, version = help_text().encode(), f"{PROGRAM} {VERSION}\n".encode()
        asked = [((word,), whole) for word in ("--help", "-h", "help")]
        asked += [((word,), version) for word in ("--version", "-V")]
        for name in (*NAMES, "help"):
            text = help_of(name).encode()
            asked += [((name, "--help"), text), (("help", name), text)]
        for words, text in asked:
            got = self.answer(*words)
            self.hold(f"{words}: {got}", got == (0, text, b""))


class Faults(Commands):
    """Lines of faults, and devices without room."""

    def told(self, begin, *words):
        """A fault is told in one line, in which no character controls a terminal."""
        status, _, faults = self.answer(*words)
        is_line = faults.startswith(begin.encode()) and faults.count(b"\n") == 1
        self.hold(f"{words}: {status}, {faults}", status == 1 and is_line and b"\x1b" not in faults)

    def test_names_are_escaped(self):
        for command in TELLING:
            self.told(f"index-tool: {TOLD}: ", command, "sha1", WILD)
        for command in ("rewrite", "rewrite4", "rewrite-trees", "salvage"):
            locked = f"index-tool: {TOLD}: the index is locked, as {TOLD}.lock is there: "
            self.told(locked, command, "sha1", "whole.index", WILD)
            self.told(f"index-tool: no{TOLD}: ", command, "sha1", f"no{WILD}", "none.index")
        self.told(f"index-tool: {TOLD}: ", "rewrite", "sha1", WILD, "none.index")
        (self.folder / f"in{WILD}").mkdir()
        (self.folder / f"in{WILD}" / "split.index").write_bytes(SPLIT)
        self.told(f"index-tool: in{TOLD}/{SHARED}: ", "list", "sha1", f"in{WILD}/split.index")

    def test_line_is_one_call_of_at_most_4096_bytes(self):
        words = ("check", "sha1", "\1" * 10_000)
        status, out, faults = self.answer(*words)
        is_cut = faults.startswith(b"index-tool: \\u{1}") and faults.endswith(b"..\n") and faults.count(b"\n") == 1
        self.hold(f"a long line: {status}, {out}, {faults}", (status, out, len(faults)) == (1, b"", 4096) and is_cut)
        if shutil.which("strace"):
            trace = self.folder / "trace"
            answer(("strace", "-f", "-e", "trace=write", "-o", trace, self.tool, *words), cwd=self.folder)
            count = trace.read_bytes().count(b" write(2, ")
            self.hold(f"a long line goes out by {count} calls", count == 1)

    def test_device_without_room(self):
        line = b"index-tool: standard output: No space left on device (os error 28)\n"
        calls = [(command, "sha1", "whole.index") for command in PRINTING]
        for words in ("--help",), *calls:
            with open("/dev/full", "wb") as out:
                done = subprocess.run(
                    (self.tool, *words), stdout=out, stderr=subprocess.PIPE, cwd=self.folder, check=False
                )
            self.hold(f"{words} to /dev/full: {done}", (done.returncode, done.stderr) == (1, line))

    def test_file_longer_than_an_index_can_be(self):
        """It takes no room on the disk."""
        (self.folder / "long.index").touch()
        os.truncate(self.folder / "long.index", 2**32 + 33)
        for command in PRINTING:
            line = "index-tool: long.index: it is longer than the 4294967328 bytes"
            self.call(f"{command} sha1 long.index", 1, b"", line)


class Told(Commands):
    """What show, show-json and map-svg tell."""

    def test_json_of_one_entry(self):
        status, out, faults = self.answer("show-json", "sha1", "whole.index")
        told = json.loads(out) if status == 0 else {}
        wanted = {"path": "a", "id": ID, "mode": 0o100644, "stage": 0}
        seen = [{name: entry.get(name) for name in wanted} for entry in told.get("entries", [])]
        is_whole = (faults, told.get("version"), seen) == (b"", 2, [wanted])
        self.hold(f"show-json sha1 whole.index: {status}, {out}, {faults}", is_whole)

    def look(self, name):
        """Lines and JSON of a file are what the model has of it, and neither takes long."""
        found = *state.read_file(FILES[name], "sha1"), state.read_marks(FILES[name], "sha1")
        before = os.times().children_user
        status, out, faults = self.answer("show", "sha1", name)
        self.hold(f"show sha1 {name}: {out}, {faults}", (status, out) == (0, shown.shown(*found)))
        status, out, faults = self.answer("show-json", "sha1", name)
        members = json.loads(out) if status == 0 else {}
        self.hold(f"show-json sha1 {name}: {out}, {faults}", members == document.document(*found))
        self.hold(f"the time for {name}", os.times().children_user - before < MOST_SECONDS)

    def test_offset_table_and_end_marker(self):
        self.look("marked.index")

    def test_bitmaps_of_2_to_the_32_bits(self):
        self.look("far.index")

    def look_at_picture(self, name, status, begin):
        got, out, faults = self.answer("map-svg", "sha1", name)
        is_line = faults.startswith(begin) and faults.count(b"\n") == (begin != b"")
        is_whole = xml.fromstring(out).tag == "{http://www.w3.org/2000/svg}svg" and out.endswith(b"</svg>\n")
        self.hold(f"map-svg sha1 {name}: {got}, {out}, {faults}", got == status and is_line and is_whole)

    def test_picture_of_a_whole_file(self):
        self.look_at_picture("whole.index", 0, b"")

    def test_picture_of_a_damaged_file(self):
        """It goes out whole, and the fault is named."""
        self.look_at_picture("cut.index", 1, b"index-tool: cut.index: at byte 76: ")


class Pipe(Commands):
    """What reads a pipe reads it once, and answers as of a file: a second reading would wait for a second writer."""

    def ask(self, name, command, *more):
        (self.folder / "piped.index").unlink(missing_ok=True)
        done = self.answer(command, "sha1", name, *more, timeout=MOST_WAIT)
        return done, [(path.name, path.read_bytes()) for path in self.folder.glob("piped.index*")]

    def piped(self, data, command, *more):
        """Checks these bytes again, through a pipe."""
        pipe = self.folder / "pipe.index"
        os.mkfifo(pipe)
        threading.Thread(target=pipe.write_bytes, args=(data,), daemon=True).start()
        found = self.ask("pipe.index", command, *more)
        pipe.unlink()
        return found

    def look(self, *words):
        for name in ("whole.index", "cut.index", "sealed.index"):
            wanted, files = self.ask(name, *words)
            (status, out, faults), found = self.piped(FILES[name], *words)
            got = (status, out, faults.replace(b"pipe.index", name.encode()))
            self.hold(f"{words} of {name} by a pipe: {got}", (got, found) == (wanted, files))

    def test_commands_that_tell(self):
        for command in TELLING:
            self.look(command)

    def test_commands_that_write(self):
        for command in ("salvage", "rewrite"):
            self.look(command, "piped.index")
