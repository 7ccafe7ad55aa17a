"""`--auto` finds KIND and FILE by itself, and quoted lines are those that git prints.

FILE left out in a work tree, in a folder below, in a linked work tree, in a submodule, by GIT_INDEX_FILE and GIT_DIR,
and where there is none; KIND left out in repositories of both kinds and in their linked work trees, with a digest, with
a null trailer and of a damaged index, and of copies outside of a repository, with a `config` in the same folder and
without; FILE as `-`, of a file and of a pipe, which what writes reads too. `list`, `-z` and `--quote` are what `git
ls-files --stage` prints of paths with each byte that one may have, and `-z` goes through `xargs -0`. Of texts of
`config` the kind is what `git config --file` says. A KIND that doesn't fit is told which would.

In a repository the kind is what its `config` says, whatever the trailer is, and `list` takes at most 1.02 of the
instructions and of the memory that it takes with KIND. Outside of one the trailer tells it, of files of about 1 MiB and
of more too, whatever a `config` in the same folder says.
"""
import functools
import os
import subprocess

from tests import repository
from tests.case import Case, needs
from tests.common import ID_LEN, KINDS, answer, peak, steps
from tests.made import sealed
from tests.repository import WRITING, index_in

git = functools.partial(repository.git, env=WRITING)

# A file named by each byte that a name may have, and what git quotes in longer ones.
NAMES = [bytes([byte]) for byte in range(1, 256) if byte not in b"/."]
NAMES += [b"plain name", b"tab\there", b'"quoted"', b"back\\slash", "h\u00ebr".encode()]
NAMES += [b"line\nend", b"a\x80\xff", b"deep/in\n/it"]
# A file of more bytes is read in windows outside of a repository.
FEW = 1 << 20
# How many entries an index has that the cost is counted of.
MANY = 20_000
# Texts of `config`.
CONFIGS = [
    "",
    "[core]\n\tbare = false\n",
    "[extensions]\n\tobjectFormat = sha256\n",
    "[extensions]\nobjectformat=sha256",
    "[Extensions]\n  ObjectFormat =  sha256  \n",
    "[extensions] objectformat = sha256\n",
    '[extensions]\nobjectformat = "sha256"\n',
    "[extensions]\nobjectformat = sha256 ; which\n",
    "[extensions]\nobjectformat = sha256 # which\n",
    "#[extensions]\nobjectformat = sha256\n",
    "[extensions]\n;objectformat = sha256\n",
    "[core]\nobjectformat = sha256\n",
    "[extensions]\nobjectformat = sha256\n[core]\nx = 1\n",
    "[extensions]\nobjectformat = sha1\n[extensions]\nobjectformat = sha256\n",
    "[extensions]\nobjectformat = sha256\nobjectformat = sha1\n",
    "[extensions]\n\tworktreeConfig = true\n\tobjectFormat = sha256\n",
    "[extensions]\r\nobjectformat = sha256\r\n",
]


def other_kind(kind):
    return KINDS[kind == "sha1"]


def broken(kind, data):
    """The index with a null trailer, and with one byte of its trailer changed."""
    return data[: -ID_LEN[kind]] + bytes(ID_LEN[kind]), data[:-1] + bytes([data[-1] ^ 1])


class Finding(Case):
    """Runs of the program with --auto, in a folder of their own."""

    def setUp(self):
        self.work = self.room()

    def ask(self, folder, *words, env=(), **options):
        return answer((self.tool, words[0], "--auto", *words[1:]), cwd=folder, env={**WRITING, **dict(env)}, **options)

    def same(self, what, got, wanted):
        self.hold(f"{what}: {got}, and not {wanted}", got == (0, wanted, b""))

    def refused(self, what, got, *texts):
        status, out, faults = got
        is_line = faults.startswith(b"index-tool: ") and faults.count(b"\n") == 1
        is_told = all(text.encode() in faults for text in texts)
        self.hold(f"{what}: {got}", (status, out) == (1, b"") and is_line and is_told)

    def repository(self, name, kind, *settings):
        """A repository with two files."""
        place = self.work / name
        git(self.work, "init", "-q", f"--object-format={kind}", place)
        for setting in settings:
            git(place, "config", *setting.split("="))
        (place / "in" / "it").mkdir(parents=True)
        (place / "in" / "it" / "file").write_text(name)
        (place / "file").write_text("file")
        git(place, "add", ".")
        git(place, "commit", "-q", "-m", name)
        return place

    def in_work(self, kind):
        """A repository with a linked work tree in which a file is staged, and the latter's folder."""
        place, linked = self.repository(f"work-{kind}", kind), self.work / f"linked-{kind}"
        git(place, "worktree", "add", "-q", linked)
        (linked / "more").write_text("more")
        git(linked, "add", "more")
        return place, linked


@needs("git")
class Place(Finding):
    """FILE left out, and KIND, or both."""

    def test_words_left_out_in_a_work_tree(self):
        for kind in KINDS:
            place, _ = self.in_work(kind)
            wanted = git(place, "ls-files", "--stage")
            for words in (("list",), ("list", kind), ("list", ".git/index"), ("list", kind, ".git/index")):
                self.same(f"{kind}, {words}", self.ask(place, *words), wanted)

    def test_file_left_out_in_a_folder_below(self):
        for kind in KINDS:
            place, linked = self.in_work(kind)
            wanted = git(place, "ls-files", "--stage")
            self.same(f"{kind}, below", self.ask(place / "in" / "it", "list"), wanted)
            self.same(f"{kind}, check below", self.ask(place / "in", "check-trees"), b"ok\n")
            self.same(f"{kind}, within .git", self.ask(place / ".git" / "objects", "list"), wanted)
            listed = git(linked, "ls-files", "--stage")
            self.same(f"{kind}, a linked work tree", self.ask(linked / "in", "list"), listed)

    def test_variables_name_the_index(self):
        for kind in KINDS:
            place, _ = self.in_work(kind)
            other, wanted = place / "other.index", git(place, "ls-files", "--stage")
            git(place, "read-tree", f"--index-output={other}", "HEAD")
            (place / "file").unlink()
            git(place, "add", "-u")
            variables = {"GIT_INDEX_FILE": str(other)}
            self.same(f"{kind}, GIT_INDEX_FILE", self.ask(place, "list", env=variables), wanted)
            variables = {"GIT_DIR": str(place / ".git"), "GIT_INDEX_FILE": ""}
            now = git(place, "ls-files", "--stage")
            self.same(f"{kind}, GIT_DIR", self.ask(self.work, "list", env=variables), now)
            self.hold(f"{kind}: two listings", now != wanted)

    def test_wrong_kind_is_told(self):
        for kind in KINDS:
            place, wrong = self.in_work(kind)[0], other_kind(kind)
            self.refused(f"{kind}, KIND {wrong}", self.ask(place, "list", wrong), f"`{kind}`")
            self.refused(f"{kind}, map {wrong}", (1, b"", self.ask(place, "map", wrong)[2]), f"`{kind}`")

    def test_standard_input(self):
        for kind in KINDS:
            self.read_from_standard_input(kind, self.in_work(kind)[0])

    def read_from_standard_input(self, kind, place):
        """The standard input: a file, and a pipe."""
        index = index_in(place)
        data, wanted = index.read_bytes(), git(place, "ls-files", "--stage")
        for words in (("list", "-"), ("list", kind, "-")):
            with open(index, "rb") as file:
                self.same(f"{kind}, {words} of a file", self.ask(self.work, *words, stdin=file), wanted)
            self.same(f"{kind}, {words} of a pipe", self.ask(self.work, *words, input=data), wanted)
        for command in ("check", "check-trees", "trees", "map", "show", "show-json", "map-svg"):
            status, out, faults = self.ask(place, command)
            self.same(f"{kind}, {command} -", self.ask(self.work, command, "-", input=data), out)
            self.hold(f"{kind}, {command}: {status}, {faults}", (status, faults) == (0, b""))
        for command in ("rewrite", "rewrite4", "salvage", "rewrite-trees"):
            status, out, _ = self.ask(self.work, command, "-", f"fed-{kind}-{command}", input=data)
            self.hold(f"{kind}, {command} -: {status}, {out}", (status, out) == (0, b""))
            self.same(f"{kind}, {command} - again", self.ask(self.work, "list", f"fed-{kind}-{command}"), wanted)
        self.refused(f"{kind}, nothing fed", self.ask(self.work, "list", "-", input=b""), "/dev/stdin: ")
        self.refused(f"{kind}, nothing fed", self.ask(self.work, "list", kind, "-", input=b""), "/dev/stdin: ")

    def test_what_is_no_index(self):
        place = self.work / "odd"
        place.mkdir()
        text = b"no index, but long enough to be one: no index, no index, no index"
        for name, data in (("empty", b""), ("text", text), ("short", b"DIR")):
            (place / name).write_bytes(data)
        (place / "folder").mkdir()
        os.mkfifo(place / "pipe")
        self.refused("outside", self.ask(place, "list", env={"GIT_CEILING_DIRECTORIES": "/"}), "FILE", ".git")
        self.refused("empty", self.ask(place, "list", "empty"), "empty: ")
        self.refused("text", self.ask(place, "list", "text"), "text: ", "DIRC")
        self.refused("short", self.ask(place, "list", "short"), "short: ")
        self.refused("folder", self.ask(place, "list", "folder"), "folder: Is a directory")
        self.refused("none", self.ask(place, "list", "none"), "none: No such file or directory")
        words, quiet = ("dd", f"of={place / 'pipe'}"), subprocess.DEVNULL
        with subprocess.Popen(words, stdin=quiet, stderr=quiet) as feed:
            self.refused("pipe", self.ask(place, "list", "pipe", timeout=60), "pipe: ", "KIND")
            feed.wait(60)
        (place / ".git").write_text("no gitdir")
        self.refused("a file .git", self.ask(place, "list"), ".git: ")
        (place / ".git").write_text("gitdir: nowhere\n")
        self.refused("gitdir nowhere", self.ask(place, "list"), "nowhere/index: No such file or directory")


@needs("git")
class Kind(Finding):
    """KIND left out."""

    def test_config_of_a_work_tree_tells_it(self):
        for kind in KINDS:
            place, linked = self.in_work(kind)
            self.inside(kind, place, index_in(place))
            self.inside(kind, linked, self.folder_of(linked, place) / "index")

    def folder_of(self, linked, place):
        """Where the repository has the index of a linked work tree."""
        return place / ".git" / "worktrees" / linked.name

    def inside(self, kind, place, index):
        """The index of a work tree, whose repository's `config` tells the kind whatever the trailer is."""
        data, wanted = index.read_bytes(), git(place, "ls-files", "--stage")
        null, damaged = broken(kind, data)
        index.write_bytes(null)
        self.same(f"{kind}, {index}, a null trailer", self.ask(place, "list"), wanted)
        index.write_bytes(damaged)
        self.refused(f"{kind}, {index}, damaged", self.ask(place, "list"), "index: the index's digest is ")
        saved = self.ask(place, "salvage", index, place / "saved")
        self.hold(f"{kind}, {index}, saved: {saved}", saved[:2] == (0, b""))
        self.same(f"{kind}, {index}, a saved one", self.ask(place, "list", "saved"), wanted)
        (place / "saved").unlink()
        index.write_bytes(b"no index, but long enough to be one")
        self.refused(f"{kind}, {index}, text", self.ask(place, "list"), "index: ", "DIRC")
        index.write_bytes(data)

    def test_config_and_commondir_that_count(self):
        for kind in KINDS:
            place, linked = self.in_work(kind)
            self.configs(kind, place, self.folder_of(linked, place))

    def configs(self, kind, place, linked):
        """The `config` that counts, and the `commondir` that says where it is."""
        config, common = place / ".git" / "config", linked / "commondir"
        text, other = config.read_bytes(), other_kind(kind)
        wanted = git(place, "ls-files", "--stage")
        for tree in (place, linked):
            config.write_bytes(b"[extensions]\nobjectFormat = md5\n")
            told = self.ask(tree, "list", tree / "index" if tree == linked else ".git/index")
            self.refused(f"{kind}, md5 in {tree}", told, "/config: extensions.objectFormat", "KIND")
            config.write_bytes(b"[extensions]\nobjectFormat = %s\n" % other.encode())
            told = self.ask(tree, "list", tree / "index" if tree == linked else ".git/index")
            self.refused(f"{kind}, {other} in {tree}", told, "index: the index's digest is ")
        config.unlink()
        without = self.ask(place, "list", ".git/index")
        if kind == "sha1":
            self.same("no config", without, wanted)
        else:
            self.refused("no config", without, "index: the index's digest is ")
        config.write_bytes(text)
        said = common.read_bytes()
        for empty in (b"", b"\n", b"\xff\n"):
            common.write_bytes(empty)
            self.refused(f"{kind}, commondir {empty}", self.ask(linked, "list", "index"), "commondir: ", "UTF-8")
        common.write_bytes(str(place / ".git").encode())
        self.hold(f"{kind}, commondir of a whole path", self.ask(linked, "list", "index")[0] == 0)
        common.write_bytes(said)

    def test_trailer_tells_it_outside_of_a_repository(self):
        for kind in KINDS:
            self.outside(kind, self.in_work(kind)[0])

    def outside(self, kind, place):
        """Copies whose trailer tells the kind, whatever the `config` beside says; and where that is `HEAD`'s."""
        folder, other = self.work / f"outside-{kind}", other_kind(kind)
        folder.mkdir()
        data, wanted = index_in(place).read_bytes(), git(place, "ls-files", "--stage")
        (folder / "index").write_bytes(data)
        (folder / "config").write_text(f"[extensions]\nobjectFormat = {other}\n")
        self.same(f"{kind}, beside another config", self.ask(folder, "list", "index"), wanted)
        (folder / "HEAD").mkdir()
        self.same(f"{kind}, beside a folder HEAD", self.ask(folder, "list", "index"), wanted)
        (folder / "HEAD").rmdir()
        (folder / "HEAD").symlink_to("refs/heads/main")
        listed = self.ask(folder, "list", "index")
        self.refused(f"{kind}, beside a link HEAD", listed, "index: the index's digest is ")

    def test_trailer_of_long_files(self):
        for kind in KINDS:
            self.long(kind, self.in_work(kind)[0])

    def long(self, kind, place):
        """Files of about 1 MiB and of more, outside of a repository."""
        width, wanted = ID_LEN[kind], git(place, "ls-files", "--stage")
        body = index_in(place).read_bytes()[:-width]
        path = self.work / f"long-{kind}.index"
        for length in (FEW - 1, FEW, FEW + 1, FEW + 20, FEW + 32, FEW + (1 << 18), 3 * FEW):
            size = length - len(body) - 8 - width
            data = sealed(kind, body + b"ABCD" + size.to_bytes(4, "big") + b"\x22" * size)
            path.write_bytes(data)
            self.same(f"{kind}, {length} bytes", self.ask(self.work, "list", path.name), wanted)
            for wrong in broken(kind, data):
                path.write_bytes(wrong)
                answer = self.ask(self.work, "list", path.name)
                self.refused(f"{kind}, {length} bytes unsealed", answer, path.name, "KIND")
        path.unlink()

    def test_copies_and_damaged_ones(self):
        for kind in KINDS:
            self.alone(kind, self.in_work(kind)[0])

    def alone(self, kind, place):
        """Copies without a `config` beside."""
        data = index_in(place).read_bytes()
        copy = self.work / f"copy-{kind}" / "index"
        copy.parent.mkdir()
        copy.write_bytes(data)
        wanted = git(place, "ls-files", "--stage")
        self.same(f"{kind}, a copy", self.ask(copy.parent, "list", "index"), wanted)
        copy.write_bytes(data[:-1] + bytes([data[-1] ^ 1]))
        self.refused(f"{kind}, damaged", self.ask(copy.parent, "list", "index"), "index: ", "KIND")
        (copy.parent / "config").write_bytes((place / ".git" / "config").read_bytes())
        listed = self.ask(copy.parent, "list", "index")
        self.refused(f"{kind}, damaged beside config", listed, "index: the index's digest is ")
        saved = self.ask(copy.parent, "salvage", "index", "saved")
        self.hold(f"{kind}, saved: {saved}", saved[:2] == (0, b"") and b" kept; first fault at " in saved[2])
        self.same(f"{kind}, a saved one", self.ask(copy.parent, "list", "saved"), wanted)

    def test_null_trailer(self):
        for kind in KINDS:
            self.unsealed(kind)

    def unsealed(self, kind):
        """An index whose trailer is null."""
        place = self.repository(f"null-{kind}", kind, "index.skipHash=true")
        (place / "more").write_text("more")
        git(place, "add", "more")
        index = index_in(place)
        # (git 2.40 and later write such a trailer by themselves)
        data = index.read_bytes()
        width = ID_LEN[kind]
        index.write_bytes(data[:-width] + bytes(width))
        self.same(f"{kind}, a null trailer", self.ask(place, "list"), git(place, "ls-files", "--stage"))
        alone = self.work / f"null-{kind}.index"
        alone.write_bytes(index.read_bytes())
        self.refused(f"{kind}, a null trailer alone", self.ask(self.work, "list", alone.name), alone.name, "KIND")

    def test_config_as_git_reads_it(self):
        """The kind that a `config` says, where the trailer is null, is the one that git says."""
        folder = self.work / "configured"
        folder.mkdir()
        for number, text in enumerate(CONFIGS):
            (folder / "config").write_text(text, newline="")
            words = ("git", "config", "--file", folder / "config", "extensions.objectFormat")
            status, out, _ = answer(words, env=WRITING)
            kind = out.decode().strip() if status == 0 else "sha1"
            width = ID_LEN[kind]
            (folder / "index").write_bytes(b"DIRC\0\0\0\2" + bytes(4) + bytes(width))
            shown = self.ask(folder, "map", "index")
            parts = b"0\t12\theader\n12\t%d\ttrailer\n" % width
            self.hold(f"config {text!r}, {kind}: {shown}", shown == (0, parts, b""))
        (folder / "config").write_text("[extensions]\nobjectformat = md5\n")
        self.refused("config md5", self.ask(folder, "map", "index"), "KIND")


@needs("git")
class Lines(Finding):
    """Paths with each byte, as git prints them."""

    def names(self, kind):
        """A repository with the paths of NAMES."""
        place = self.repository(f"names-{kind}", kind)
        blob = git(place, "hash-object", "-w", "file").strip()
        feed = b"".join(b"100644 %s 0\t%s\0" % (blob, name) for name in NAMES)
        git(place, "update-index", "-z", "--index-info", input=feed)
        return place

    def test_list(self):
        for kind in KINDS:
            place = self.names(kind)
            self.same(f"{kind}, --quote", self.ask(place, "list", "--quote"), git(place, "ls-files", "--stage"))
            self.same(f"{kind}, -z", self.ask(place, "list", "-z"), git(place, "ls-files", "--stage", "-z"))
            both = b"".join(line + b"\0" for line in git(place, "ls-files", "--stage").split(b"\n")[:-1])
            self.same(f"{kind}, -z --quote", self.ask(place, "list", "-z", "--quote"), both)

    def test_xargs(self):
        words = f"'{self.tool}' list -az | cut -z -f 2- | xargs -0 printf '%s/'"
        for kind in KINDS:
            place = self.names(kind)
            fed = subprocess.run(words, shell=True, cwd=place, env=WRITING, capture_output=True, check=False)
            listed = git(place, "ls-files", "-z").replace(b"\0", b"/")
            self.hold(f"{kind}, xargs -0: {fed}", (fed.returncode, fed.stdout) == (0, listed))

    def test_map(self):
        for kind in KINDS:
            place = self.names(kind)
            for word, end in (("-z", b"\0"), ("--quote", b"\n")):
                names = git(place, "ls-files", *["-z"] * (end == b"\0")).split(end)[:-1]
                mapped = [line.split(b"\t", 2)[2] for line in self.ask(place, "map", word)[1].split(end)[:-1]]
                wanted = [b"entry %d %s" % (at, name) for at, name in enumerate(names)]
                found = [name for name in mapped if name.startswith(b"entry ")]
                self.hold(f"{kind}, map {word}: {mapped}", found == wanted)

    def test_trees(self):
        for kind in KINDS:
            place = self.names(kind)
            tree = git(place, "write-tree").decode().strip()
            paths = git(place, "ls-tree", "-r", "-d", "--name-only", tree).split(b"\n")[:-1]
            treed = [line.split(b"\t", 1)[1] for line in self.ask(place, "trees", "--quote")[1].split(b"\n")[:-1]]
            self.hold(f"{kind}, trees --quote: {treed}", sorted(treed) == sorted([b"", *paths]))


@needs("git", "valgrind")
class Costs(Finding):
    """What a listing takes in a repository, compared with one with KIND."""

    def look(self, measure):
        for kind in KINDS:
            self.look_at(kind, measure)

    def look_at(self, kind, measure):
        place = self.repository(f"costs-{kind}", kind)
        blob = git(place, "hash-object", "-w", "file").strip()
        feed = b"".join(b"100644 %s 0\tin/a/folder/with/files/%06d\n" % (blob, number) for number in range(MANY))
        git(place, "update-index", "--index-info", input=feed)
        for version in (2, 4):
            git(place, "update-index", "--index-version", str(version))
            calls = [(self.tool, "list", word, ".git/index") for word in (kind, "--auto")]
            given, found = (measure(words, cwd=place, env=WRITING) for words in calls)
            what = f"{kind}, version {version}: {found} by {measure.__name__}, and {given} with KIND"
            self.hold(what, found <= 1.02 * given)

    def test_instructions(self):
        self.look(steps)

    def test_memory(self):
        self.look(peak)
