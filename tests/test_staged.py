"""The trees that index-tool makes of indexes are those that `git write-tree` writes.

git makes random indexes of each kind of ids (`--set indices=N`, by default 150) of made-up objects: names that files
and folders sort by differently, all modes, some with paths that aren't merged, some with entries that are only intended
to be added. `git write-tree --missing-ok` writes the trees of each, and its cached tree into the index, or refuses.
`index-tool trees` prints the same root, and of each directory that has a count the same id and count; the trees that
`git ls-tree` finds below the root; or it refuses too. `rewrite-trees --missing-ok` writes a cached tree of the same
nodes, and `rewrite-trees` those of them with a count that the index has before, or that git put there.

In repositories with real objects, whole and sparse, `check-trees` finds nothing wrong with git's cached tree. One in
which a byte of an id is another is found, and so is one that has an older tree's id, by which `git write-tree` gives a
tree that isn't that of the entries. After `rewrite-trees` git gives the right one, and `git fsck` finds no fault, also
where a directory was staged that has no tree yet. After a merge with conflicts, `check-trees` finds nothing wrong with
what git left of the cached tree, and finds a count that is put above a path in conflict.
"""
import functools
import hashlib
import itertools
import random
import re

from tests import repository
from tests.case import Case, needs
from tests.common import ID_LEN, KINDS, answer, setting
from tests.model import entries, made_trees, state, writing
from tests.repository import WRITING, index_in

git = functools.partial(repository.git, env=WRITING)
ask_git = functools.partial(repository.ask_git, env=WRITING)
MODES = (b"100644", b"100755", b"120000", b"160000")
NAMES = (
    b"a", b"a-b", b"a.b", b"a0", b"ab", b"a b", b"a\tb", b"a\nb", b"A", b"b", b"b-", b"-", b"~", b"\xc3\xa9", b"\xff"
)


def read(data, kind):
    """The index that bytes are, by the model."""
    return state.read_file(data, kind)[0]


def random_leaves(source, depth):
    for name in source.sample(NAMES, source.randrange(1, len(NAMES))):
        if depth > 0 and source.random() < 0.4:
            yield from ((mode, name + b"/" + path) for mode, path in random_leaves(source, depth - 1))
        else:
            yield source.choice(MODES), name


def line_of(kind, mode, path, stage=0):
    digest = hashlib.new(kind, path + b"%d" % stage).hexdigest().encode()
    return b"%s %s %d\t%s\0" % (mode, digest, stage, path)


def unmerged(kind, source, leaves):
    """One of the paths with some of a merge's stages in place of none."""
    path = source.choice(leaves)[1]
    gone = b"0 %s\t%s\0" % (b"0" * 2 * ID_LEN[kind], path)
    return gone + b"".join(line_of(kind, b"100644", path, stage) for stage in sorted(source.sample((1, 2, 3), 2)))


def intended(kind, source, data):
    """The index with some of its entries only intended to be added."""
    found = read(data, kind)
    found.tree = None
    for entry in found.entries:
        if source.random() < 0.1:
            entry.flags |= entries.EXTENDED | entries.INTENT_TO_ADD
    return writing.image(found)[2]


def indices(kind, count):
    """Indices by name, as git has them before trees are written: the lines of their entries, and what is done then."""
    yield "no entries", b"", None
    deep = [(b"100644", b"deep/" * 300 + b"name"), (b"100755", b"long" * 1000), (b"100644", b"deep/x")]
    yield "deep paths", b"".join(line_of(kind, *leaf) for leaf in deep), None
    for number in range(count):
        source = random.Random(f"{kind} {number}")
        leaves = list(random_leaves(source, source.randrange(4)))
        lines, change = b"".join(line_of(kind, *leaf) for leaf in leaves), None
        sort = source.random()
        if sort < 0.1:
            lines += unmerged(kind, source, leaves)
        elif sort < 0.3:
            change = functools.partial(intended, kind, source)
        yield f"random {number}", lines, change


def records(told):
    """The lines of trees. A path may have a newline, so that each goes up to where an id begins the next."""
    return re.findall(rb"[0-9a-f]{40,64} -?[0-9]+\t.*?\n(?=[0-9a-f]{40,64} -?[0-9]+\t|\Z)", told, re.DOTALL)


def nodes(data, kind):
    """The lines of the cached tree in an index."""
    return records(made_trees.lines(read(data, kind).tree))


def counted(lines):
    """Those of directories that have a count."""
    return [line for line in lines if b" -1\t" not in line]


def below(folder, root):
    """The trees below a root, as git lists them."""
    found = git(folder, "ls-tree", "-r", "-d", "-z", "--full-tree", root).split(b"\0")[:-1]
    return {tuple(record[7:].partition(b"\t")[::2]) for record in found if record.startswith(b"040000 ")}


def made(tool, kind, folder, name, lines, change):
    """What is compared of one index, and whether it is so."""
    index, out = index_in(folder), folder / "out.index"
    index.unlink(missing_ok=True)
    git(folder, "read-tree", "--empty")
    git(folder, "update-index", "-z", "--index-info", input=lines)
    if change:
        index.write_bytes(change(index.read_bytes()))
    before = folder / "before.index"
    before.write_bytes(index.read_bytes())
    listed = read(before.read_bytes(), kind).entries
    status, told, faults = answer((tool, "trees", kind, before))
    done = ask_git(folder, "write-tree", "--missing-ok")
    if done[0] != 0:
        yield f"{name}: refused", status == 1 and told == b"" and faults.count(b"\n") == 1
        return
    tree = made_trees.made(kind, listed)[0]
    yield f"{name}: the lines", (status, told, faults) == (0, made_trees.lines(tree), b"")
    root = done[1].strip()
    yield f"{name}: the root", told.startswith(root + b" ")
    cached = nodes(index.read_bytes(), kind)
    yield f"{name}: git's cached tree", counted(cached) == counted(records(told))
    paths = {(node.id.hex().encode(), path) for path, node in made_trees.walked(tree) if path}
    yield f"{name}: the trees below", paths == {(digest[5:], path) for digest, path in below(folder, root.decode())}
    rewritten = answer((tool, "rewrite-trees", "--missing-ok", kind, before, out))
    is_same = rewritten == (0, b"", b"") and counted(nodes(out.read_bytes(), kind)) == counted(records(told))
    yield f"{name}: rewrite-trees --missing-ok", is_same
    for what, file in (("before", before), ("behind git", index)):
        wanted = made_trees.lines(made_trees.kept(made_trees.made(kind, listed)[0], read(file.read_bytes(), kind).tree))
        rewritten = answer((tool, "rewrite-trees", kind, file, out))
        is_kept = rewritten == (0, b"", b"") and nodes(out.read_bytes(), kind) == records(wanted)
        yield f"{name}: rewrite-trees, {what}", is_kept
    yield f"{name}: git's counts are kept", counted(nodes(out.read_bytes(), kind)) == counted(cached)


def many(tool, kind, folder):
    """Whether an index of 100,000 entries has git's root."""
    paths = (b"%03d/%02d/%04d" % (place // 1000, place // 100 % 10, place) for place in range(100_000))
    git(folder, "read-tree", "--empty")
    git(folder, "update-index", "-z", "--index-info", input=b"".join(line_of(kind, b"100644", path) for path in paths))
    told = answer((tool, "trees", kind, index_in(folder)))[1]
    yield "many entries", told.split(b" ", 1)[0] == git(folder, "write-tree", "--missing-ok").strip()


def start(folder, kind, is_sparse):
    """A repository of two commits, whose index has a whole cached tree; and the root of the first."""
    git(folder.parent, "init", "-q", "-b", "main", f"--object-format={kind}", str(folder))
    for number in range(2):
        for path in ("docs/one", "src/inner/two", "src/inner/three", "src/four", "five"):
            (folder / path).parent.mkdir(parents=True, exist_ok=True)
            (folder / path).write_text(f"{path} {number}\n")
        git(folder, "add", ".")
        git(folder, "commit", "-q", "-m", str(number))
    if is_sparse:
        git(folder, "sparse-checkout", "set", "--cone", "--sparse-index", "docs")
    git(folder, "write-tree")
    return git(folder, "rev-parse", "HEAD~1^{tree}").strip()


def lies(tool, folder, kind, is_sparse):
    """What is looked at in a repository with a cached tree that is right, and then is not."""
    older = start(folder, kind, is_sparse)
    index, out = index_in(folder), folder / ".git" / "out.index"
    data = index.read_bytes()
    right = git(folder, "write-tree").strip()
    yield "git's own cached tree", answer((tool, "check-trees", kind, index)) == (0, b"ok\n", b"")
    for what, path in (("the root", b""), ("a folder", b"src" if is_sparse else b"src/inner")):
        found = read(data, kind)
        node = next(node for each, node in made_trees.walked(found.tree) if each == path)
        node.id = node.id[:-1] + bytes([node.id[-1] ^ 1])
        out.write_bytes(writing.image(found)[2])
        status, told, faults = answer((tool, "check-trees", kind, out))
        is_named = faults.count(b"\n") == 1 and b'"%s"' % path in faults
        yield f"a byte of the id of {what}", (status, told) == (1, b"") and is_named
    found = read(data, kind)
    found.tree.id = bytes.fromhex(older.decode())
    index.write_bytes(writing.image(found)[2])
    yield "an older tree is found", answer((tool, "check-trees", kind, index))[:2] == (1, b"")
    if not is_sparse:
        yield "an older tree is what git writes", git(folder, "write-tree").strip() == older != right
    yield "rewrite-trees", answer((tool, "rewrite-trees", kind, index, out)) == (0, b"", b"")
    index.write_bytes(out.read_bytes())
    yield "check-trees behind rewrite-trees", answer((tool, "check-trees", kind, index)) == (0, b"ok\n", b"")
    yield "what git writes behind rewrite-trees", git(folder, "write-tree").strip() == right
    yield "git fsck", ask_git(folder, "fsck", "--strict")[0] == 0
    yield "git status", git(folder, "status", "--porcelain") == b""
    (folder / "docs" / "new").mkdir()
    (folder / "docs" / "new" / "one").write_text("new\n")
    git(folder, "add", "docs")
    before = ask_git(folder, "fsck", "--strict")
    yield "rewrite-trees of a new directory", answer((tool, "rewrite-trees", kind, index, index)) == (0, b"", b"")
    # (in a sparse index git itself names trees that it hasn't written)
    is_content = ask_git(folder, "fsck", "--strict")[0] == 0
    yield "git fsck with a new directory", is_content or is_sparse and before[0] != 0
    yield "check-trees with a new directory", answer((tool, "check-trees", kind, index)) == (0, b"ok\n", b"")


def conflicts(tool, folder, kind, is_sparse):
    """What is looked at in a repository where a merge hasn't decided on one path."""
    start(folder, kind, is_sparse)
    git(folder, "checkout", "-q", "-b", "other")
    for branch in ("other", "main"):
        git(folder, "checkout", "-q", branch)
        (folder / "docs" / "one").write_text(f"{branch}\n")
        git(folder, "commit", "-q", "-a", "-m", branch)
    yield "a merge isn't decided on", ask_git(folder, "merge", "other")[0] == 1
    index, out = index_in(folder), folder / ".git" / "out.index"
    found = read(index.read_bytes(), kind)
    yield "entries are in conflict", any(entry.stage for entry in found.entries)
    yield "git leaves a count", found.tree is not None and any(node.count for _, node in made_trees.walked(found.tree))
    yield "what git leaves of its cached tree", answer((tool, "check-trees", kind, index)) == (0, b"ok\n", b"")
    for path in (b"docs", b""):
        changed = read(index.read_bytes(), kind)
        node = next((node for each, node in made_trees.walked(changed.tree) if each == path), None)
        if node is not None:
            # (as many as there are, so that those of its directories are no more)
            node.count, node.id = len(changed.entries), changed.entries[0].id
            out.write_bytes(writing.image(changed)[2])
            status, told, faults = answer((tool, "check-trees", kind, out))
            is_named = faults.count(b"\n") == 1 and b'directory "%s"' % path in faults
            yield f"a count above a conflict, at {path}", (status, told) == (1, b"") and is_named


@needs("git")
class MadeTrees(Case):
    def look(self, wanted):
        """At the indexes of these names, or of all where it is None but the first two."""
        for kind in KINDS:
            folder = self.room() / kind
            git(folder.parent, "init", "-q", f"--object-format={kind}", str(folder))
            for index in wanted(kind):
                self.hold_all(made(self.tool, kind, folder, *index), f"{kind}, ")

    def test_no_entries(self):
        self.look(lambda kind: itertools.islice(indices(kind, 0), 1))

    def test_deep_and_long_paths(self):
        self.look(lambda kind: itertools.islice(indices(kind, 0), 1, 2))

    def test_random_indexes(self):
        count = setting("indices", 150)
        self.look(lambda kind: itertools.islice(indices(kind, count), 2, None))

    def test_root_of_100_000_entries(self):
        for kind in KINDS:
            folder = self.room() / kind
            git(folder.parent, "init", "-q", f"--object-format={kind}", str(folder))
            self.hold_all(many(self.tool, kind, folder), f"{kind}, ")


@needs("git")
class CachedTrees(Case):
    def look(self, case, is_sparse):
        for kind in KINDS:
            self.hold_all(case(self.tool, self.room() / "repository", kind, is_sparse), f"{kind}, ")

    def test_wrong_ids_are_found_and_rewritten(self):
        self.look(lies, False)

    def test_wrong_ids_are_found_and_rewritten_in_a_sparse_index(self):
        self.look(lies, True)

    def test_counts_above_conflicts_are_found(self):
        self.look(conflicts, False)

    def test_counts_above_conflicts_are_found_in_a_sparse_index(self):
        self.look(conflicts, True)
