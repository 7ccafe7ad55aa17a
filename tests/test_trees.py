"""The library's indexes of trees are those that git makes of the same trees.

git writes trees of made-up objects: one of names that files and folders sort by differently, one without entries, and
random ones (`--set trees=N` of each kind, by default 20). The tree of this repository's last commit is taken as it is.

The command `list-tree` of bench_times gets each tree as `git cat-file --batch` prints it. What it prints must be what
`git ls-tree -r -z` lists without the objects' types, and what `index-tool list` prints of the index that `git
read-tree` writes; and it must find its entries in order.
"""
import hashlib
import os
import random

from tests import TOP
from tests.case import Case, needs
from tests.common import KINDS, answer, program, setting
from tests.repository import READING, git

FILE, EXECUTABLE, LINK, COMMIT = MODES = (b"100644", b"100755", b"120000", b"160000")
NAMES = (b"a", b"a-b", b"a.b", b"a0", b"ab", b"a b", b"a\tb", b"a\nb", b"A", b"b", b"-", b"~")
NAMES += (b"\xc3\xa9", b"e\xcc\x81", b"\xe6\x97\xa5", b"\xff")
# A tree has `a` before `a-b` where it is a file, and behind `a.b` where it is a folder.
HARD = (
    (FILE, b"a/x"),
    (EXECUTABLE, b"a-b"),
    (FILE, b"a.b"),
    (LINK, b"a0"),
    (FILE, b"below/a"),
    (LINK, b"below/a-b/x"),
    (COMMIT, b"below/a.b"),
    (FILE, b"below/a0/x"),
    (COMMIT, b"module"),
    (FILE, b"\xc3\xa9/\xe6\x97\xa5/\xff"),
    (FILE, b"twins/one/name"),
    (FILE, b"twins/two/name"),
    (EXECUTABLE, b"deep/" * 100 + b"name"),
    (FILE, b"long" * 1200),
)


def random_leaves(source, depth):
    """The leaves of a random tree, with their modes."""
    for name in source.sample(NAMES, source.randrange(1, len(NAMES))):
        if depth > 0 and source.random() < 0.4:
            for mode, path in random_leaves(source, depth - 1):
                yield mode, name + b"/" + path
        else:
            yield source.choice(MODES), name


def write_tree(folder, kind, leaves):
    """Writes the tree of these leaves, whose objects are named by the digests of their last names, and gives its id."""
    lines = b""
    for mode, path in leaves:
        digest = hashlib.new(kind, path.rpartition(b"/")[2]).hexdigest()
        lines += b"%s %s\t%s\0" % (mode, digest.encode(), path)
    git(folder, "read-tree", "--empty")
    git(folder, "update-index", "-z", "--index-info", input=lines)
    return git(folder, "write-tree", "--missing-ok").decode().strip()


def objects(folder, root):
    """The tree, and all below it."""
    ids = {root.encode()}
    for record in git(folder, "ls-tree", "-r", "-d", "-z", "--full-tree", root).split(b"\0")[:-1]:
        _, kind, rest = record.split(b" ", 2)
        if kind == b"tree":
            ids.add(rest.partition(b"\t")[0])
    return git(folder, "cat-file", "--batch", input=b"".join(each + b"\n" for each in sorted(ids)))


def indexes_of(lister, tool, scratch, folder, root):
    """Whether the library's index of the tree is as each other answer says."""
    trees, index = scratch / "trees", scratch / "tree.index"
    trees.write_bytes(objects(folder, root))
    *entries, order = answer((lister, "list-tree", root, trees))[1].split(b"\0")
    listed = git(folder, "ls-tree", "-r", "-z", "--full-tree", root).split(b"\0")[:-1]
    index.unlink(missing_ok=True)
    git(folder, "read-tree", root, env=READING | {"GIT_INDEX_FILE": str(index)})
    stored = answer((tool, "list", "sha1" if len(root) == 40 else "sha256", index))[1]
    return {
        "git ls-tree": entries == [b" ".join(record.split(b" ", 2)[::2]) for record in listed],
        "git read-tree": b"".join(entry.replace(b"\t", b" 0\t", 1) + b"\n" for entry in entries) == stored,
        "the order of paths": order == b"in order\n",
    }


@needs("git")
class Trees(Case):
    def look(self, name, folder, root):
        found = indexes_of(program("bench_times"), self.tool, self.room(), folder, root)
        for other, is_same in found.items():
            self.hold(f"{name}: the index of the tree {root} isn't as {other} has it", is_same)

    def look_at(self, leaves):
        """At the trees of these leaves, of both kinds."""
        for kind in KINDS:
            folder = self.room() / kind
            git(folder.parent, "init", "-q", f"--object-format={kind}", str(folder))
            for number, each in enumerate(leaves()):
                self.look(f"{kind}, tree {number}", folder, write_tree(folder, kind, each))

    def test_names_that_files_and_folders_sort_by_differently(self):
        self.look_at(lambda: [HARD])

    def test_no_entries(self):
        self.look_at(lambda: [()])

    def test_random_trees(self):
        count = setting("trees", 20)
        self.look_at(lambda: (random_leaves(random.Random(number), 3) for number in range(count)))

    def test_tree_of_this_repository(self):
        if not (TOP / ".git").exists():
            self.skipTest("this is no repository")
        self.look("this repository", TOP, git(TOP, "rev-parse", "HEAD^{tree}", env=os.environ).decode().strip())
