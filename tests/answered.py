"""What git answers of an index that index-tool wrote, and of one that git was made to write, in its place."""
import json
import os
import shutil

from tests import repository, shapes
from tests.common import answer
from tests.model import state
from tests.repository import READING, index_in
from tests.shapes import ask_git, git


def rewrite_in_place(tool, folder, kind):
    index = index_in(folder)
    return answer((tool, "rewrite", "--keep", kind, index, index)) == (0, b"", b"")


def by_git(_, folder, __):
    return ask_git(folder, "update-index", "--force-write-index")[0] == 0


QUESTIONS = (
    ("fsck", "--no-dangling"),
    ("status", "--porcelain=v2"),
    ("status", "--porcelain=v2", "--ignored"),
    ("ls-files", "--resolve-undo"),
    ("ls-files", "-s"),
    ("ls-files", "-s", "--sparse"),
    ("ls-files", "-f"),
    ("write-tree",),
)


def counted(folder):
    """What git counts of the directories that it opens for a status."""
    log = folder / ".git" / "counted"
    log.unlink(missing_ok=True)
    repository.ask_git(folder, "status", env=READING | {"GIT_TRACE2_EVENT": str(log), "GIT_TRACE2_EVENT_NESTING": "9"})
    events = [json.loads(line) for line in log.read_text().splitlines()]
    return {
        event["key"]: event["value"]
        for event in events
        if event["event"] == "data" and event["category"] == "read_directory" and "visited" not in event["key"]
    }


def tokens(folder):
    """The tokens by which a status asks the monitor's hook."""
    asked = folder / ".git" / "asked"
    asked.unlink(missing_ok=True)
    repository.ask_git(folder, "status")
    return {line.partition(" ")[2] for line in asked.read_text().splitlines()} if asked.exists() else set()


def answers(tool, room, kind, shape):
    """What git answers of an index that the program wrote, and of one that git was made to write, in its place."""
    folder = room / "repository"
    shapes.start(folder, kind)
    shape(folder)
    shapes.settle(folder)
    git(folder, "status")
    index = index_in(folder)
    data = index.read_bytes()
    monitor, seen = state.read(data, kind)[0].monitor, {}
    for write in (by_git, rewrite_in_place):
        index.write_bytes(data)
        yield f"{write.__name__} writes", write(tool, folder, kind)
        said = {words: repository.ask_git(folder, *words) for words in QUESTIONS}
        seen[write] = said | {"directories": counted(folder)}
    for words, said in seen[by_git].items():
        yield f"{words}: {seen[rewrite_in_place][words]}, not {said}", seen[rewrite_in_place][words] == said
    if b"UNTR" in shapes.SHAPES[shape] and monitor is None:
        found = seen[rewrite_in_place]["directories"]
        yield f"no directory is opened: {found}", found.get("opendir") == found.get("node-creation") == "0"
    if monitor is not None:
        found = tokens(folder)
        yield f"the hook is asked by {found}, not by {monitor.token}", found == {os.fsdecode(monitor.token)}


def copied(folder, name):
    made = folder.with_name(name)
    shutil.copytree(folder, made, symlinks=True)
    return made


def snapshot(folder):
    """What each file has, but for those that git makes anew by themselves."""
    left_out = {"index", "asked", "counted"}
    paths = [path for path in sorted(folder.rglob("*")) if path.is_file() and path.name not in left_out]
    return {str(path.relative_to(folder)): path.read_bytes() for path in paths}


def conflicts_again(tool, room, kind):
    """What was resolved is a conflict again, or forgotten, behind the program as behind git."""
    folder = room / "repository"
    shapes.start(folder, kind)
    shapes.resolved(folder)
    path = "src/new.txt"
    undone = ("update-index", "--unresolve", path)
    for words in ("checkout", "-q", "-m", "--", path), ("rerere", "forget", path), undone:
        seen = []
        for number, write in enumerate((by_git, rewrite_in_place)):
            made = copied(folder, f"{words[0]}-{words[1]}-{number}")
            yield f"{write.__name__} writes", write(tool, made, kind)
            before = snapshot(made)
            seen.append((ask_git(made, *words), snapshot(made), git(made, "ls-files", "-s")))
            yield f"git {' '.join(words)} behind {write.__name__}", seen[-1][0][0] == 0
            if words[0] == "checkout":
                yield f"markers of a conflict behind {write.__name__}", b"<<<<<<<" in (made / path).read_bytes()
            if words[0] == "rerere":
                yield f"a resolution is forgotten behind {write.__name__}", snapshot(made) != before
        yield f"git {' '.join(words)}: the same", seen[0] == seen[1]
