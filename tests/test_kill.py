"""After `index-tool rewrite4` is killed while it writes over an index, the index is the old one or the new one.

Each time (`--set kills=N`, by default 200) the index of a repository, of so many entries (`--set entries=N`, by default
150,000), is one of version 2, and rewriting it would make it one of version 4. The program is killed (SIGKILL) at a
random moment of the time that it takes otherwise. Then the file must be the old one or the new one, byte for byte, and
`git ls-files` must list the same entries. A lock file that was left is counted and removed; whoever writes an index
next must remove it by hand, as with git.
"""
import collections
import hashlib
import random
import statistics
import subprocess
import time

from tests.case import Case, needs
from tests.common import Broken, setting
from tests.repository import ask_git, git, index_in


def make_index(folder, count):
    """A repository's index of so many entries in version 2, with nothing but them."""
    paths = [
        f"group-{number // 400:04d}/part-{number // 20 % 20:02d}/file-{number % 20:02d}.txt" for number in range(count)
    ]
    lines = "".join(f"100644 {hashlib.sha1(path.encode()).hexdigest()} 0\t{path}\n" for path in paths)
    git(folder, "init", "-q")
    settings = ("-c", "index.version=2", "-c", "index.threads=1")
    git(folder, *settings, "update-index", "--index-info", input=lines.encode())
    return index_in(folder)


def rewrite(tool, index):
    return subprocess.Popen([tool, "rewrite4", "--keep", "sha1", index, index], stdin=subprocess.DEVNULL)


def rewritten(tool, index, old):
    """What the program makes of the index, and how many seconds it takes."""
    times = []
    for _ in range(5):
        index.write_bytes(old)
        begin = time.perf_counter()
        if rewrite(tool, index).wait() != 0:
            raise Broken("index-tool rewrite4 fails")
        times.append(time.perf_counter() - begin)
    return index.read_bytes(), statistics.median(times)


def listing(folder):
    """What git lists of the repository, or None where it can't."""
    status, out, _ = ask_git(folder, "ls-files", "--stage")
    return hashlib.sha1(out).digest() if status == 0 else None


def killed(tool, index, old, new, seconds):
    """Which file is there after a kill at a moment of so many seconds, and whether the program had ended before."""
    index.write_bytes(old)
    moment = random.uniform(0, seconds)
    child = rewrite(tool, index)
    time.sleep(moment)
    child.kill()
    has_ended = child.wait() == 0
    there = index.read_bytes() if index.exists() else None
    return {old: "old", new: "new"}.get(there, "torn"), has_ended


@needs("git")
class Kill(Case):
    def test_killed_program_leaves_the_old_index_or_the_new_one(self):
        count, room = setting("entries", 150_000), self.room()
        index = make_index(room, count)
        lock, old, listed = index.with_name("index.lock"), index.read_bytes(), listing(room)
        new, seconds = rewritten(self.tool, index, old)
        self.assertTrue(new != old and listed is not None and listing(room) == listed, "it isn't another file of these")
        print(f"{count} entries, {len(old)} bytes before and {len(new)} after, rewritten in {seconds * 1e3:.0f} ms")
        seen = collections.Counter()
        for _ in range(setting("kills", 200)):
            found, has_ended = killed(self.tool, index, old, new, 1.2 * seconds)
            seen += collections.Counter({found: 1, "ended": has_ended, "locks": lock.exists()})
            lock.unlink(missing_ok=True)
            is_listed = listing(room) == listed
            self.hold(f"the index is {found}, and git lists {is_listed}", found != "torn" and is_listed)
        print(f"the old file {seen['old']} times, the new one {seen['new']}, another {seen['torn']}")
        print(f"a lock file left {seen['locks']} times; ended before the kill {seen['ended']}", flush=True)
