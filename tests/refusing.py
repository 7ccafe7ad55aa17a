"""Programs of rows, and commands of index-tool, run with one request for memory or one call of the system refused."""
import collections
import os
import re
import subprocess

from tests import TOP, failing
from tests.model import change_answers, index_answers, lookup_answers, show, tool_answers, words

MODELS = {"test_rows": index_answers, "test_lookup_rows": lookup_answers, "test_change_rows": change_answers}
# How a call of the system is refused: the kind that is counted, whether all behind it are, and the error's number.
FAULTS = {
    "request": ("request", False, None),
    "requests": ("request", True, None),
    "call": ("call", False, None),
    "calls": ("call", True, None),
    "call without memory": ("call", False, 12),
    "call that finds nothing": ("call", False, 2),
    "call without room": ("call", False, 28),
    "move": ("move", False, None),
    "wait": ("wait", False, None),
}
OLD = b"what was there before\n"
MOST_SECONDS = 60
SHARED = re.compile("sharedindex[.]")

# Those where one call alone fails, and those of which each run is to be told as a fault of the device.
ALONE = ("call", "call that finds nothing", "call without room")
DEVICE = ("calls", *ALONE)
# Those of which each run is to be told as want of memory.
MEMORY = ("request", "requests", "call without memory")
# What the line of a fault says of a step; `NAME`: the file that is read.
STEPS = {
    "the index": "NAME: ",
    "the shared index": "sharedindex[.][0-9a-f]+: ",
    "the output": "standard output: ",
    "the lock": "out: the index can't be locked: out([.]lock)?: ",
    "the lock's bytes": "out: the index can't be written to its lock file: out[.]lock: ",
    "the place": "out: the index can't be replaced by its lock file: out: ",
}
# The steps of each command behind those of reading.
STEPS_OF = {
    "list": ["the output"],
    "map": ["the output"],
    "map-svg": ["the output"],
    "show": ["the output"],
    "show-json": ["the output"],
    "check": ["the output"],
    "trees": ["the output"],
    "check-trees": ["the output"],
    "rewrite": ["the lock", "the lock's bytes", "the place"],
    "rewrite4": ["the lock", "the lock's bytes", "the place"],
    "rewrite-trees": ["the lock", "the lock's bytes", "the place"],
    "salvage": ["the lock", "the lock's bytes", "the place"],
}

Run = collections.namedtuple("Run", "status out faults counts files")


def ask(tool, box, arguments, text=b"", how=None, nth=0):
    """Runs a program in a folder, with the Nth refused where it is said how."""
    counts = box / ".counts"
    environment = {"LD_PRELOAD": str(failing.library()), "REFUSED_COUNTS": str(counts)}
    if how is not None:
        kind, goes_on, error = FAULTS[how]
        environment |= {"REFUSED_KIND": kind, "REFUSED_NTH": str(nth)}
        environment |= {"REFUSED_ON": "1"} if goes_on else {}
        environment |= {"REFUSED_ERROR": str(error)} if error else {}
    asked = [str(tool), *arguments]
    done = subprocess.run(asked, cwd=box, input=text, capture_output=True, env=environment, timeout=MOST_SECONDS)
    counted = failing.counts_in(counts)
    counts.unlink()
    files = {path.name: path.read_bytes() if path.is_file() else None for path in box.iterdir()}
    return Run(done.returncode, done.stdout, done.stderr, counted, files)


def names_memory(faults):
    return faults.count(b"\n") == 1 and b"memory" in faults


def lines_of(row, lines):
    return "".join(f"{line}\n" for line in [f"> {row}", *lines]).encode()


def wants(row):
    """The answers that say of a row that memory was wanting, and leave what was lent as it was."""
    call, kind, *rest = row.split(" ")
    if call == "merge":
        before = show.entries(words.list_of(rest[1], kind).entries)
        yield lines_of(row, ["fault: memory", f"entries: {before}"])
    elif call == "edits":
        edit, before = rest[1], show.entries(words.list_of(rest[0], kind).entries)
        yield lines_of(row, [f"{edit}: fault: memory"])
        yield lines_of(row, [f"{edit}: fault: memory", f"{edit}: entries: {before}"])
    else:
        yield lines_of(row, ["fault: memory"])
        yield lines_of(row, ["fault: bitmap: memory"])


class Row:
    """A row of a program of rows. If it is said how many, its call asks for no more than so many blocks."""

    def __init__(self, crate, row, quiet=None):
        self.name, self.crate, self.row, self.quiet = row, crate, row, quiet
        self.data = TOP / "crates" / crate / "data"
        self.whole = lines_of(row, MODELS[crate].answer(row, self.data))
        self.wants = set(wants(row) if quiet is None else ())
        self.is_of_file = row.startswith("at ")
        self.hows = () if quiet is not None else tuple(FAULTS) if self.is_of_file else ("request", "requests")
        self.unread = dict(self.unreadable()) if self.is_of_file else {}

    def unreadable(self):
        """What is told of each file that can't be read, and what it is."""
        _, kind, name, *rest = self.row.split(" ")
        for file in [name, *sorted(path.name for path in self.data.glob("sharedindex.*"))]:
            told = lines_of(self.row, [f"fault: file {show.text(file.encode())}"])
            yield told, "the index" if file == name else "the shared index"
        if rest:
            yield lines_of(self.row, show.whole(words.list_of("[]", kind), None)), "an empty index"

    def run(self, tool, box, how=None, nth=0, row=None):
        for file in sorted(self.data.rglob("*")) if self.is_of_file or "@" in self.row else ():
            place = box / file.relative_to(self.data)
            if file.is_dir():
                place.mkdir(exist_ok=True)
            elif not place.exists():
                os.link(file, place)
        run = ask(tool, box, (), (row or self.row).encode() + b"\n", how, nth)
        return run._replace(files={})

    def noise(self, ample, tool, box):
        """What is wrong with the number of blocks, or None."""
        unnamed = self.run(tool, box, row=self.row.capitalize())
        count = ample.counts["block"] - unnamed.counts["block"]
        return None if unnamed.status == 1 and count == self.quiet else f"{count} blocks, not {self.quiet}"

    def fault(self, run, ample, how):
        """What is wrong with an answer, or None."""
        if run.status == 0 and (run.out == self.whole or run.out in self.told(how)):
            return None
        is_of_call = how in DEVICE or how == "call without memory"
        is_front = self.whole.startswith(run.out) if is_of_call else run.out == b""
        is_named = run.faults.count(b"\n") == 1 if how in DEVICE else how in MEMORY and names_memory(run.faults)
        is_named |= how == "calls" and run.faults == b""
        if run.status == 1 and is_front and is_named:
            return None
        return f"status {run.status}, {run.out[len(self.row):][:200]!r}, {run.faults[:200]!r}"

    def told(self, how):
        """What may be told where it is refused so."""
        return self.unread if how in DEVICE else self.wants if how in MEMORY else ()

    def step(self, run):
        """The file that can't be read, or None."""
        return self.unread.get(run.out) if run.out != self.whole else None

    def steps(self, how):
        """The files that can't be read one behind the other."""
        if not self.is_of_file or how not in ALONE or b"\nfault: " in self.whole:
            return None
        if self.whole in self.unread:
            return [] if how == "call that finds nothing" else ["the index"]
        is_empty = how == "call that finds nothing" and self.row.endswith(" or-default")
        is_split = "merging" in self.row or "alone" in self.row
        return ["an empty index"] * is_empty + ["the index"] + ["the shared index"] * is_split


class Written(Row):
    """A row that writes an index to a file, which was there before, by `File::write`."""

    def __init__(self, crate, row):
        super().__init__(crate, row)
        given = row.split(" ")[1:]
        self.path, self.lock = given[2], f"{given[2]}.lock"
        found, checksum = change_answers.file_of(given, self.data)
        self.image = change_answers.file_written(given, self.data)[2]
        lines = lambda answer: change_answers.lines_of_write(answer, found, found.version, checksum)
        told = lambda fault: lines_of(row, lines(f"fault: {fault}"))
        behind = lambda fault: self.whole.replace(b"integrity: intact", f"integrity: fault: {fault}".encode())
        self.unread = {
            told(f"lock {self.lock}"): "the lock",
            told(f"file {self.lock}"): "the lock's bytes",
            told(f"place {self.path}"): "the place",
            behind(f"file {self.path}"): "the index",
        }
        self.wants |= {told("memory"), behind("memory")}
        self.hows = tuple(FAULTS)
        self.is_read = "null" not in given

    def run(self, tool, box, how=None, nth=0, row=None):
        (box / self.lock).unlink(missing_ok=True)
        put(box, {self.path: OLD})
        return ask(tool, box, (), self.row.encode() + b"\n", how, nth)

    def fault(self, run, ample, how):
        if self.lock in run.files and how != "calls":
            return "the lock file is left"
        there = run.files.get(self.path)
        if there not in (OLD, self.image):
            return "a file that is neither the old one nor the new one"
        if b"\nwrite: " in run.out and (b"\nwrite: whole\n" in run.out) != (there == self.image):
            return "a file that isn't what is told of it"
        return super().fault(run, ample, how)

    def steps(self, how):
        if how not in ALONE:
            return None
        return ["the lock", "the lock's bytes", "the place"] + ["the index"] * self.is_read


class Command:
    """A command of index-tool on a file, beside other files of its folder. A file that it writes was there before."""

    def __init__(self, command, kind, name, given, hows=tuple(FAULTS), line=None):
        self.name, self.crate, self.quiet = f"{command} {kind} {name}", "index_tool", None
        is_writing = "the place" in STEPS_OF[command]
        self.words = [command, kind, name] + ([tool_answers.OUT] if is_writing else [])
        self.given = given | ({tool_answers.OUT: OLD} if is_writing else {})
        self.answer, self.line = tool_answers.answer(command, kind, name, given), line
        self.behind = self.behind_answer(self.answer)
        # What `salvage` answers where the shared index can't be read.
        self.alone = tool_answers.answer(command, kind, name, {name: given[name]}) if command == "salvage" else None
        self.hows = hows

    def behind_answer(self, answer):
        """The files where that is answered."""
        return self.given | ({tool_answers.OUT: answer.written} if answer.written else {})

    def run(self, tool, box, how=None, nth=0):
        (box / "out.lock").unlink(missing_ok=True)
        put(box, self.given)
        return ask(tool, box, self.words, b"", how, nth)

    def fault(self, run, ample, how):
        if how is None:
            return self.fault_of_ample(run)
        lock = run.files.pop("out.lock", None)
        if run[:3] == ample[:3] and run.files == ample.files and lock is None:
            return None
        is_done = (run.status, run.out, run.files) == (0, ample.out, ample.files) and lock is None
        if is_done and how not in ("move", "wait") and ample.faults.startswith(run.faults):
            # (the line that tells of what was done doesn't go out)
            return None
        is_ample = (*run[:3], run.files) == (*ample[:3], ample.files)
        if is_ample and ample.status != 0 and how in (*ALONE, *MEMORY):
            # (the call that fails is the one that removes the lock)
            return None
        if self.alone is not None and how in DEVICE and self.is_alone(run) and lock is None:
            return None
        if how in ("move", "wait"):
            return f"another answer: status {run.status}, {run.faults[:200]!r}"
        if run.files not in (self.given, self.behind):
            return "a file that is neither the old one nor the new one"
        if lock is not None and how != "calls":
            return "the lock file is left"
        if run.status not in (1, ample.status) or not ample.out.startswith(run.out):
            return f"status {run.status}, {run.out[:200]!r}, {run.faults[:200]!r}"
        if run.status == ample.status == 0:
            return "an answer that isn't whole"
        if ample.status and ample.faults.startswith(run.faults):
            return None
        if how in DEVICE:
            return None if run.faults.count(b"\n") == 1 or how == "calls" and not run.faults else "not one line"
        return None if names_memory(run.faults) else f"another fault: {run.faults[:200]!r}"

    def is_alone(self, run):
        """Whether the answer is that without a shared index."""
        is_line = run.faults.startswith(self.alone.fault) and run.faults.count(b"\n") == 1
        return (run.status, run.out, run.files) == (0, b"", self.behind_answer(self.alone)) and is_line

    def fault_of_ample(self, run):
        """What differs from the model's answer where nothing is refused."""
        wanted = self.answer
        is_line = run.faults.startswith(wanted.fault) and run.faults.count(b"\n") == (wanted.fault != b"")
        is_line &= self.line in (None, (run.faults or run.out).decode().rstrip("\n"))
        out = run.out if wanted.out is None else wanted.out
        if (run.status, run.out, run.files) == (wanted.status, out, self.behind) and is_line:
            return None
        return f"not the model's answer: status {run.status}, {run.out[:200]!r}, {run.faults[:200]!r}"

    def step(self, run):
        """The step that a run's line names, or None where there is none, or where it tells of what was done."""
        if run.status == 0:
            return None
        for step, text in STEPS.items():
            line = f"index-tool: {text}(Input/output error|No such file or directory|No space left on device) "
            if re.match(line.replace("NAME", re.escape(self.words[2])), run.faults.decode()):
                return step
        return run.faults.decode() or None

    def steps(self, how):
        """The steps that fail one behind the other, where nothing else is wrong."""
        if self.answer.status or how not in ALONE:
            return None
        is_split = self.words[0] in tool_answers.OF_INDICES and any(map(SHARED.match, self.given))
        reading = ["the index"] + (["the shared index"] if is_split else [])
        later = [step for step in STEPS_OF[self.words[0]] if step != "the output" or self.answer.out != b""]
        return [step for step in later if step == "the lock"] + reading + [step for step in later if step != "the lock"]


class Place:
    """`rewrite` to a path where nothing can be written: the lines' end, and all files as they were."""

    def __init__(self, path, given, line):
        self.name, self.crate, self.quiet, self.hows = f"rewrite to {path}: {line}", "index_tool", None, ()
        self.path, self.given, self.line = path, given, f"index-tool: {path}: {line}\n".encode()

    def run(self, tool, box):
        put(box, self.given)
        return ask(tool, box, ["rewrite", "sha1", "split.index", self.path])

    def fault(self, run, ample, how):
        is_told = run[:3] == (1, b"", self.line) and run.files == self.given
        return None if is_told else f"status {run.status}, {run.faults[:200]!r}"


def put(box, files):
    """Writes files into a folder, and makes a folder where a name has no bytes."""
    for name, data in files.items():
        if data is None:
            (box / name).mkdir(exist_ok=True)
        else:
            (box / name).write_bytes(data)
