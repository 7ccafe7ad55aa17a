"""clang's libFuzzer finds no bytes for which a call for C doesn't answer as its header says.

tests/fuzz.c is what is run: it reads the bytes of an index, alone or with its shared one, checks them, searches for
what it read, writes that, changes it, and reads both again. The seeds are the indexes of repositories that git makes
and the files that the model makes, each with several switches. Each is run once, and then what libFuzzer makes of them
for `--set seconds=N` (by default 4, enough to see that it works), in `--set jobs=N` processes (by default 1). A longer
search is `nice python3 -m tests fuzz --set seconds=600 --set jobs=2 --set corpus=FOLDER`, which goes on from what was
kept in FOLDER. An input that fails is kept, there or in a new folder, which a line names; `--set input=FILE` runs such
alone.
"""
import pathlib
import re
import resource
import shutil
import subprocess
import tempfile

from tests import TOP, installed, repositories
from tests.case import Case
from tests.common import KINDS, answer, run, setting
from tests.made import image, table

FLAGS = ("-std=c11", "-O1", "-g", "-Wall", "-Wextra", "-Werror", "-fsanitize=fuzzer,address,undefined")
# The switches of tests/fuzz.c.
IS_SHA256, IS_VERSION_4, IS_TRAILER_KEPT, IS_SPLIT = 1, 2, 4, 8
# An input that is longer tells little more, and takes longer.
MOST_BYTES = 1 << 14
# The megabytes that the target may have.
MOST_MEMORY = 2048


def memory_limit():
    """The limit for libFuzzer in megabytes. Linux counts the peak of the process that starts a program to it too."""
    return MOST_MEMORY + (resource.getrusage(resource.RUSAGE_SELF).ru_maxrss >> 10)


def target(room):
    """What libFuzzer makes of tests/fuzz.c; None where there is no clang that has it."""
    empty = room / "empty.c"
    empty.write_text("int LLVMFuzzerTestOneInput(void) { return 0; }\n")
    if not shutil.which("clang") or answer(("clang", FLAGS[-1], "-o", room / "empty", empty))[0] != 0:
        return None
    links = (f"-I{installed.prefix()}/include", installed.prefix() / "lib" / "libgix_index.a")
    run(("clang", *FLAGS, "-o", room / "target", TOP / "tests" / "fuzz.c", *links))
    return room / "target"


def of_git():
    """The indexes of repositories that git makes, each with its kind and the shared index that it links to."""
    for kind, _, index in repositories.indexes():
        shared = b"".join(path.read_bytes() for path in index.parent.glob("sharedindex.*"))
        yield kind, index.read_bytes(), shared


def of_model():
    """The files that the model makes."""
    for kind in KINDS:
        for is_version_4 in (False, True):
            yield kind, image(table(kind, "three entries"), is_version_4), b""


def inputs(files):
    """What tests/fuzz.c takes, of each file with its switches."""
    for kind, data, shared in files:
        for switch in (0, IS_VERSION_4, IS_TRAILER_KEPT):
            set_all = switch | (IS_SHA256 if kind == "sha256" else 0) | (IS_SPLIT if shared else 0)
            yield bytes([set_all]) + len(shared).to_bytes(4, "little") + data + shared


def seeded(room):
    """A folder with the seeds."""
    folder = room / "seeds"
    folder.mkdir()
    files = [*of_model(), *(of_git() if shutil.which("git") else ())]
    for number, data in enumerate(inputs(files)):
        (folder / f"seed-{number}").write_bytes(data)
    return folder


def is_sound(words, found):
    """Whether libFuzzer found nothing; else what it says is shown, and the folder with what fails."""
    done = subprocess.run([str(word) for word in words], capture_output=True, check=False, cwd=found)
    said = done.stderr.decode(errors="replace")
    if done.returncode != 0:
        print(f"{said[-4000:]}\nfuzz: what fails is in {found}")
    for line in re.findall(r"^(?:Done |stat::).*$", said, re.MULTILINE):
        print(f"fuzz: {line}")
    return done.returncode == 0


class Fuzz(Case):
    def setUp(self):
        self.place = self.room()
        self.made = target(self.place)
        if not self.made:
            self.skipTest("there is no clang with libFuzzer")

    def test_seeds(self):
        found = pathlib.Path(tempfile.mkdtemp(prefix="fuzz-found-"))
        is_right = is_sound((self.made, f"-max_len={1 << 20}", "-runs=0", seeded(self.place)), found)
        self.hold(f"the seeds: what fails is in {found}", is_right)
        if is_right:
            found.rmdir()

    def test_what_is_made_of_them(self):
        seconds, jobs, corpus = setting("seconds", 4), setting("jobs", 1), setting("corpus", "")
        kept = pathlib.Path(corpus or tempfile.mkdtemp(prefix="fuzz-found-")).resolve()
        kept.mkdir(parents=True, exist_ok=True)
        words = (f"-max_len={MOST_BYTES}", f"-max_total_time={seconds}", "-timeout=20")
        words += (f"-rss_limit_mb={memory_limit()}", f"-artifact_prefix={kept}/")
        words += ("-print_final_stats=1", "-len_control=0", "-seed=1")
        words += (f"-fork={jobs}",) if jobs > 1 else ()
        words += (kept,) if corpus else ()
        is_right = is_sound((self.made, *words, seeded(self.place)), kept)
        self.hold(f"what is made of them in {seconds} seconds", is_right)
        if not any(kept.iterdir()):
            kept.rmdir()

    def test_input_that_is_asked_for(self):
        path = setting("input", "")
        if not path:
            self.skipTest("no input is asked for (--set input=FILE)")
        self.hold(path, is_sound((self.made, pathlib.Path(path).resolve()), self.place))
