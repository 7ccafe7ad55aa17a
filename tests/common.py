"""What tests share: the programs under test, what a command answers, and what valgrind counts of it."""
import functools
import os
import re
import subprocess
import tempfile

import crates

KINDS = ("sha1", "sha256")
ID_LEN = {"sha1": 20, "sha256": 32}
BUILT = "TEST_BUILT"


class Broken(Exception):
    """What a test needs can't be made."""


def setting(name, default):
    """A number or text that the caller gave by `--set NAME=VALUE`, or by the variable TEST_NAME; else the default."""
    text = os.environ.get(f"TEST_{name.upper()}")
    return default if text is None else type(default)(text)


@functools.cache
def program(crate):
    """The path of a crate's program: with `--built` the one that `rt ci` left, if it is there; else it is built."""
    path = crates.program_of(crate)
    return path if os.environ.get(BUILT) and path.is_file() else crates.built(crate)


def answer(words, **options):
    """The status of a command, and what it prints to standard output and standard error."""
    done = subprocess.run([str(word) for word in words], capture_output=True, check=False, **options)
    return done.returncode, done.stdout, done.stderr


def run(words, **options):
    """Runs a command that has to succeed."""
    status, out, faults = answer(words, **options)
    if status != 0:
        raise Broken(f"{' '.join(map(str, words))}: {(out + faults).decode(errors='replace')}")


def in_valgrind(tool, words, **options):
    """What a tool of valgrind says of one run."""
    faults = answer(("valgrind", f"--tool={tool}", *words), stdin=subprocess.DEVNULL, **options)[2]
    return faults.decode(errors="replace")


def steps(words, **options):
    """The instructions that one run takes, as callgrind counts them."""
    said = in_valgrind("callgrind", ("--callgrind-out-file=/dev/null", *words), **options)
    found = re.search(r"Collected : (\d+)", said)
    if found is None:
        raise Broken(f"{' '.join(map(str, words))}: {said}")
    return int(found[1])


def peak(words, **options):
    """The most bytes that one run holds at one time, as massif counts them."""
    with tempfile.NamedTemporaryFile("r", prefix="massif-") as out:
        said = in_valgrind("massif", (f"--massif-out-file={out.name}", "--peak-inaccuracy=0.0", *words), **options)
        found = [int(line.partition("=")[2]) for line in out if line.startswith("mem_heap_B=")]
    if not found:
        raise Broken(f"{' '.join(map(str, words))}: {said}")
    return max(found)
