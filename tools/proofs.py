# SPDX-License-Identifier: MIT OR Apache-2.0
"""Proves the crates that programs and static libraries stand on, side by side, and builds these."""
import concurrent.futures
import contextlib
import fcntl
import os
import pathlib
import shutil
import signal
import subprocess
import sys
import tempfile
import threading

from crates import TOP, is_program, is_static, lines, needed, product_of
from plan import Plan
from report import Report

RT = TOP / "tools" / "rt"
PARTS = ("src", "specs", "proofs")
# What a program is run on, beside its source.
GIVEN = ("args", "stdin", "data")
LIBRARY, WORK = "rlib", "incremental"
# A line comes at least so often.
SECONDS = 55


class Unbuilt(Exception):
    """The crate isn't proved, or its program isn't built or doesn't run, and this was printed."""

    def __init__(self, crate, said):
        super().__init__(crate)
        self.crate, self.said = crate, said


class Stopped(Exception):
    """This call is ending."""


class Runs:
    """The commands that are running, so that they end with this one."""

    def __init__(self):
        self.lock, self.running, self.is_over = threading.Lock(), set(), False

    def call(self, words, folder, env, given=subprocess.DEVNULL):
        """The status of a command, and what it printed."""
        with tempfile.TemporaryFile("w+", errors="replace") as said:
            with self.lock:
                if self.is_over:
                    raise Stopped
                how = {"cwd": folder, "env": env, "stdin": given, "stdout": said, "stderr": subprocess.STDOUT}
                child = subprocess.Popen([str(word) for word in words], **how)
                self.running.add(child)
            status = child.wait()
            with self.lock:
                self.running.discard(child)
            said.seek(0)
            return status, said.read()

    def stop(self):
        # (what rt started ends with it)
        with self.lock:
            self.is_over = True
            for child in self.running:
                child.kill()


@contextlib.contextmanager
def held(folder):
    """Keeps the folder from others that hold it so, as rt does a crate that it works in."""
    handle = os.open(folder, os.O_RDONLY)
    try:
        fcntl.flock(handle, fcntl.LOCK_EX)
        yield
    finally:
        os.close(handle)


def link_all(here, there, names):
    """Gives those of the files and folders that are there the same names in another folder. rt makes each anew."""
    found = [here / name for name in names if (here / name).exists()]
    there.mkdir(parents=True, exist_ok=True)
    if found:
        subprocess.run(["cp", "-a", "--link", *found, there], check=True)


def made_of_proof(crate):
    """What a proof makes in out/ of the crate, and the folder where it is kept."""
    if is_program(crate):
        return (crate, f"{crate}.stamp"), product_of(crate).parent
    if is_static(crate):
        return (product_of(crate).name,), product_of(crate).parent
    return (LIBRARY,), TOP / "crates" / crate / "out"


def room_place():
    """Where the rooms stand: in the folder for what is temporary, if links lead there, and else below out/."""
    place = pathlib.Path(tempfile.gettempdir())
    if os.stat(place).st_dev != os.stat(TOP).st_dev:
        place = TOP / "out"
        place.mkdir(exist_ok=True)
    return place


def furnish(room, crate):
    """Puts into the room what the crate's proof reads: its text, with that and the libraries of all that it needs."""
    below = needed(crate)
    for each in below:
        here, there = TOP / "crates" / each, room / "crates" / each
        link_all(here, there, (*PARTS, *(GIVEN if each == crate else ())))
        names, kept = made_of_proof(each)
        link_all(kept, there / "out", names)
    link_all(here / "out", there / "out", (WORK,))
    shutil.copy(TOP / "HANDLES", room)
    (room / "crates.txt").write_text("".join(f"{line}\n" for each, line in lines().items() if each in below))


def command_of(crate, jobs, room):
    """What has the crate proved and built, and what it reads."""
    folder = room / "crates" / crate
    if not is_program(crate):
        return [RT, "lib", "--jobs", jobs], os.devnull
    words = (folder / "args").read_text().splitlines() if (folder / "args").exists() else []
    words = [f"data/{word}" if (folder / "data" / word).exists() else word for word in words]
    # (a table may name files of data/, which isn't the folder that the program runs in here)
    is_table = (folder / "stdin").exists() and not (folder / "data").exists()
    return [RT, "run", "--jobs", jobs, "--", *words], folder / "stdin" if is_table else os.devnull


def put_back(there, here, parts):
    for part in parts:
        if (there / part).exists():
            here.mkdir(parents=True, exist_ok=True)
            if (here / part).is_dir():
                shutil.rmtree(here / part)
            shutil.move(there / part, here / part)


def proved(crate, jobs, env, runs):
    """Proves and builds a crate, and gives what that printed.

    rt lets one call at a time work in a crate and in all that it stands on. So that crates over the same one are proved
    side by side, each is proved in a room of its own.
    """
    here = TOP / "crates" / crate
    with held(here), tempfile.TemporaryDirectory(prefix="proof-", dir=room_place()) as name:
        room = pathlib.Path(name)
        furnish(room, crate)
        words, given = command_of(crate, jobs, room)
        there = room / "crates" / crate
        with open(given, "rb") as it:
            status, text = runs.call(words, there, env, it)
        names, kept = made_of_proof(crate)
        put_back(there / "out", kept, names if status == 0 else ())
        put_back(there / "out", here / "out", (WORK,) if status >= 0 else ())
    if status:
        raise Unbuilt(crate, text)
    return text


def unbuilt(crates):
    """Those of the crates that have to be proved, or built: none that is a library of the files that lie here."""
    done = subprocess.run([RT, "look", *crates], cwd=TOP, stdin=subprocess.DEVNULL, stdout=subprocess.PIPE, text=True)
    found = {line.split()[0] for line in done.stdout.splitlines() if line.split()[1:2] == ["built"]}
    return [crate for crate in crates if crate not in found]


def prove_all(plan, runs, report):
    """Proves and builds the crates of a plan."""
    env = {**os.environ, "KEEP_NO_WORK": "1"} if plan.has_room() else None
    running = {}
    with concurrent.futures.ThreadPoolExecutor(max(len(plan.left), 1)) as pool:
        try:
            while plan.left or plan.running:
                for crate, jobs in plan.begin():
                    running[pool.submit(proved, crate, jobs, env, runs)] = crate
                how = {"timeout": report.silence(SECONDS), "return_when": concurrent.futures.FIRST_COMPLETED}
                ended = concurrent.futures.wait(running, **how).done
                for each in ended:
                    crate, text = running.pop(each), each.result()
                    plan.end(crate)
                    report.keep(crate, text)
                    report.tell(crate, "built" if is_program(crate) or is_static(crate) else "proved")
                if not ended:
                    report.tell_still()
        except BaseException:
            runs.stop()
            raise


def end_on(number, _):
    sys.exit(128 + number)


def build(crates, log):
    """Proves and builds programs and static libraries, with a log into that file, and says whether they are there."""
    runs, plan = Runs(), Plan(unbuilt(needed(*crates)))
    for number in (signal.SIGINT, signal.SIGTERM, signal.SIGHUP):
        if signal.getsignal(number) != signal.SIG_IGN:
            signal.signal(number, end_on)
    with open(log, "w", encoding="utf-8") as text:
        report = Report(crates, plan, text)
        try:
            prove_all(plan, runs, report)
        except (Unbuilt, OSError, subprocess.CalledProcessError) as why:
            crate, said = (why.crate, why.said) if isinstance(why, Unbuilt) else (crates[0], f"{why}\n")
            report.keep(crate, said)
            print(said[-3000:], end="", file=sys.stderr)
            report.say(f"{crate} isn't proved and built: {log.relative_to(TOP)} has the whole log")
            return False
        finally:
            runs.stop()
    return True
