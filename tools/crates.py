# SPDX-License-Identifier: MIT OR Apache-2.0
"""The crates of this repository as crates.txt lists them, and what is built of them."""
import os
import pathlib
import sys

TOP = pathlib.Path(__file__).resolve().parent.parent


def lines(top=TOP):
    """The line of each crate in a repository's crates.txt, without a comment behind it."""
    whole = pathlib.Path(top, "crates.txt").read_text(encoding="utf-8")
    texts = [line.partition("#")[0] for line in whole.splitlines()]
    return {text.partition(":")[0].split()[0]: text for text in texts if ":" in text}


def listed(top=TOP):
    """The names that each crate uses, those of the kit's libraries among them."""
    return {crate: line.partition(":")[2].split() for crate, line in lines(top).items()}


def own_uses(top=TOP):
    """The crates of the repository that each crate uses."""
    uses = listed(top)
    return {crate: [name for name in names if name in uses] for crate, names in uses.items()}


def needed(*crates, top=TOP):
    """The crates and those that they stand on, each behind those that it uses."""
    uses, found = own_uses(top), {}

    def visit(name):
        if name not in found:
            for below in uses[name]:
                visit(below)
            found[name] = True

    for crate in crates:
        visit(crate)
    return [*found]


def made_of(crates):
    """The files of the crates that their proofs and programs are made from."""
    for crate in crates:
        for part, ending in (("src", ".rt"), ("specs", ".antt"), ("proofs", ".antt")):
            for folder, folders, names in os.walk(TOP / "crates" / crate / part):
                folders.sort()
                yield from (pathlib.Path(folder, name) for name in sorted(names) if name.endswith(ending))


def is_program(crate):
    return (TOP / "crates" / crate / "src" / "main.rt").is_file()


def is_static(crate):
    """Whether the crate is a static library, for callers in C."""
    return "staticlib" in lines()[crate].partition(":")[0].split()[1:]


def product_of(crate):
    """What tools/build makes of the crate: a program, or else a static library.

    It lies outside of crates/, where `rt ci` takes away what isn't its own.
    """
    return TOP / "out" / crate / (crate if is_program(crate) else f"lib{crate}.a")


def program_of(crate):
    """The program that `rt ci` or `rt run` left of the crate, if they ran there."""
    return TOP / "crates" / crate / "out" / crate


def built(crate):
    """The crate's program, proved and built where it isn't yet. A program that can't be built ends this one."""
    import subprocess

    done = subprocess.run([TOP / "tools" / "build", crate], stdin=subprocess.DEVNULL, stdout=subprocess.DEVNULL)
    if done.returncode != 0:
        sys.exit(f"{crate} can't be built")
    return product_of(crate)
