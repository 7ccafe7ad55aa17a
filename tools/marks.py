# SPDX-License-Identifier: MIT OR Apache-2.0
"""The marks that tell whether what is built of a crate is made of the files that lie here now.

A mark is the file `sources.sum` beside what was built. Its first line has three sums: over the bytes of the crate's
sources and of those below it; of what was built; and over the files that say which toolchain it was. The second is the
folder of that toolchain. Each further line is what `stat` prints of a file or folder: its length, time and name, of
what was built first. tools/built compares these alone.
"""
import hashlib
import os
import pathlib
import shutil
import subprocess

from crates import TOP, lines, made_of, needed, product_of

PARTS = ("src", "specs", "proofs")


def mark_of(crate):
    return product_of(crate).with_name("sources.sum")


def sum_of(file):
    return hashlib.sha256(file.read_bytes()).hexdigest()


def total(pairs):
    """One sum over names and what stands for each."""
    whole = hashlib.sha256()
    for name, value in pairs:
        whole.update(f"{name}\0{value}\n".encode())
    return whole.hexdigest()


def toolchain():
    """The folder of the toolchain, and the files that say which one it is: none where no `rt` is on the path."""
    found = shutil.which("rt")
    folder = pathlib.Path(found).resolve().parent.parent if found else None
    return folder, [file for file in (folder / name for name in ("KIT-ID", "WHAT")) if file.is_file()] if found else []


def sources_sum(crates):
    """One sum over the lines of these crates in crates.txt, HANDLES and their sources."""
    said = lines()
    files = [TOP / "HANDLES", *made_of(crates)]
    pairs = [(file.relative_to(TOP), sum_of(file)) for file in files if file.is_file()]
    return total([*((crate, " ".join(said[crate].split())) for crate in crates), *pairs])


def places_of(crates):
    """The files that the sum is taken over, and the folders in which one more would lie."""
    folders = [TOP / "crates" / crate for crate in crates]
    parts = [folder / part for folder in folders for part in PARTS]
    below = [pathlib.Path(at) for part in parts for at, _, _ in os.walk(part)]
    return [TOP / "crates.txt", TOP / "HANDLES", *folders, *below, *made_of(crates)]


def stats_of(places):
    """What `stat` prints of the places, where they are there."""
    names = [str(place.relative_to(TOP)) if TOP in place.parents else str(place) for place in places if place.exists()]
    if not names:
        return ""
    words = ("stat", "-c", "%s %.9Y %n", "--", *names)
    how = {"stdout": subprocess.PIPE, "env": {**os.environ, "LC_ALL": "C"}}
    return os.fsdecode(subprocess.run(words, cwd=TOP, check=True, **how).stdout)


class Mark:
    """The mark of a crate as its sources are now, for what is built of them."""

    def __init__(self, crate):
        crates = needed(crate)
        # (the times first: a file that changes after this is looked at again)
        self.crate, self.stats = crate, stats_of(places_of(crates))
        self.sources, self.kit = sources_sum(crates), toolchain()

    def sums(self):
        """The sums: those of a toolchain only where there is one."""
        product, (_, files) = product_of(self.crate), self.kit
        kit = total((file.name, sum_of(file)) for file in files) if files else ""
        return self.sources, sum_of(product) if product.is_file() else "", kit

    def fits(self):
        """Whether what is built is made of these sources, by this toolchain where there is one."""
        mark, (sources, product, kit) = mark_of(self.crate), self.sums()
        if not product or not mark.is_file():
            return False
        kept = mark.read_text(encoding="utf-8", errors="surrogateescape").partition("\n")[0].split(" ")
        return kept[:2] == [sources, product] and kit in ("", *kept[2:])

    def write(self):
        folder, files = self.kit
        stats = stats_of([product_of(self.crate)]) + stats_of(files) + self.stats
        text = f"{' '.join(self.sums())}\n{folder or ''}\n{stats}"
        mark_of(self.crate).write_text(text, encoding="utf-8", errors="surrogateescape")


def is_up_to_date(crate):
    """Whether what is built of the crate is made of the files that lie here now."""
    if subprocess.run([TOP / "tools" / "built", crate], stdout=subprocess.DEVNULL, check=False).returncode == 0:
        return True
    if not mark_of(crate).is_file():
        return False
    mark = Mark(crate)
    if mark.fits():
        mark.write()
        return True
    return False
