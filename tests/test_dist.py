# SPDX-License-Identifier: MIT OR Apache-2.0
"""Holds that the packages of tools/dist are complete, and have the same bytes each time.

They are made twice. Each is unpacked into an empty folder. There the program lists an index, and the samples in C, Rust
and Python are built and run with the files of the package alone, those in C with the shared and with the static
library. The checksums of the packages are those of their files.
"""
import functools
import hashlib
import os
import pathlib
import shutil
import sys
import tempfile

import versions  # (tools/versions.py)

from tests import TOP
from tests.case import Case, needs
from tests.common import answer, run

# What a user may have set that leads elsewhere.
SETTINGS = ("GIX_INDEX_LIB", "LD_LIBRARY_PATH", "PKG_CONFIG_LIBDIR", "PKG_CONFIG_PATH", "PYTHONPATH")
DOC, SHARE = "share/doc/gix-index", "share/gix-index"
FOUND, NONE = (0, b"1" * 40 + b"\n", b""), (0, b"none\n", b"")


@functools.cache
def packed():
    """Returns two folders of packages, which were made one after the other."""
    room = pathlib.Path(tempfile.mkdtemp(prefix="dist-"))
    for name in ("first", "second"):
        (room / f"{name}-temporary").mkdir()
        run((TOP / "tools" / "dist", room / name), env={**os.environ, "TMPDIR": str(room / f"{name}-temporary")})
    return room / "first", room / "second"


def tearDownModule():
    if packed.cache_info().currsize:
        shutil.rmtree(packed()[0].parent)


def here(**settings):
    """Returns the environment with these settings, and without those that lead elsewhere."""
    return {name: text for name, text in os.environ.items() if name not in SETTINGS} | settings


def unlike(lines, folder):
    """Returns the lines of a list of checksums that aren't those of the folder's files."""
    pairs = (line.split("  ", 1) for line in lines)
    return [name for digest, name in pairs if hashlib.sha256((folder / name).read_bytes()).hexdigest() != digest]


@needs("cargo", "cc", "ar", "dpkg", "dpkg-deb")
class Dist(Case):
    """The packages, each unpacked into an empty folder."""

    def setUp(self):
        self.place = self.room()
        self.index = self.place / "index"
        shutil.copy(TOP / "crates" / "index_tool" / "data" / "one.index", self.index)

    def package(self, pattern):
        """Returns the path of the one package whose name is like this."""
        found = [*packed()[0].glob(pattern)]
        self.assertEqual(len(found), 1, pattern)
        return found[0]

    def hold_answer(self, what, words, wanted, **options):
        got = answer(words, cwd=self.place, **options)
        self.hold(f"{what}: {got}", got == wanted)

    def hold_sample(self, what, words, env=None):
        """Holds that a sample finds the path that the index has, and no other."""
        env = env or here()
        self.hold_answer(what, (*words, self.index, "a"), FOUND, env=env)
        self.hold_answer(f"{what}, another path", (*words, self.index, "b"), NONE, env=env)

    def hold_files(self, prefix):
        """Looks at the files below a prefix: their checksums, licenses, manual page and completions."""
        lines = (prefix / DOC / "SHA256SUMS").read_text(encoding="utf-8").splitlines()
        self.hold(f"checksums: {unlike(lines, prefix)}", not unlike(lines, prefix))
        names = {str(it.relative_to(prefix)) for it in prefix.rglob("*") if it.is_file() and not it.is_symlink()}
        listed = {line.split("  ", 1)[1] for line in lines} | {f"{DOC}/SHA256SUMS"}
        self.hold(f"files: {names ^ listed}", names == listed)
        for name in ("LICENSE-MIT", "LICENSE-APACHE", "NOTICE", "README.md", "licenses/clap/LICENSE-MIT"):
            self.hold(name, (prefix / DOC / name).is_file())
        page = (prefix / "share/man/man1/index-tool.1").read_text(encoding="utf-8")
        self.hold("the manual's version", f'"gix_index {versions.VERSION}"' in page)
        self.hold("completions", (prefix / "share/bash-completion/completions/index-tool").is_file())

    def hold_program(self, prefix):
        tool = prefix / "bin" / "index-tool"
        shown = f"index-tool {versions.SHOWN}\n".encode()
        self.hold_answer("--version", (tool, "--version"), (0, shown, b""), env=here())
        line = b"100644 " + b"1" * 40 + b" 0\ta\n"
        self.hold_answer("list", (tool, "list", "sha1", self.index), (0, line, b""), env=here())

    def hold_c(self, prefix):
        """Builds the sample in C with the shared and with the static library."""
        source, library = prefix / DOC / "examples/c/sample.c", prefix / "lib" / "libgix_index.a"
        env = here(PKG_CONFIG_PATH=str(prefix / "lib" / "pkgconfig"))
        asked = ("pkg-config", "--modversion", "gix_index")
        self.hold_answer("pkg-config", asked, (0, f"{versions.VERSION}\n".encode(), b""), env=env)
        _, words, _ = answer(("pkg-config", "--cflags", "--libs", "gix_index"), env=env)
        flags = words.decode().split()
        self.hold(f"pkg-config has no rpath: {flags}", not any("rpath" in flag for flag in flags))
        run(("cc", "-o", self.place / "shared", source, *flags))
        self.hold_sample("C, shared", (self.place / "shared",), here(LD_LIBRARY_PATH=str(prefix / "lib")))
        run(("cc", "-o", self.place / "static", source, flags[0], library))
        self.hold_sample("C, static", (self.place / "static",))

    def hold_rust(self, prefix):
        target = self.place / "target"
        env = here(PKG_CONFIG_PATH=str(prefix / "lib" / "pkgconfig"), CARGO_TARGET_DIR=str(target))
        manifest = prefix / SHARE / "rust" / "Cargo.toml"
        words = ("cargo", "build", "--quiet", "--offline", "--example", "sample", "--manifest-path", manifest)
        run(words, env=env, cwd=self.place)
        self.hold_sample("Rust", (target / "debug" / "examples" / "sample",))

    def hold_python(self, prefix, folder):
        sample = prefix / DOC / "examples/python/sample.py"
        self.hold_sample("Python", (sys.executable, "-B", sample), here(PYTHONPATH=str(folder)))

    def hold_all_of(self, prefix, modules):
        """Holds that all below a prefix works, with the module in Python in this folder."""
        self.hold_files(prefix)
        self.hold_program(prefix)
        self.hold_rust(prefix)
        self.hold_python(prefix, prefix / "lib" / modules)
        if shutil.which("pkg-config"):
            self.hold_c(prefix)

    def test_two_builds_have_the_same_bytes(self):
        first, second = ({it.name: it.read_bytes() for it in folder.iterdir()} for folder in packed())
        self.hold(f"names: {[*first]}, {[*second]}", first.keys() == second.keys() and len(first) == 4)
        for name in first:
            self.hold(f"the bytes of {name}", first[name] == second.get(name))
        lines = first["SHA256SUMS"].decode().splitlines()
        self.hold("checksums", len(lines) == 3 and not unlike(lines, packed()[0]))

    def test_tarball(self):
        shutil.unpack_archive(self.package("*.tar.gz"), self.place / "unpacked", "gztar")
        prefix = next((self.place / "unpacked").iterdir())
        self.hold_all_of(prefix, "python")

    def test_debian_package(self):
        package = self.package("*.deb")
        run(("dpkg-deb", "-x", package, self.place / "unpacked"))
        self.hold_all_of(self.place / "unpacked" / "usr", "python3/dist-packages")
        shown = f"{versions.VERSION}\n".encode()
        self.hold_answer("its version", ("dpkg-deb", "--field", package, "Version"), (0, shown, b""))

    def test_wheel(self):
        """The wheel is installed by pip if that is there, and else unpacked."""
        wheel, modules = self.package("*.whl"), self.place / "modules"
        pip = (sys.executable, "-m", "pip")
        if answer((*pip, "--version"))[0] == 0:
            words = (*pip, "install", "--quiet", "--no-index", "--no-deps", "--no-compile", "--target", modules, wheel)
            run(words, env=here(), cwd=self.place)
        else:
            shutil.unpack_archive(wheel, modules, "zip")
        sample = TOP / "python" / "examples" / "sample.py"
        shutil.copy(sample, self.place)
        self.hold_sample("Python", (sys.executable, "-B", self.place / "sample.py"), here(PYTHONPATH=str(modules)))
        said = "import gix_index as it; print(it.__version__, it.UPSTREAM_VERSION)"
        wanted = f"{versions.VERSION} {versions.UPSTREAM}\n".encode()
        self.hold_answer("its version", (sys.executable, "-B", "-c", said), (0, wanted, b""),
                         env=here(PYTHONPATH=str(modules)))
