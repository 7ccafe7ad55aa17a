"""The callers of the library in C, Rust and Python, as tests build them over a prefix in a folder of their own."""
import os
import shlex
import sys

from tests import TOP
from tests.common import answer, run

TESTS = TOP / "tests"
SANITIZE = ("-fsanitize=address,undefined", "-fno-sanitize-recover=all")
EXAMPLES = ("list", "check", "status", "stage", "resolve", "sample", "rewrite")


def install(room):
    """Puts the library and its headers into the folder `prefix`. It is built if it isn't that of the files here."""
    run((TOP / "c" / "install", room / "prefix"))


def sanitizers(room):
    """The flags of the compiler's sanitizers, if it has them."""
    source = room / "empty.c"
    source.write_text("int main(void) { return 0; }\n")
    is_there = answer(("cc", *SANITIZE, "-o", room / "empty", source))[0] == 0 and answer((room / "empty",))[0] == 0
    return SANITIZE if is_there else ()


def preload(room, name):
    """A library of tests/, which is to be put before the C library (LD_PRELOAD)."""
    made = room / f"{name}.so"
    run(("cc", "-shared", "-fPIC", "-O1", f"-I{TESTS}", "-o", made, TESTS / f"{name}.c", "-ldl"))
    return made


def compiled(room, source, compiler, standard, flags):
    """What a compiler makes of a source, with the library."""
    words = (*compiler, f"-std={standard}", "-O1", "-g", "-Wall", "-Wextra", "-Werror", *flags)
    links = (f"-I{room}/prefix/include", f"-I{TESTS}", f"-L{room}/prefix/lib", "-l:libgix_index.a", "-lpthread")
    made = room / f"{source.stem}-{standard}{'-sanitized' if flags else ''}"
    run((*words, "-o", made, source, *links))
    return made


def in_c(room, name, *flags):
    """A caller in C: an example, or one of tests/."""
    example = TOP / "c" / "examples" / f"{name}.c"
    source = example if example.is_file() else TESTS / f"{name}.c"
    return compiled(room, source, ("cc",), "c11", flags)


def in_cxx(room, name, standard, *flags):
    """A caller of tests/ in C that is C++ too, as this standard of that."""
    return compiled(room, TESTS / f"{name}.c", ("g++", "-x", "c++"), standard, flags)


def in_rust_here(room):
    """The environment by which cargo finds the library in the folder."""
    return os.environ | {"GIX_INDEX_LIB": str(room / "prefix" / "lib"), "CARGO_TARGET_DIR": str(room / "target")}


def in_rust(room):
    """The examples in Rust, by their names."""
    words = ("cargo", "build", "--quiet", "--offline", "--release", "--examples")
    run(words, cwd=TOP / "rust", env=in_rust_here(room))
    return {name: room / "target" / "release" / "examples" / name for name in EXAMPLES}


def in_python(room, name):
    """An example in Python over the module that is installed, as a program."""
    made, script = room / f"{name}-in-python", TOP / "python" / "examples" / f"{name}.py"
    module = shlex.quote(f"PYTHONPATH={room / 'prefix' / 'lib' / 'python'}")
    python, example = shlex.quote(sys.executable), shlex.quote(str(script))
    made.write_text(f"#!/bin/sh\nexec env {module} {python} -B {example} \"$@\"\n")
    made.chmod(0o755)
    return made
