"""The headers in c/ compile without a warning, as each C and C++ that a caller may have.

Each header is included alone and twice, and all of them in each order: as C99, C11 and C17, and as C++98, 03, 11, 14,
17 and 20. What isn't of the standard is an error, and so is each warning. So is tests/nulls.c, which calls what headers
have and is C and C++ at once; test_linked runs it. c/gix_index_file.c, of which the shared library is made, is compiled
as each C. The library isn't needed. Where POSIX of 2008 isn't asked for, the headers for files say so, and gix_index.h
needs nothing of it.
"""
import itertools
import shutil

from tests import TOP
from tests.case import Case
from tests.common import answer

C, CXX = ("c99", "c11", "c17"), ("c++98", "c++03", "c++11", "c++14", "c++17", "c++20")
WARNINGS = ("-Wall", "-Wextra", "-Wshadow", "-Wconversion", "-Wundef", "-pedantic-errors", "-Werror")
POSIX = "#define _POSIX_C_SOURCE 200809L\n"
HEADERS = tuple(sorted(path.name for path in (TOP / "c").glob("*.h")))
TESTS = TOP / "tests"
CALLER, SHARED = TESTS / "nulls.c", TOP / "c" / "gix_index_file.c"


def included(headers):
    return "".join(f'#include "{header}"\n' for header in headers)


def sources():
    """What is compiled: its name, and its text."""
    yield "gix_index.h without POSIX", included(("gix_index.h", "gix_index.h"))
    for header in HEADERS:
        yield f"{header} twice", POSIX + included((header, header))
    for headers in itertools.permutations(HEADERS):
        yield " ".join(headers), POSIX + included(headers)
    yield CALLER.name, CALLER.read_text(encoding="utf-8")


def sources_in_c():
    """What is compiled as C alone."""
    yield SHARED.name, SHARED.read_text(encoding="utf-8")


class Headers(Case):
    def look(self, compiler, standards):
        if not shutil.which(compiler):
            self.skipTest(f"there is no {compiler}")
        for standard in standards:
            language = "c++" if standard in CXX else "c"
            words = (compiler, f"-std={standard}", "-x", language, "-O1", f"-I{TOP / 'c'}", f"-I{TESTS}", "-c", "-o")
            self.look_at(f"{compiler}, {standard}", language, (*words, self.room() / "made.o"))

    def look_at(self, name, language, words):
        """At all sources, as one compiler compiles them by these words."""
        source = self.room() / "source"
        for what, text in (*sources(), *(sources_in_c() if language == "c" else ())):
            source.write_text(text, encoding="utf-8")
            # (the caller is C code, and has C casts)
            casts = ("-Wold-style-cast",) if language == "c++" and what != CALLER.name else ()
            status, out, faults = answer((*words, *WARNINGS, *casts, source))
            self.hold(f"{name}: {what}: {(out + faults).decode()}", (status, out + faults) == (0, b""))
        if language == "c":
            source.write_text(included(HEADERS), encoding="utf-8")
            status, _, faults = answer((*words, source))
            self.hold(f"{name}: POSIX that isn't asked for", status != 0 and b"_POSIX_C_SOURCE" in faults)

    def test_gcc(self):
        self.look("gcc", C)

    def test_clang(self):
        self.look("clang", C)

    def test_gxx(self):
        self.look("g++", CXX)

    def test_clangxx(self):
        self.look("clang++", CXX)
