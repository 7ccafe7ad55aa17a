"""The samples of README.md and of the READMEs for callers do what these pages show, as a reader would paste them.

A block of a language after a line 'Save this as `NAME`:' is a file of that name. A block `console` has commands: a
line `$ WORDS` is one, and the lines after it are all that it prints, with `...` for any text within a line. Blocks
with `make` are instructions to install, and aren't run. All other blocks of a page are run in turn, in one shell and a
temporary folder: for README.md an empty one, and for the others a repository in which the file README is staged.
`index-tool` is the program, SOURCES the folder of these sources, and the variables of the instructions name an
installed library.
"""
import os
import re
import shutil

from tests import TOP, installed
from tests.case import Case, needs
from tests.repository import WRITING, git, write
from tests.test_howto import is_printed, printed_by

FENCE = re.compile(r"^```(\w+)\n(.*?)^```$", re.DOTALL | re.MULTILINE)
SAVED = re.compile(r"Save this as `([\w.]+)`:\n\n\Z")
IS_TO_INSTALL = re.compile(r"^\$ make\b", re.MULTILINE)
# The pages for callers, and what each needs.
CALLERS = {"c/README.md": ("cc", "pkg-config"), "rust/README.md": ("cc", "cargo"), "python/README.md": ("cc",)}


def files_of(text):
    """The files that a page has the reader save: their names and contents."""
    for block in FENCE.finditer(text):
        named = SAVED.search(text, 0, block.start())
        if named and block[1] != "console":
            yield named[1], block[2]


def commands_of(text):
    """The commands of a page, each with the lines that it prints."""
    for language, lines in FENCE.findall(text):
        if language == "console" and not IS_TO_INSTALL.search(lines):
            for shown in re.split(r"^\$ ", lines, flags=re.MULTILINE)[1:]:
                command, *printed = shown.rstrip("\n").split("\n")
                yield command, printed


@needs("git", "bash")
class Readme(Case):
    def look(self, page, settings, is_repository=True):
        """At all that a page shows, in a folder with the files that it has the reader save."""
        text, folder = (TOP / page).read_text(encoding="utf-8"), self.room() / "folder"
        folder.mkdir()
        if is_repository:
            git(folder, "init", "-q", "-b", "main", ".", env=WRITING)
            write(folder, "README", "A sample.\n")
            git(folder, "add", "README", env=WRITING)
        for name, contents in files_of(text):
            write(folder, name, contents)
        commands = [*commands_of(text)]
        self.hold(f"{page} has commands", commands)
        settings = WRITING | {"GIT_DEFAULT_HASH": "sha1", "SOURCES": str(TOP)} | settings
        printed = printed_by([command for command, _ in commands], folder, settings)
        printed += [""] * (len(commands) - len(printed))
        for (command, lines), got in zip(commands, printed):
            self.hold(f"{page}: {command}\n{got}", is_printed(lines, got))

    def test_program(self):
        place = self.room()
        (place / "index-tool").symlink_to(self.tool)
        self.look("README.md", {"PATH": f"{place}:{os.environ['PATH']}"}, is_repository=False)

    def test_callers(self):
        for page, programs in CALLERS.items():
            lacking = [name for name in programs if not shutil.which(name)]
            if lacking:
                print(f"readme: there is no {', '.join(lacking)}: {page} is left out")
                continue
            lib = installed.prefix() / "lib"
            settings = {"PKG_CONFIG_PATH": str(lib / "pkgconfig"), "PYTHONPATH": str(lib / "python")}
            settings |= {"LD_LIBRARY_PATH": str(lib)}
            settings |= {"GIX_INDEX_LIB": str(lib), "CARGO_TARGET_DIR": str(self.room())}
            self.look(page, settings)
