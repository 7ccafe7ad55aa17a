"""The commands of docs/HOWTO.md print what that page shows.

A block of the page is what is indented by four columns. A line `$ WORDS` is a command, a line `> WORDS` after it goes
on with it, and the lines after these, up to the next command or the block's end, are all that it prints, to standard
output and standard error. In them `...` means any text within a line, and a line `...` alone any lines.

Each section is a recipe. Its blocks are run in one shell, in a temporary folder of its own, after those of the first
section, which make a repository there. `index-tool` is the program, SOURCES the folder of these sources, and PREFIX one
to which `c/install` has put the library. A recipe that calls a program which isn't there is left out, and a line says
so. `--set title=TEXT` runs only recipes with TEXT in their titles. `--set print=1` shows what each command prints.
"""
import itertools
import os
import re
import shutil
import subprocess

from tests import TOP, installed
from tests.case import Case, needs
from tests.common import setting
from tests.repository import WRITING

PAGE = TOP / "docs" / "HOWTO.md"
# Programs that a recipe may call and a machine lack.
CALLED = ("git", "jq", "python3", "cc", "cargo", "pkg-config")


def recipes(text):
    """The sections with commands by their titles, each as its commands with the lines that stand behind them."""
    for section in re.split(r"^## ", text, flags=re.MULTILINE)[1:]:
        commands = []
        for block in re.findall(r"(?:^ {4}.*\n|^\n)+", section, re.MULTILINE):
            for shown in re.split(r"^ {4}\$ ", block, flags=re.MULTILINE)[1:]:
                command, *lines = [line[4:] for line in f"    {shown}".rstrip("\n").split("\n")]
                more = [line[2:] for line in itertools.takewhile(lambda line: line.startswith("> "), lines)]
                commands.append(("\n".join([command, *more]), lines[len(more) :]))
        if commands:
            yield section.partition("\n")[0], commands


def is_printed(lines, printed):
    """Whether what a command printed is what stands on the page."""
    patterns = (".*".join(map(re.escape, line.split("..."))) + r"\n" for line in lines)
    wanted = "".join(r"(?:.*\n)*" if line == "..." else pattern for line, pattern in zip(lines, patterns))
    return re.fullmatch(wanted, printed) is not None


def printed_by(commands, folder, settings):
    """What each of the commands prints in a shell of their own. Nothing is said of those behind one that ends it."""
    script = folder.with_suffix(".sh")
    # (a NUL stands behind what a command prints)
    script.write_text("".join(f"{command}\nprintf '\\0'\n" for command in commands))
    words = {"stdin": subprocess.DEVNULL, "stdout": subprocess.PIPE, "stderr": subprocess.STDOUT}
    done = subprocess.run(("bash", script), cwd=folder, env=settings, check=False, **words)
    return done.stdout.decode(errors="replace").split("\0")[:-1]


def lacking(commands):
    """The programs that the commands call and that aren't there."""
    return [name for name in called(commands) if not shutil.which(name)]


def called(commands):
    """The programs that the commands call; where they take the library, the compiler that makes it is one."""
    names = [name for name in CALLED if any(re.search(rf"(?<![\w/.-]){name} ", command) for command, _ in commands)]
    return names + (["cc"] if is_linking(commands) and "cc" not in names else [])


def is_linking(commands):
    return any("$PREFIX" in command for command, _ in commands)


@needs("git", "bash")
class Howto(Case):
    def setUp(self):
        self.place = self.room()
        (self.place / "bin").mkdir()
        (self.place / "bin" / "index-tool").symlink_to(self.tool)
        self.settings = WRITING | {"GIT_DEFAULT_HASH": "sha1", "SOURCES": str(TOP)}
        self.settings |= {"PATH": f"{self.place / 'bin'}:{os.environ['PATH']}"}
        self.settings |= {"CARGO_TARGET_DIR": str(self.place / "target")}
        (_, self.first), *self.others = recipes(PAGE.read_text(encoding="utf-8"))

    def look(self, title, before, commands):
        """At the commands of a recipe, after others."""
        every, folder = [*before, *commands], self.place / f"recipe-{len([*self.place.iterdir()])}"
        missing = lacking(every)
        if missing:
            print(f"howto: there is no {', '.join(missing)}: \"{title}\" is left out")
            return
        if is_linking(commands):
            self.settings |= {"PREFIX": str(installed.prefix())}
        folder.mkdir()
        printed = printed_by([command for command, _ in every], folder, self.settings)
        printed += [""] * (len(every) - len(printed))
        for (command, lines), text in [*zip(every, printed)][len(before) :]:
            if setting("print", ""):
                print(f"{title}: {command}\n{text}", end="", flush=True)
            self.hold(f"{title}: {command}\n{text}", is_printed(lines, text))

    def test_first_section(self):
        self.look("The first section", [], self.first)

    def test_each_other_recipe(self):
        for title, commands in self.others:
            if setting("title", "") in title:
                self.look(title, self.first, commands)
