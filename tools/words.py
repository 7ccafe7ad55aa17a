# SPDX-License-Identifier: MIT OR Apache-2.0
"""The arguments of index-tool. Its help, manual page, completions and the table in docs/HOWTO.md are made from them."""
import collections

from versions import SHOWN

# (the second is what `--version` prints after the first)
PROGRAM, VERSION = "index-tool", SHOWN
ABOUT = "List, check, repair and rewrite git's index files"
STATUS = "The status is 0 where all was done, 1 at a fault of a file or of the output, and 2 at wrong words."
KINDS = ("sha1", "sha256")
# An option of a command, and what it does, for its help and for docs/HOWTO.md. `letter` is that of its
# short form, where it has one, and `name` that of its long form.
Option = collections.namedtuple("Option", "name letter help does")
NUL = Option("", "z", "End each line with a NUL byte in place of a newline", "ends each line with a NUL byte")
QUOTE = Option("quote", "", "Quote paths with unusual bytes, as git does", "quotes paths with unusual bytes, as git does")
NUL_LINES = Option(
    "", "z", "Lines of changes end with a NUL byte, and no path is quoted",
    "reads lines that end with a NUL byte, with paths that are not quoted",
)
MISSING = Option(
    "missing-ok", "", "Give each tree its id, also where no object store has it",
    "names all trees, including those that are not in the repository yet (run `git write-tree` afterwards)",
)
KEEP = Option(
    "keep", "", "Keep all extensions that fit, and version 4",
    "writes every extension of FILE that fits its entries, and keeps version 4",
)
ALL = Option(
    "all", "", "Keep also what is well formed behind the first entry at fault",
    "writes also the well-formed entries after the first invalid one",
)
KEEP4 = KEEP._replace(does="writes every extension of FILE that fits its entries")
STRICT = Option(
    "strict", "", "Check also that git takes each entry: its mode, path and id, and its place",
    "tests also the mode, path and id of each entry, and for paths inside another entry",
)
# Of each command: what lets words be left out.
AUTO_KIND = Option(
    "auto", "a", "KIND may be left out: the repository or the file's own digest tells it",
    "KIND may be omitted: it is detected from the repository or from FILE's checksum",
)
AUTO_BOTH = Option(
    "auto", "a",
    "KIND may be left out (the repository or the file's own digest tells it), and FILE (that of the work tree)",
    "KIND may be omitted, and FILE in a work tree",
)
# A command: whether it writes, what it does, its line in the help, its options, whether one that writes takes OUT, and
# what its help says below them.
Command = collections.namedtuple("Command", "name writes does about options has_out end", defaults=((), True, ""))
UNCHECKED = "Without --strict the modes, paths and ids of entries, and paths beside their directory, aren't looked at."
LINES = (NUL, QUOTE)
COMMANDS = (
    Command(
        "list", False, "prints mode, id, stage and path of each entry, as `git ls-files --stage` does, unquoted",
        "List the entries, as `git ls-files --stage` does", LINES,
    ),
    Command(
        "check", False, "prints `ok` if entries are in order, the cache tree is consistent and the checksum matches",
        "Check the order of the entries, the cached tree and the digest", (STRICT,), end=UNCHECKED,
    ),
    Command(
        "check-trees", False, "prints `ok` if, in addition, the cache tree matches the entries",
        "Check also that the cached tree fits the entries", (STRICT,), end=UNCHECKED,
    ),
    Command(
        "map", False, "prints offset, length and name of each part of FILE, up to its first error",
        "Name each part of the file, up to its first fault", LINES,
    ),
    Command("map-svg", False, "draws these parts to scale, as an SVG picture", "Draw these parts as a picture (SVG)"),
    Command("show", False, "prints all of FILE except unknown or malformed extensions", "Show all that the file holds"),
    Command("show-json", False, "prints the same as one JSON object", "Show the same as JSON"),
    Command(
        "trees", False, "prints id, entry count and path of each directory, as `git write-tree` makes them",
        "List the trees that the entries make, as `git write-tree` would", LINES,
    ),
    Command(
        "rewrite", True, "writes OUT with `TREE`, `sdir` and an end marker, in version 2, or 3 if flags need it",
        "Write the index again", (KEEP,),
    ),
    Command("rewrite4", True, "does the same in version 4", "Write the index again in version 4", (KEEP4,)),
    Command(
        "rewrite-trees", True, "writes OUT with a rebuilt cache tree that names only trees which FILE's already named",
        "Write the index with a cached tree made anew", (MISSING,),
    ),
    Command(
        "update", True, "changes FILE by the lines of standard input, as `git update-index --index-info` does",
        "Change the index, as `git update-index --index-info` does", (NUL_LINES,), False,
    ),
    Command(
        "salvage", True, "writes to OUT the entries of a damaged FILE before the first invalid one, and a report",
        "Write what can be saved of a damaged index", (ALL,),
    ),
)
READING = tuple(command.name for command in COMMANDS if not command.writes)
WRITING = tuple(command.name for command in COMMANDS if command.writes)
NAMES = {command.name: command for command in COMMANDS}
HELP = ("help", "Print this help, or that of a command")
KIND = ("<KIND>", "How ids are made: `sha1` or `sha256`")
FILE = ("<FILE>", "The index, or `-` for the standard input")
FILE_TO_WRITE = ("<FILE>", "The index that is read, or `-` for the standard input")
FILE_TO_CHANGE = ("<FILE>", "The index that is changed")
OUT = ("<OUT>", "The path that is written to")
HELP_OPTION, VERSION_OPTION = ("-h, --help", "Print help"), ("-V, --version", "Print version")


def auto(command):
    """The option that lets words of a command be left out."""
    return AUTO_KIND if command.writes else AUTO_BOTH


def spelled(option):
    """An option as it is typed."""
    return f"--{option.name}" if option.name else f"-{option.letter}"


def shown(option):
    """An option as the help shows it, where long forms stand below one another."""
    return ", ".join(filter(None, (f"-{option.letter}" if option.letter else "", f"--{option.name}" if option.name else "")))


def operands(command):
    """What stands behind a command's name and its options, with the help of each."""
    if not command.writes:
        return KIND, FILE
    return (KIND, FILE_TO_WRITE, OUT) if command.has_out else (KIND, FILE_TO_CHANGE)


# ---- The help that the program prints


def section(title, rows):
    """Rows of two columns below a title."""
    width = max(len(first) for first, _ in rows)
    return f"\n{title}:\n" + "".join(f"  {first.ljust(width)}  {second}\n" for first, second in rows)


def help_text():
    """What `index-tool --help` prints."""
    commands = [*((it.name, it.about) for it in COMMANDS), HELP]
    options = [HELP_OPTION, VERSION_OPTION]
    usage = f"{ABOUT}\n\nUsage: {PROGRAM} <COMMAND>\n"
    return f"{usage}{section('Commands', commands)}{section('Options', options)}\n{STATUS}\n"


def help_of(name):
    """What `index-tool help NAME` prints of a command."""
    if name == HELP[0]:
        usage = f"{HELP[1]}\n\nUsage: {PROGRAM} help [COMMAND]\n"
        return usage + section("Arguments", [("[COMMAND]", "The command that it is on")]) + section("Options", [HELP_OPTION])
    command = NAMES[name]
    words = ["[OPTIONS]", *(operand for operand, _ in operands(command))]
    usage = f"{command.about}\n\nUsage: {PROGRAM} {name} {' '.join(words)}\n"
    every = (auto(command), *command.options)
    options = [(shown(it) if it.letter else f"    --{it.name}", it.help) for it in every]
    # (to clap each may be left out, as `--auto` lets them)
    arguments = [(f"[{operand[1:-1]}]", does) for operand, does in operands(command)]
    end = f"\n{command.end}\n" if command.end else ""
    return usage + section("Arguments", arguments) + section("Options", [*options, HELP_OPTION]) + end
