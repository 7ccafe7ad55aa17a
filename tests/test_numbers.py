"""The numbers that callers see are those of the proved crates: in the headers of c/ and in rust/src.

`index_c` has statuses, faults and what becomes of a cached tree, `capi_table` the kinds of a row and the row
itself, `capi_table` a tree, and `entry_fields` stages, modes and flags. A header names each, except those in
OWN. Other names of the headers are of calls that the library hasn't, as of files, which no proved call opens: these
are other statuses, and the same limits as in rust/src. The fields of each struct are the same, in the same order.
"""
import re

from tests import TOP
from tests.case import Case

# what no header names: a fault of files, and what a field has that the header tells as 0 or 1
OWN = {"FAULT_DISK", "OWN", "OF_SHARED", "LINKED", "UNLINKED"}
# what the header calls otherwise than the crate, or the crate of cargo than the header
IN_C = {"DIR": "DIRECTORY", "FILE_EXECUTABLE": "EXECUTABLE", "SYMLINK": "LINK"}
STRUCTS = {
    "Row": "row", "Summary": "summary", "Places": "places", "Form": "form", "Written": "written", "Tree": "tree",
    "Given": "given", "Comparison": "comparison", "Seen": "seen",
}
TYPES = {"uint32_t": "u32", "size_t": "usize", "uint8_t": "u8", "bool": "bool"}
OF_FILES = {"MOST_LINKS": "lock.rs", "MOST_BYTES": "read.rs"}


def value_of(text):
    """The number that a text of C, Rust or Rattle spells; a sum or a shift is spelled alike in all."""
    text = re.sub(r"\(?uint64_t\)?", "", text).replace("()", "").replace("_", "")
    text = re.sub(r"\b(0[xX][0-9a-fA-F]+|\d+)[uU]\b", r"\1", text)
    return eval(re.sub(r"\b0([0-7]+)\b", r"0o\1", text), {"__builtins__": {}})


def constants(pattern, file, front=""):
    """Names and values of the constants that a file has in this form, each name with something in front."""
    found = re.findall(pattern, (TOP / file).read_text(), re.MULTILINE)
    return {front + name: value_of(value) for name, value in found}


def proved():
    """What the proved crates have, by the names of the header."""
    const, bits = r"^pub const (\w+): u32 = ([^;]+);", r"^ +const (\w+) = (0[xo]\w+);"
    table = {}
    for crate, file, front in (
        ("index_c", "status", ""),
        ("index_c", "number", ""),
        ("index_c", "summary", ""),
        ("index_c", "fault", "FAULT_"),
        ("capi_table", "row", ""),
    ):
        table |= constants(const, f"crates/{crate}/src/{file}.rt", front)
    metadata = "crates/entry_fields/src/entry"
    stages = constants(r"^    (Unconflicted|Base|Ours|Theirs) = (\d),", f"{metadata}/flags.rt")
    table |= {name.upper(): number for name, number in stages.items()}
    modes = constants(bits, f"{metadata}/mode.rt")
    table |= {IN_C.get(name, name): number for name, number in modes.items()}
    return table, constants(bits, f"{metadata}/flags.rt")


def in_header(file):
    """The numbers that a header names, but for the version."""
    found = constants(r"^#define GIX_INDEX_(\w+) (\(.*\)|0?[xX]?[0-9a-fA-F]+u?)(?= |$)", f"c/{file}")
    return {name: number for name, number in found.items() if not name.startswith("VERSION")}


def header_text():
    return (TOP / "c/gix_index.h").read_text()


def fields_in_c(name):
    """The fields of a struct of the header."""
    body = re.search(rf"typedef struct \{{([^}}]*)\}} gix_index_{name};", header_text())[1]
    found = re.findall(r"^ +(\w+) (\w+)(?:\[(\d+)\])?;", body, re.MULTILINE)
    return [(field, f"[{TYPES[kind]}; {count}]" if count else TYPES[kind]) for kind, field, count in found]


def fields_in(name, files):
    """The fields of a struct of Rattle or Rust, which stands in one of these files."""
    text = "".join(file.read_text() for file in files)
    body = re.search(rf"pub struct {name} \{{([^}}]*)\}}", text)[1]
    return re.findall(r"^    pub (\w+): ([^,]+),", body, re.MULTILINE)


class Numbers(Case):
    def same(self, what, first, second):
        self.hold(f"{what}: {first} and {second}", first == second)

    def test_header_has_the_numbers_of_the_crates(self):
        table, flags = proved()
        header = in_header("gix_index.h")
        for name, number in header.items():
            self.same(f"c/gix_index.h, {name}", number, table.get(name, flags.get(name)))
        self.assertEqual(table.keys() - header.keys() - OWN, set(), "c/gix_index.h lacks these")

    def test_version_is_the_same(self):
        parts = dict(re.findall(r"^#define GIX_INDEX_VERSION_(\w+) (\w+?)u?(?= |$)", header_text(), re.MULTILINE))
        version = sum(int(parts[name]) << bits for name, bits in (("MAJOR", 16), ("MINOR", 8), ("PATCH", 0)))
        told = constants(r"^pub const (\w+): u32 = ([^;]+);", "crates/index_c/src/version.rt")["VERSION"]
        self.same("c/gix_index.h, VERSION_NUMBER", int(parts["NUMBER"], 16), version)
        self.same("index_c, VERSION", told, version)

    def test_headers_of_files_have_other_statuses_and_the_limits_of_rust(self):
        statuses = {*constants(r"^pub const (\w+): u32 = (\d+);", "crates/index_c/src/status.rt").values()}
        for name, number in (in_header("gix_index_table.h") | in_header("gix_index_file.h")).items():
            if name in OF_FILES:
                rust = constants(r"^const (\w+): \w+ = ([^;]+);", f"rust/src/{OF_FILES[name]}")
                self.same(f"rust/src/{OF_FILES[name]}, {name}", rust[name], number)
            else:
                self.hold(f"c/, {name}: {number} is another status", number not in statuses)
                statuses.add(number)

    def test_rust_has_the_numbers_of_the_crates(self):
        table, flags = proved()
        for file in ("raw", "entry", "edit"):
            found = constants(r"^ *(?:pub )?const (\w+): u32 = ([^;]+);", f"rust/src/{file}.rs")
            for name, number in found.items():
                told = IN_C.get(name, name)
                self.same(f"rust/src/{file}.rs, {name}", number, table.get(told, flags.get(told)))

    def test_structs_have_the_same_fields(self):
        homes = (("index_c", "summary"), ("capi_table", "row"), ("capi_table", "trees"))
        sources = [*(TOP / "crates/index_c/src").glob("*.rt")]
        sources += [TOP / "crates" / crate / "src" / f"{file}.rt" for crate, file in homes]
        for name, of_c in STRUCTS.items():
            rattle = fields_in(name, sources)
            self.same(f"c/gix_index.h, the fields of gix_index_{of_c}", fields_in_c(of_c), rattle)
            self.same(f"rust/src/raw.rs, the fields of {name}", fields_in(name, [TOP / "rust/src/raw.rs"]), rattle)
