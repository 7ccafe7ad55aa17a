"""Rows that a rule makes: all cases of a few choices, and lists at random from fixed seeds.

A line `= NAME` in a file of rows/ stands for the rows that `ROWS[NAME]` makes.
"""

from tests.model import made_trees, show
from tests.model.bitmaps import Bitmap
from tests.model.bytes import ID_LENGTH, offset_number_bytes
from tests.model.draws import Draws
from tests.model.entries import (
    DIRECTORY, EXECUTABLE, FILE, INTENT_TO_ADD, REMOVE, SUBMODULE, SYMLINK, Entry, flags_of_stage
)
from tests.model.lookups import is_ordered_by_path, is_strictly_ordered
from tests.model.trees import DEEPEST

# Names that clash in two cases, and names that stand before and behind a slash.
NAMES = "A Ab B D DIR Dir F a a-b a.b a0 ab b d dir f x".split()
FEW_NAMES = "B a a-b a/b b c".split()

LOOKUP_LISTS = {"strict": 90, "by-path": 35, "any-order": 80}
EDIT_LISTS = 60
MERGED_LISTS = 70
TREE_LISTS = 25


def id_of(draws):
    """An id of SHA-1 whose bytes are all equal, and not those that rows leave out."""
    return bytes([draws.below(199) + 1]) * ID_LENGTH["sha1"]


def entry_word(entry):
    """An entry as a row spells it, without what it can leave out at its end."""
    fields = show.entry(entry).split(":")
    absent = ["", "0", "100644", "0", "11"]
    fields = [field if place == 0 or field != absent[place] else "" for place, field in enumerate(fields)]
    return ":".join(fields).rstrip(":")


def list_word(entries):
    return show.listed(entry_word(entry) for entry in entries)


# Lookups.


def path_at_random(draws):
    """One to four names."""
    length = 1 + min(draws.below(3), draws.below(4))
    return "/".join(draws.one_of(NAMES) for _ in range(length))


def entries_of_path(draws, path):
    """The entries that a merge leaves of one path: merged, some of three stages, or both."""
    stages = [0] if draws.once_in(2) else draws.some_of([0, 1, 2, 3]) or [2]
    mode = FILE
    if draws.once_in(5):
        mode = draws.one_of([EXECUTABLE, SYMLINK, SUBMODULE, SUBMODULE])
    elif draws.once_in(8):
        path, mode = path + "/" * draws.below(2), DIRECTORY
    object_id = b"\x11" * ID_LENGTH["sha1"]
    return [Entry(path.encode(), object_id, mode, flags_of_stage(stage)) for stage in stages]


def list_at_random(draws, order):
    """Up to some twenty entries, in the order that is asked for."""
    found = {}
    for _ in range(1 + draws.below(14)):
        for entry in entries_of_path(draws, path_at_random(draws)):
            found[entry.key] = entry
    strict = [found[key] for key in sorted(found)]
    if order == "strict":
        return strict
    entries = draws.shuffled(strict + draws.some_of(strict))
    return sorted(entries, key=lambda entry: entry.path) if order == "by-path" else entries


def asked_path(draws, entries):
    """A path, a directory above it, either in the other case, or one that may not be there."""
    if draws.once_in(4):
        return path_at_random(draws)
    path = draws.one_of(entries).path.decode()
    if draws.once_in(2) and "/" in path:
        path = path.rpartition("/")[0]
    return draws.one_of([path, path, path.swapcase(), path.upper()])


def lookups(order):
    """Rows with lists of this order and of no stricter one."""
    draws, rows = Draws(f"lookups {order}"), []
    while len(rows) < LOOKUP_LISTS[order]:
        entries = list_at_random(draws, order)
        if order_of(entries) == order:
            paths = [asked_path(draws, entries).encode() for _ in range(1 + draws.below(4))]
            asked = " ".join(show.text(path) for path in paths)
            rows.append(f"lookup sha1 {list_word(entries)} {asked}")
    return rows


def order_of(entries):
    if is_strictly_ordered(entries):
        return "strict"
    return "by-path" if is_ordered_by_path(entries) else "any-order"


# Edits and merges.


def few_entries(draws, count, flags=()):
    """So many entries of a few paths and stages; once in five with some of the flags."""
    entries = []
    for _ in range(count):
        stage = draws.one_of([0, 0, 0, 1, 2, 3])
        marks = draws.one_of(flags) if flags and draws.once_in(5) else 0
        path = draws.one_of(FEW_NAMES).encode()
        entries.append(Entry(path, id_of(draws), FILE, flags_of_stage(stage) | marks))
    return entries


def edits():
    """Each list verified, sorted in one of two ways, and taken out of."""
    draws, rows = Draws("edits"), []
    for _ in range(EDIT_LISTS):
        entries = few_entries(draws, draws.below(9))
        places = ",".join(str(place) for place in draws.some_of(range(len(entries))))
        sort = draws.one_of(["sort", "sort-down"])
        rows.append(f"edits sha1 {list_word(entries)} verify {sort} verify remove={places} verify")
    return rows


def bitmap_bytes(bitmap):
    """The bytes of a bitmap with one run word."""
    numbers = [bitmap.bits, len(bitmap.words)]
    pieces = [number.to_bytes(4, "big") for number in numbers]
    pieces += [word.to_bytes(8, "big") for word in bitmap.words]
    return b"".join(pieces) + bytes(4)


def bitmap_of(places):
    """A run word of no bits, and one word of literal bits."""
    return Bitmap(64, [1 << 33, sum(1 << place for place in places)])


def bitmap_at_random(draws, places):
    """A bitmap of these places. Now and then a place more, or a run word that lacks its words."""
    if draws.once_in(10):
        places = places + [draws.below(8)]
    bitmap = bitmap_of(set(places))
    if draws.once_in(12):
        bitmap.words[0] |= 1 << 34
    return bitmap


def merges():
    """Mostly merges that fit: as many entries without a path as there are places to be replaced."""
    draws, rows = Draws("merges"), []
    for _ in range(MERGED_LISTS):
        shared = few_entries(draws, draws.below(6), [REMOVE])
        free = [place for place, entry in enumerate(shared) if not entry.is_removed or draws.once_in(6)]
        replaced = draws.some_of(free)
        split = few_entries(draws, len(replaced) + draws.below(3), [REMOVE])
        for entry in split[:len(replaced)]:
            entry.path = b"" if not draws.once_in(10) else entry.path
        deleted = draws.some_of(range(len(shared) + len(split) - len(replaced)))
        link = b"\x11" * ID_LENGTH["sha1"] + b"".join(
            bitmap_bytes(bitmap_at_random(draws, places)) for places in (deleted, replaced))
        rows.append(f"merge sha1 {list_word(shared)} {list_word(split)} {show.bytes_word(link)}")
    return rows


# All cases of a few choices.


def files_to_write(kind):
    """Names and bytes of files of this kind with one entry or none, and with each extension that is written."""
    length = ID_LENGTH[kind]
    one = f"444952430000000200000001,00*24,000081a4,00*12,11*{length},00016100" + (",00*4" if kind == "sha256" else "")
    none, trailer = "444952430000000200000000", f"00*{length}"
    tree, sparse = "5452454500000006002d3120300a", "7364697200000000"
    return {
        "one entry and a cached tree": [one, tree, trailer],
        "no entry and a cached tree": [none, tree, trailer],
        "one entry and the mark of a sparse index": [one, sparse, trailer],
        "one entry and both": [one, tree, sparse, trailer],
        "no entry and the mark": [none, sparse, trailer],
        "one entry alone": [one, trailer],
    }


def images():
    """Each file with each choice of extensions, with a null trailer, and written and read twice before."""
    choices = [f"{choice} digest 0" for choice in ("all", "none", "neither", "tree", "marker", "both")]
    rows = []
    for kind in ID_LENGTH:
        for name, pieces in files_to_write(kind).items():
            rows += ["", f"# {kind}: {name}."]
            file = ",".join(pieces)
            rows += [f"image {kind} {file} {choice}" for choice in choices + ["all null 0", "all digest 2"]]
    return rows[1:]


def directory_words(below, names=(), name=""):
    """A directory of an untracked cache: how many names and directories are in it, its name, and the names."""
    numbers = offset_number_bytes(len(names)) + offset_number_bytes(below)
    return numbers.hex() + "".join(text.encode().hex() + "00" for text in (name, *names))


def bits_word(*words, bits):
    """A bitmap of so many bits, whose last run word is said to be at another place than it is."""
    return f"{bits:08x}{len(words):08x}" + "".join(f"{word:016x}" for word in words) + "000000ff"


def untracked_words(kind, directories, marks, behind, *, files=False):
    """The content of an untracked cache, with files of patterns or without, in pieces."""
    some, none = f"22*{ID_LENGTH[kind]}", f"00*{ID_LENGTH[kind]}"
    # (a stat without an id says that there is no such file, and isn't kept)
    head = ["03696400", "05*36,06*36,00000006", some, some] if files else ["00", "05*36,00*36,00000007", none, none]
    head += ["2e69676e6f726500" if files else "00", offset_number_bytes(len(directories)).hex(), *directories]
    return ",".join([*head, *marks, *behind])


def one_run(places):
    """A bitmap of places below 64, in words of which the last one, a run word of nothing, isn't needed."""
    if not places:
        return bits_word(0, 0, bits=0)
    return bits_word(1 << 33, sum(1 << place for place in places), 0, bits=places[-1] + 1)


def untracked_contents(kind):
    """Names and contents of untracked caches of each shape."""
    some, stat = f"22*{ID_LENGTH[kind]}", "07*36"
    deep = [directory_words(2, ["x", "y"]), directory_words(1, name="a"), directory_words(0, ["z"], "b"),
            directory_words(0, name="c")]
    none, zero = bits_word(0, bits=0), one_run([])
    # (so many that their number takes two bytes, and their bits are a run and a word)
    many = [directory_words(128), *[directory_words(0, name="d")] * 128]
    full = bits_word(1 | 2 * 2 | 1 << 33, 1, bits=129)
    yield "no directory", untracked_words(kind, [], [], [])
    yield "no directory, with files of patterns", untracked_words(kind, [], [], [], files=True)
    yield "one of which nothing is known", untracked_words(kind, deep[3:], [none, zero, none], ["00"])
    yield "one with all", untracked_words(kind, deep[3:], [one_run([0])] * 3, [stat, some, "00"], files=True)
    marks = [one_run([1, 3]), one_run([2]), one_run([0, 1, 2])]
    yield "four of each kind", untracked_words(kind, deep, marks, [stat, stat, some, some, some, "00"])
    yield "129 that are all valid", untracked_words(kind, many, [full, none, none], [f"07*{129 * 36}", "00"])
    yield "an empty untracked name", untracked_words(kind, [directory_words(0, ["x", ""])], [none] * 3, ["00"])


def monitor_contents():
    """Names and contents of what a monitor said, beside one entry."""

    def monitor(version, token, bitmap):
        return f"{version:08x}{token}{len(bitmap) // 2:08x}{bitmap}"

    first = bits_word(1 << 33, 1, bits=1)
    yield "version 1", monitor(1, "0102030405060708", bits_word(bits=0))
    yield "version 2", monitor(2, "746f6b656e00", first)
    yield "an empty text", monitor(2, "00", bits_word(0, bits=0))
    yield "words that could be fewer", monitor(2, "7400", bits_word(0, 1 << 33, 1, 0, bits=1))
    yield "more bits than entries", monitor(2, "7400", bits_word(1 << 33, 3, bits=2))
    yield "a bit behind those that it declares", monitor(2, "7400", bits_word(1 << 33, 3, bits=1))
    yield "a run word that lacks its words", monitor(2, "7400", bits_word(3 << 33, 1, bits=1))
    yield "an unknown version", monitor(3, "7400", first)


def resolve_undo_contents(kind):
    """Names and contents of resolve-undo."""
    one, two = (f"{byte}*{ID_LENGTH[kind]}" for byte in ("33", "44"))
    modes = ["31303036343400", "3000"]
    yield "no path", None
    yield "each stage", f"6100{modes[0] * 3},{one},{two},{one}"
    yield "one stage", f"6100{modes[1]}{modes[0]}{modes[1]},{two},6200{modes[0]}{modes[1] * 2},{one}"
    yield "no stage", f"6100{modes[1] * 3}"
    yield "a mode with zeros and a plus before it", f"00{'2b30' + modes[0]}{'30' + modes[1]}{modes[1]},{one}"
    yield "no octal digit", f"6100{'3800' * 3},{one}"


def length_of(content):
    """How many bytes pieces stand for."""
    pieces = (piece.split("*") for piece in (content or "").split(",") if piece)
    return sum(len(digits) // 2 * int((times or ["1"])[0]) for digits, *times in pieces)


def item_word(signature, content):
    """An extension in pieces."""
    head = f"{signature.encode().hex()}{length_of(content):08x}"
    return head if content is None else f"{head},{content}"


def kept_images():
    """Files with extensions of each shape, of which all that fits is kept."""
    rows = []
    for kind, length in ID_LENGTH.items():
        one, none = (files_to_write(kind)[name][0] for name in ("one entry alone", "no entry and the mark"))
        tree, trailer = "5452454500000006002d3120300a", f"00*{length}"
        marker = item_word("EOIE", f"00000000,00*{length}")

        def image(*pieces, front=one, end="kept digest 0", call="image"):
            rows.append(f"{call} {kind} {','.join([front, *pieces, trailer])} {end}")

        shapes = {
            "REUC": [*resolve_undo_contents(kind)],
            "UNTR": [*untracked_contents(kind)],
            "FSMN": [*monitor_contents()],
        }
        for signature, contents in shapes.items():
            for name, content in contents:
                rows += ["", f"# {kind}, {signature}: {name}."]
                image(item_word(signature, content))
                image(item_word(signature, content), marker, end="kept digest 1")
        first = {signature: item_word(signature, dict(contents)[name]) for (signature, contents), name in zip(
            shapes.items(), ("each stage", "four of each kind", "version 2"))}
        rows += ["", f"# {kind}: all extensions, in git's order and in another, and an end marker or none."]
        ordered = [tree, *first.values(), "7364697200000000"]
        for pieces in (ordered, [*ordered, marker], [marker, *reversed(ordered)]):
            for call in ("image", "image4"):
                image(*pieces, call=call)
            image(*pieces, end="kept null 0")
            image(*pieces, end="kept digest 2")
            image(*pieces, end="all digest 0")
        rows += ["", f"# {kind}: directories, of which git has those with shorter names first, by any options."]
        for names in ("61,6161,62", "62,6161", "61*255,61*254,62", "61*256,62*257,61*258", "61*257,62*256,63"):
            children = "".join(f",{name},002d3120300a" for name in names.split(","))
            count = len(names.split(","))
            content = f"002d3120{0x30 + count:02x}0a{children}"
            for call in ("image", "image4"):
                image(item_word("TREE", content), call=call)
            image(item_word("TREE", content), end="all digest 0")
        nested = "002d3120310a,6100,2d3120320a,626262002d3120300a,6363002d3120300a"
        image(item_word("TREE", nested))
        rows += ["", f"# {kind}: beside no entry, and where an edit left all out: what speaks of entries goes then."]
        image(*ordered, marker, front=none)
        image(marker, front=none)
        image(marker)
        image(item_word("EOIE", None))
        image(*ordered, marker, end="kept digest 0 removed")
        image(*ordered, end="kept digest 1 removed")
        rows += ["", f"# {kind}: an offset table, an extension that isn't known, and one that comes twice."]
        image(item_word("IEOT", "00000001,0000000c00000001"), tree, item_word("ABCD", "00"), marker)
        image(*first.values(), item_word("FSMN", None))
        image(item_word("REUC", "00"), *first.values())
    return rows[1:]


def changed_modes():
    """Every mode beside every kind of file, where the file system has links and bits for execution, or not."""
    rows, answers = [], ("yes", "no")
    for mode in (FILE, EXECUTABLE, SYMLINK, SUBMODULE, DIRECTORY):
        for file in ("file", "directory", "link", "other"):
            for executable in reversed(answers):
                for links in answers:
                    rows += [f"change-mode {mode:o} {file} {executable} {links} {bits}" for bits in answers]
    return rows


def stats():
    """A stat beside itself and beside those that differ in one number, with each choice of what counts."""
    one = ["20.2", "10.1", "3", "4", "5", "6", "7"]
    changes = [None, (1, "11.1"), (1, "10.2"), (0, "21.2"), (0, "20.3")]
    changes += [(place, str(place + 2)) for place in range(2, 7)]
    rows = []
    for options in ("cs", "csn", "csd", "csnd", "s", "c", "cn", "-", "n", "d"):
        for change in changes:
            other = list(one)
            if change is not None:
                other[change[0]] = change[1]
            rows.append(f"stats {options} {','.join(one)} {','.join(other)}")
    return rows


# Cached trees.


def deep_paths():
    """A path below more directories than a cached tree can have."""
    return [f"write-trees sha1 [{'a/' * (DEEPEST + 1)}b]"]


def staged_at_random(draws):
    """Entries that have a place in a tree."""
    found = {}
    for _ in range(1 + draws.below(12)):
        path = path_at_random(draws).encode()
        mode, flags = draws.one_of([FILE, EXECUTABLE, SYMLINK, SUBMODULE]), INTENT_TO_ADD if draws.once_in(12) else 0
        if draws.once_in(9):
            path, mode = path + b"/", DIRECTORY
        found[path] = Entry(path, id_of(draws), mode, flags)
    listed = []
    for path in sorted(found):
        try:
            made_trees.made("sha1", listed + [found[path]])
        except made_trees.NoTree:
            continue
        listed.append(found[path])
    return listed


def tree_word(tree):
    return show.listed(show.node(node) for _, node in tree.preorder())


def tree_ids():
    """Trees that are written, and beside the entries the cached tree as it is, and with a change at one node."""
    draws, rows = Draws("tree ids"), []
    for _ in range(TREE_LISTS):
        entries = staged_at_random(draws)
        tree, _ = made_trees.made("sha1", entries)
        row = f"sha1 {list_word(entries)}"
        rows += [f"write-trees {row}", f"verify-tree-ids {row} tree {tree_word(tree)}"]
        node = draws.one_of([node for _, node in tree.preorder()])
        if draws.once_in(3):
            node.count = None if draws.once_in(3) else (node.count or 0) + 1
        else:
            node.id = id_of(draws)
        rows.append(f"verify-tree-ids {row} tree {tree_word(tree)}")
    return rows


ROWS = {
    "lookups strict": lambda: lookups("strict"),
    "lookups by-path": lambda: lookups("by-path"),
    "lookups any-order": lambda: lookups("any-order"),
    "edits": edits,
    "merges": merges,
    "images": images,
    "kept images": kept_images,
    "changed modes": changed_modes,
    "stats": stats,
    "deep paths": deep_paths,
    "tree ids": tree_ids,
}
