"""The pictures that `index-tool map-svg` draws show the lines of `index-tool map`.

Files of either kind of id and of each version, with few entries and with many, whole, cut and with malformed parts, are
drawn and read again as XML. The status and the line of fault are those of `map`. Of at most 64 parts each has a box of
its own, of more those of a kind side by side have one. A box is as wide as its part is long, to scale, and it has the
colour of its kind and a title; boxes are side by side and fill the bar; the legend has each colour that a box has; the
list has a row for each box; and what can't be read is red.
"""
import functools
import pathlib
import tempfile
import xml.etree.ElementTree as xml

from tests.case import Case
from tests.common import ID_LEN, KINDS, answer
from tests.each import in_processes
from tests.made import body
from tests.model import entries, writing
from tests.model.bytes import digest

SVG = "{http://www.w3.org/2000/svg}"
BAR = 8800
MOST_PARTS = 64
COLOURS = {
    "header": "#4e79a7",
    "entry": "#f1b84b",
    "padding": "#f8e7c0",
    "extension head": "#3f9b60",
    "extension content": "#a9d8b4",
    "left over": "#b07aa1",
    "trailer": "#8d99a6",
    "unread": "#d64550",
}
GROUPS = {"header": "header", "entry": "entries", "extension head": "extension", "left over": "left over",
          "trailer": "trailer", "unread": "unread"}
COUNTS = (0, 1, 3, 30, 31, 32, 61, 62, 63, 64, 1000)
ODD = (b"a<b>&amp;", b"quotes \"'", b"two  blanks", b"dir/\xc3\xa4\n\\")


def kind_of(what):
    """The kind of a part, by its words."""
    first, last = what.split(" ")[0], what.split(" ")[-1]
    return {"extension": f"extension {last}", "entry": "entry"}.get(first, what)


def parts_in(lines):
    """The lines of a map, each as offset, length and words."""
    fields = [line.split("\t") for line in lines.decode().splitlines()]
    return [(int(offset), int(length), what) for offset, length, what in fields]


def runs(parts):
    """The same with each run of a kind as one: entries with their padding, and an extension's head with its content."""
    found, kinds = [], []
    for offset, length, what in parts:
        kind = kind_of(what)
        group = {"padding": "entry", "extension content": "extension head"}.get(kind, kind)
        if found and kinds[-1] == group and (group == "entry" or kind == "extension content"):
            found[-1] = (found[-1][0], found[-1][1] + length, found[-1][2])
        else:
            found.append((offset, length, "entries" if kind == "entry" else what.removesuffix(" head")))
            kinds.append(group)
    return [(*part, kind) for part, kind in zip(found, kinds)]


def wanted(lines):
    """What is drawn, each as offset, length, words and kind; and the legend."""
    parts = parts_in(lines)
    if len(parts) <= MOST_PARTS:
        return [(*part, kind_of(part[2])) for part in parts], {name: COLOURS[name] for name in COLOURS}
    return runs(parts), {name: COLOURS[kind] for kind, name in GROUPS.items()}


def boxes_in(picture):
    """The boxes of the bar, each as where it begins, how wide it is, its colour and its title."""
    for box in picture.find(f"{SVG}g[@stroke]"):
        yield int(box.get("x")), int(box.get("width")), box.get("fill"), box.find(f"{SVG}title").text


def legend_in(picture):
    """The colours of the legend, by name."""
    marks = [group for group in picture.findall(f"{SVG}g") if group.get("stroke") is None]
    return {mark.find(f"{SVG}text").text: mark.find(f"{SVG}rect").get("fill") for mark in marks}


def rows_in(picture):
    """The rows of the list, each as colour, offset, length and words."""
    cells = list(picture.find(f"{SVG}text[@y='2480']"))[3:]
    for square, offset, length, what in zip(*(cells[place::4] for place in range(4))):
        yield square.get("fill"), int(offset.text), int(length.text), what.text


def is_drawn(tool, place, kind, data):
    """Whether the picture of a file is that of its map."""
    place.write_bytes(data)
    status, lines, fault = answer((tool, "map", kind, place))
    drawn_status, out, drawn_fault = answer((tool, "map-svg", kind, place))
    if (drawn_status, drawn_fault) != (status, fault):
        return False
    picture = xml.fromstring(out)
    parts, legend = wanted(lines)
    total = len(data)
    scaled = [(offset * BAR // max(total, 1), (offset + length) * BAR // max(total, 1)) for offset, length, *_ in parts]
    boxes = [
        (begin, stop - begin, COLOURS[kind], f"{what}: {length} bytes from {offset} on")
        for (offset, length, what, kind), (begin, stop) in zip(parts, scaled)
    ]
    rows = [(COLOURS[kind], offset, length, what) for offset, length, what, kind in parts]
    is_filled = total == 0 or [0, *(stop for _, stop in scaled)] == [*(begin for begin, _ in scaled), BAR]
    is_red = (boxes[-1][2] == COLOURS["unread"]) == (status == 1)
    is_high = int(picture.get("height")) * 10 >= 2480 + 220 * len(rows) + 40
    found = list(boxes_in(picture)), legend_in(picture), list(rows_in(picture))
    return found == (boxes, legend, rows) and is_filled and is_red and is_high


def of_entries(kind, version, count):
    """A file of so many entries without a trailer."""
    flags = entries.EXTENDED | entries.INTENT_TO_ADD if version == 3 else 0
    paths = sorted([*ODD, *(b"file %04d" % number for number in range(count))][:count])
    return body(kind, version, [entries.Entry(path, bytes([0x11]) * ID_LEN[kind], flags=flags) for path in paths])


def files(kind, version):
    """Whole files and damaged ones."""
    for count in COUNTS:
        whole = of_entries(kind, version, count)
        items = writing.item_bytes(b"zzz<", b"") + writing.item_bytes(b"ABCD", bytes(100)) * 2
        for data in (whole, whole + writing.item_bytes(b"ABCD", b"x"), whole + items, whole + items + b"\0\0\xff\xff",
                     whole + b"ABCD\0\0\xff\xff", whole + writing.item_bytes(b"TREE", b"malformed")):
            yield data + digest(kind, data)
            yield data + bytes(ID_LEN[kind] - 1) + b"\x01"
        sealed = whole + digest(kind, whole)
        for length in sorted({0, 1, 11, 12, 40, len(whole), *(len(sealed) * part // 7 for part in range(7))}):
            yield sealed[:length]


def looked_at(tool, kind, version):
    """How many files of a version there were, and those whose pictures aren't those of their maps."""
    with tempfile.TemporaryDirectory(prefix="pictures-") as folder:
        place, every = pathlib.Path(folder) / "index", [*dict.fromkeys(files(kind, version))]
        return len(every), [data for data in every if not is_drawn(tool, place, kind, data)]


class Pictures(Case):
    def look(self, version):
        found = in_processes(functools.partial(looked_at, self.tool, version=version), KINDS)
        for kind, (count, wrong) in zip(KINDS, found):
            self.hold_all(("", True) for _ in range(count - len(wrong)))
            self.hold_all((f"{kind}: {data[:300].hex()}, {len(data)} bytes", False) for data in wrong)

    def test_version_2(self):
        self.look(2)

    def test_version_3(self):
        self.look(3)

    def test_version_4(self):
        self.look(4)
