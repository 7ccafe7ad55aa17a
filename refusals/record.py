"""What was seen refused: refusals/seen has two sums of each edit that was, over all that the verdict stands on.

The one is of the edit, whether it is right, and which function has to refuse it, and of what it stands on in its own
crate. That is the text of the functions that it changes and of those that name one of these, with their proofs; what
states the functions, types and constants that these texts and the edit name; and the definitions and lemmas that all
these cite, and these in turn. So a body counts for edits of its function and of those that it calls, and a contract for
edits of the callers too. Where an edit changes no function, all of its file that lies in none counts, and the functions
that name what is changed.
The other is of what the crates below state: their specs, and their sources without the bodies of functions and without
private ones. Blank lines, comments, imports and `mod` items count nowhere. So it isn't seen where an import brings
another item of the same name, unless both are definitions or lemmas of the edit's own crate.
"""

import collections
import os
import re
from typing import NamedTuple

from judge import Sources, Unusable, block_name, functions_in, texts_of
from pieces import COMMENT, IMPORT, Code, Definitions, Piece, counted, joined, lines_of, sum_of

FILE = "refusals/seen"
# Of the edits that needn't be judged, the share that a run judges all the same: so many as one of so many of all.
AGAIN = 20
PUBLIC = re.compile(r"\s*pub\b")
RENAMED = re.compile(r"(\w+) as (\w+)")
# A definition or a lemma by its path, and a function's proof.
PATH = re.compile(r"\b(?:crate::(?:specs|proofs)(?:::\w+)+|Rattle\.\w+\.(?:specs|proofs)(?:\.[\w-]+)+)")
PROOF = re.compile(r"proofs/(?:(.*)/)?([^/]+)/(?:Answers|Invariants|Proof)\.antt")


def sum_of_files(texts):
    return sum_of(*[it for file in sorted(texts) if texts[file] for it in (file, texts[file])])


def is_private(function, lines):
    """Whether no other crate can call the function: it is neither public nor a trait's."""
    is_public = any(PUBLIC.match(line) for line in lines if f"fn {function.name}" in line)
    return not is_public and not re.search(r"\btrait\b| for ", function.block)


def stated_in(text):
    """The text of a formatted file without private functions, and what stands in others."""
    lines, left_out = counted(text).split("\n"), set()
    for it in functions_in("", text):
        own, body = lines_of(it, lines)
        left_out.update(own if is_private(it, [lines[at - 1] for at in own]) else body)
    return joined(line for number, line in enumerate(lines, 1) if number not in left_out)


class Reach:
    """What verdicts on the edits of one crate stand on in that crate."""

    def __init__(self, folder, crate):
        self.crate, self.sources, self.next = crate, Sources(folder), {}
        texts = texts_of(folder, "specs/**/*.antt") | texts_of(folder, "proofs/**/*.antt")
        self.code, self.definitions = Code(self.sources), Definitions(texts)
        every = {**self.sources.texts, **texts}
        self.imports = {file: self.imports_of(text) for file, text in every.items()}
        self.renamed = {file: self.renamed_in(text) for file, text in self.sources.texts.items()}
        self.proofs, self.owners = collections.defaultdict(set), collections.defaultdict(set)
        self.add_proofs()

    def place(self, path):
        """The part of the crate and the names that a path leads to; nothing where it leads to another crate."""
        words = [it for it in re.split(r"\.|::", path) if it]
        own = words[1:] if words[0] == "crate" else words[2:] if words[:2] == ["Rattle", self.crate] else []
        return (own[0], tuple(own[1:])) if own and own[0] in ("specs", "proofs") else None

    def imports_of(self, text):
        """The places that a file's names of definitions, lemmas and modules lead to; one may be of code too."""
        found = collections.defaultdict(set)
        for it in IMPORT.finditer(COMMENT.sub("", text)):
            place = self.place(it["path"] or "-")
            if it["names"] is None and it["path"]:
                found[it["alias"] or re.split(r"\.|::", it["path"])[-1]].add(place)
            for name in (it["names"] or "").split(","):
                name, _, alias = name.strip().partition(" as ")
                found[alias or name].add(place and (place[0], (*place[1], name)))
        return dict(found)

    def renamed_in(self, text):
        """What a file's imports call by another name."""
        its = (RENAMED.findall(it[0]) for it in IMPORT.finditer(COMMENT.sub("", text)))
        return {alias: name for found in its for name, alias in found}

    def add_proofs(self):
        """Finds the proofs of each function, in folders of its name or its cycle's; one of no such name is of all."""
        for file in self.definitions.items:
            match = PROOF.fullmatch(file)
            if match:
                name, whole = match[2].removeprefix("+"), self.code.whole
                owners = [it for it in whole if it.name == name or f"#[cycle({name})]" in whole[it].text]
                exact = [it for it in owners if self.is_above(it, match[1] or "")]
                for it in exact or owners or whole:
                    self.proofs[it] |= self.definitions.all_of(file)
                    self.owners[file.rpartition("/")[0]].add(whole[it])

    def is_above(self, function, folder):
        """Whether the function's module and type lie in that folder, or where else the type may stand."""
        module = re.sub(r"\Asrc/|(?:/mod)?\.rt\Z", "", function.file)
        above = [] if module in ("lib", "main") else [module]
        block = block_name(function.block) if function.block else ""
        own = "/".join([*above, *([block] if block else [])])
        return folder in (own, block or own) or bool(block) and folder.endswith(f"/{block}")

    def led_to(self, place, words):
        """The definitions and lemmas at a place, for a text with these words."""
        if place is None:
            return set()
        part, names = place
        file, left = self.definitions.file_of(part, names)
        passed = self.imports.get(file or f"{part}/Lib.antt", {})
        on = {place for it in (left if file else left[:1]) for place in passed.get(it, ())}
        found = {it for place in on for it in self.led_to(place, words)}
        if file is None:
            folders = ("/".join([part, *names[:end]]) for end in range(len(names), 0, -1))
            own = next((self.owners[it] for it in folders if it in self.owners), None)
            return found if on else own or self.code.generated(names, words)
        found |= {it for name in left for it in self.definitions.items[file].get(name, ())}
        return found if found or on else self.definitions.all_of(file)

    def next_of(self, piece):
        """What a piece leads to: what its words name, and from a function its proofs."""
        words, imports = piece.words, self.imports[piece.file]
        # (an import of an operator has signs in the place of its arguments)
        operators = {it for it in imports if "◌" in it and any(sign in piece.text for sign in it.split("◌") if sign)}
        places = {place for it in words & imports.keys() | operators for place in imports[it]}
        places |= {self.place(it) for it in PATH.findall(piece.text)}
        found = {it for place in places for it in self.led_to(place, words)}
        if piece.file in self.definitions.items:
            return found | {it for word in words for it in self.definitions.items[piece.file].get(word, ())}
        words = words | {self.renamed[piece.file].get(it, it) for it in words}
        for pieces in (self.code.items, self.code.stated) if piece.names_functions else (self.code.items,):
            found |= {it for word in words for it in pieces.get(word, ())}
        return found | self.proofs.get(piece.function, set())

    def reached(self, pieces):
        """These pieces, and all that they lead to."""
        left, found = list(pieces), set()
        while left:
            piece = left.pop()
            if piece not in found:
                found.add(piece)
                if piece not in self.next:
                    self.next[piece] = self.next_of(piece)
                left.extend(self.next[piece] - found)
        return found

    def changed(self, edit):
        """The functions that an edit changes or asks, or that name what it changes else; and what it changes else."""
        functions, items, texts = self.sources.tried_by(edit), set(), {}
        for file, old, new in edit.pairs:
            text = texts.get(file, self.sources.texts[file])
            line = text.count("\n", 0, text.index(old)) + 1
            around = self.code.around(file, line)
            functions |= around
            if not around:
                items |= self.code.of_file.get(file, set())
                names = self.code.declared_at.get((file, line))
                functions |= self.code.users_of(set(names or ())) or {it for it in self.code.whole if it.file == file}
            texts[file] = text.replace(old, new)
        return functions, items

    def of(self, edit):
        """The sum of what the verdict on an edit stands on; nothing where the edit can't be tried."""
        try:
            self.sources.applied(edit, {})
        except Unusable:
            return ""
        functions, items = self.changed(edit)
        functions = functions | self.code.users_of({self.code.names[it] for it in functions})
        # (the new text may call what the old one doesn't)
        new = {Piece(file, text, True) for file, _, text in edit.pairs}
        pieces = {self.code.whole[it] for it in functions} | items | self.code.items.get("", set()) | new
        return sum_of(*sorted({it.sum for it in self.reached(pieces)}))


class Sum(NamedTuple):
    """The two sums of an edit."""

    own: str
    below: str


class Sums:
    """The sums of edits, and what they are made of, each taken once."""

    def __init__(self, root, below):
        self.root, self.below, self.own, self.stated, self.under = root, below, {}, {}, {}

    def of_own(self, edit):
        if edit.crate not in self.own:
            self.own[edit.crate] = Reach(f"{self.root}/crates/{edit.crate}", edit.crate)
        return self.own[edit.crate].of(edit)

    def of_stated(self, crate):
        if crate not in self.stated:
            folder = f"{self.root}/crates/{crate}"
            found = {file: joined(counted(it).split("\n")) for file, it in texts_of(folder, "specs/**/*.antt").items()}
            found |= {file: stated_in(text) for file, text in texts_of(folder, "src/**/*.rt").items()}
            self.stated[crate] = sum_of_files(found)
        return self.stated[crate]

    def of_below(self, crate):
        if crate not in self.under:
            stated = [it for name in sorted(self.below[crate]) for it in (name, self.of_stated(name))]
            self.under[crate] = sum_of(*stated)
        return self.under[crate]

    def of(self, edit):
        own = sum_of(str(edit.is_right), edit.at or "", repr(edit.pairs), self.of_own(edit))
        return Sum(own, self.of_below(edit.crate))


def seen(root):
    """The sums that the record has, by the labels of edits."""
    path = f"{root}/{FILE}"
    if not os.path.isfile(path):
        return {}
    with open(path, encoding="utf-8") as text:
        lines = (line.split(" ", 2) for line in text.read().splitlines())
        return {label: Sum(own, below) for own, below, label in lines}


def note(root, found):
    """Puts these sums into the record, and drops edits that are gone."""
    kept = {label: sum for label, sum in {**seen(root), **found}.items() if os.path.isfile(f"{root}/{label}")}
    with open(f"{root}/{FILE}.new", "w", encoding="utf-8") as out:
        out.writelines(f"{sum.own} {sum.below} {label}\n" for label, sum in sorted(kept.items()))
    os.replace(f"{root}/{FILE}.new", f"{root}/{FILE}")


class Due(NamedTuple):
    """Of each crate the edits that are to be judged, and how many there are of each sort."""

    edits: dict
    changed: int
    in_turn: int
    waiting: int


def in_turn(crates, turn, waiting, room):
    """The crates that have their turn, those with edits that wait before others, as many as there is room for."""
    order = sorted(crates, key=lambda it: (it not in waiting, sum_of(turn, it)))
    for place, crate in enumerate(order):
        # (the first has its turn, however many edits it has)
        if place == 0 or len(crates[crate]) <= room:
            room -= len(crates[crate])
            yield crate


def due(root, below, edits):
    """The edits that are to be judged: those that aren't as they were seen, or stand on something else; and others.

    Where crates below state something else, an edit waits for its turn. The crates whose turn it is change with each
    change of what the sums are of. None has its turn where at least as many edits have changed as would be judged in
    turn. Right edits go with the others.
    """
    sums, known, left = Sums(root, below), seen(root), {}
    of = {crate: {it: sums.of(it) for it in its} for crate, its in edits.items()}
    was = {it: known.get(it.label) for its in of.values() for it in its}
    changed = {it for its in of.values() for it, sum in its.items() if not was[it] or was[it].own != sum.own}
    waiting = {it for its in of.values() for it, sum in its.items() if it not in changed and was[it] != sum}
    for crate, its in of.items():
        if any(it in changed for it in its):
            left[crate] = [it for it in its if it in changed or it.is_right]
    turn = sum_of(*[part for crate in sorted(of) for sum in of[crate].values() for part in sum])
    same = {crate: its for crate, its in of.items() if crate not in left}
    crates = {it.crate for it in waiting}
    room = len(was) // AGAIN - len(changed)
    if room > 0:
        left |= {crate: list(of[crate]) for crate in in_turn(same, turn, crates, room)}
    tried = {it for its in left.values() for it in its}
    return Due(left, len(changed), len(tried - changed), len(waiting - tried))
