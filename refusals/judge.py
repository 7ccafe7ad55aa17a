"""Edits, the functions that they change, and what a check says of those."""

import collections
import glob
import os
import re

HEAD = re.compile(r'(\s*)(?:pub(?:\([\w:]+\))? )?(?:const |unsafe |final |extern "C" )*fn (\w+)')
BLOCK = re.compile(r"(\s*)(?:pub(?:\([\w:]+\))? )?(?:unsafe )?(?:impl|trait)\b")
CONSTANT = re.compile(r"\bconst (\w+)\b")

# What a check prints: an open goal, a fault of a proof file, a function's verdict, and a fault of the text itself.
GOAL = re.compile(r"note: (src/\S+?):(\d+):\d+: .*?\(`([^`]+)`\)(.*)")
PROOF_FAULT = re.compile(r"(?:\./)?(proofs/\S+/\w+\.antt):(\d+):\d+: error: (?:`([^`]*)`: )?(.*)")
VERDICT = re.compile(r"fn (\S+): (.*)")
TEXT_FAULT = re.compile(r"(src/\S+?):(\d+):\d+: error\S*: (.*)")
MISSING_NAME = re.compile(r"can be named from here|is not in scope|has no field|has no `|is no name|was not admitted")
NOT_CHECKED = re.compile(r"declarations? that depends? on .* not checked")

# Where in a function a goal stands, as its name says it: behind a call, a case or a condition.
PLACE_OF_GOAL = re.compile(r"-(?:in|in_err|in_ok|in_default|then|else)(?:-.*?)??(?=-clause-|\Z)")

# What the lines of a proof file begin with: an item of some name, one that goes on, and what is no item.
ITEM = re.compile(r"(?:(?:pub|abbrev|unfoldable|private|module) )*([^\s:]+)")
GOES_ON = re.compile(r"\s|[)}\]]|unfolding ")
NO_ITEM = re.compile(r"use |--|\Z")

Function = collections.namedtuple("Function", "file first last name block")
Edit = collections.namedtuple("Edit", "label crate is_right at pairs")
Item = collections.namedtuple("Item", "name first last")
Goal = collections.namedtuple("Goal", "file line name why")
Fault = collections.namedtuple("Fault", "path item name why")
# Whether an edit is refused (or proved, where it is right), what to say, and the faults of answers that may be taken
# out for another look.
Answer = collections.namedtuple("Answer", "well why stale")


class Unusable(Exception):
    """An edit that can't be tried, and why."""


def read_edit(path, crate, is_right):
    file, old, at, pairs = None, None, None, []
    with open(path, encoding="utf-8") as text:
        for line in text.read().splitlines():
            if line.startswith("file: "):
                file = line[len("file: ") :].strip()
            elif line.startswith("at: "):
                at = line[len("at: ") :].strip()
            elif line.startswith("old: "):
                old = line[len("old: ") :]
            elif line.startswith("new:") and file and old:
                pairs.append((file, old, re.sub(r"\A ", "", line[len("new:") :])))
                old = None
            elif line.strip():
                raise Unusable(f"the line '{line}' is none of file:, at:, old: and new:, or stands too early")
    if not pairs:
        raise Unusable("it has no lines 'old:' and 'new:'")
    if any(not file.startswith("src/") or os.path.normpath(file) != file for file, _, _ in pairs):
        raise Unusable("it names a file outside of src/")
    return Edit(os.path.relpath(path), crate, is_right, at, tuple(pairs))


def functions_in(file, text):
    """The functions of a formatted file, by their first and last lines, and the head of what is around each."""
    lines, found, block = text.split("\n"), [], ("", "")
    for number, line in enumerate(lines, 1):
        if BLOCK.match(line):
            whole = " ".join(it.strip() for it in lines[number - 1 : number + 4])
            block = (BLOCK.match(line)[1], whole.partition("{")[0])
        head = HEAD.match(line)
        if head:
            indent = head[1]
            ends = (at for at in range(number, len(lines)) if lines[at] == f"{indent}}}" or HEAD.match(lines[at]))
            end = next(ends, len(lines) - 1)
            last = end + 1 if lines[end] == f"{indent}}}" else end
            # (a goal may stand at an attribute of the function)
            above = (
                at
                for at in range(number - 1, 0, -1)
                if not lines[at - 1].strip()
                or lines[at - 1].endswith(("{", "}", ";"))
            )
            is_inside = len(indent) > len(block[0]) and block[1]
            found.append(Function(file, next(above, 0) + 1, last, head[2], block[1] if is_inside else ""))
    return found


def texts_of(folder, pattern):
    """The texts of the files in a folder, by their paths there."""
    found = {}
    for path in glob.glob(f"{folder}/{pattern}", recursive=True):
        with open(path, encoding="utf-8") as text:
            found[os.path.relpath(path, folder)] = text.read()
    return found


class Sources:
    """The files of a crate below src/, and where its functions stand."""

    def __init__(self, folder):
        self.texts = texts_of(folder, "src/**/*.rt")
        self.functions = [it for file, text in sorted(self.texts.items()) for it in functions_in(file, text)]

    def applied(self, edit, texts):
        """The texts with the edit in them. No edit changes a file's number of lines."""
        texts = dict(texts)
        for file, old, new in edit.pairs:
            if file not in self.texts:
                raise Unusable(f"there is no file {file}")
            text = texts.get(file, self.texts[file])
            if text.count(old) != 1:
                raise Unusable(f"its text '{old.strip()}' stands {text.count(old)} times in {file}, and not once")
            texts[file] = text.replace(old, new)
        return texts

    def changed(self, edit):
        """The functions that the edit changes: those around its texts, and those that name a changed constant."""
        found, texts = set(), {}
        for file, old, new in edit.pairs:
            before = texts.get(file, self.texts[file])
            line = before.count("\n", 0, before.index(old)) + 1
            around = [it for it in self.functions if it.file == file and it.first <= line <= it.last]
            constant = CONSTANT.search(old)
            if not around and constant:
                users = [it for it in self.functions if re.search(rf"\b{constant[1]}\b", self.body(it))]
                around = [it for it in users if it.file == file] or users
            found.update(around)
            texts[file] = before.replace(old, new)
        return found

    def tried_by(self, edit):
        """The functions that the edit changes, and those that have to refuse it: no check tries two edits of one."""
        last = edit.at and edit.at.split("::")[-1]
        return self.changed(edit) | {it for it in self.functions if it.name == last}

    def body(self, function):
        return "\n".join(self.texts[function.file].split("\n")[function.first - 1 : function.last])


def block_name(head):
    """What a check calls the functions' impl or trait: the type's name, and behind it the trait's with its types."""
    text = re.sub(r".*?\b(?:impl|trait)\b\s*", "", head, count=1)
    while re.search(r"<[^<>]*>", text) and text.startswith("<"):
        text = re.sub(r"^<((?:[^<>]|<[^<>]*>)*)>\s*", "", text)
    first, is_impl, second = text.partition(" for ")
    kind, trait = (second, first) if is_impl else (text, "")
    reference = re.match(r"&(?:'\w+ )?(mut )?", kind)
    name = f"Ref{'Mut' if reference[1] else ''}" if reference else re.sub(r"[^\w:].*", "", kind.strip()).split("::")[-1]
    trait, _, given = trait.partition("<")
    # (`From<header::Error>` is FromHeaderError, and a type parameter is left out)
    words = [it for it in re.findall(r"\w+", given) if len(it) > 1]
    return name + trait.strip().split("::")[-1] + "".join(it[:1].upper() + it[1:] for it in words)


def items_in(text):
    """The items of a proof file, each from its first line to its last."""
    found, is_within = [], False
    for number, line in enumerate(text.split("\n"), 1):
        if NO_ITEM.match(line):
            is_within = is_within and not line
        elif not GOES_ON.match(line):
            name, is_within = ITEM.match(line)[1], True
            if not found or found[-1].name != name:
                found.append(Item(name, number, number))
        if line and is_within:
            found[-1] = found[-1]._replace(last=number)
    return found


def kind_of(goal):
    """The clause or loop that a goal is of, wherever it stands in its function."""
    return PLACE_OF_GOAL.sub("", goal)


def goals_in(text):
    """The goals that a proof file answers."""
    return set(re.findall(r"^pub (\S+)\s+: goal\.", text, re.M))


def uses_in(text):
    """The names that each item of a proof file uses."""
    lines, found = text.split("\n"), {}
    for it in items_in(text):
        words = re.findall(r"[^\s(){}\[\],;]+", " ".join(lines[it.first - 1 : it.last]))
        found[it.name] = {word.partition(".")[0] for word in words} - {it.name}
    return found


def with_users(text, names):
    """The names, and those of the items that use them."""
    found, uses = set(names), uses_in(text)
    while any(used & found and name not in found for name, used in uses.items()):
        found |= {name for name, used in uses.items() if used & found}
    return found


def without(text, names):
    """A proof file's text with the items of these names taken out, and what its other goals don't use."""
    uses, left, used = uses_in(text), set(), set()
    more = goals_in(text) - names
    while more:
        left |= more
        used = set().union(*(uses[it] for it in left))
        more = (used & uses.keys()) - left - names
    lines = text.split("\n")
    for it in reversed(items_in(text)):
        if it.name not in left:
            del lines[it.first - 1 : it.last]

    def places(line):
        found = [it for it in re.split(r",\s*", line[2]) if it in used]
        return f"{line[1]}.{{{', '.join(found)}}}\n" if found else ""

    # (a place that no answer uses may have no name)
    return re.sub(r"^(use \S+\.Goals)\.\{(.*)\}\n", places, "\n".join(lines), flags=re.M)


class Try:
    """An edit, and what is taken out of proof files for it: answers that didn't fit any more."""

    def __init__(self, edit):
        self.edit, self.rounds = edit, 0
        # by file: the items, and those of them that name what is gone with the edit, or with another answer
        self.gone, self.lost = collections.defaultdict(set), collections.defaultdict(set)

    def take_out(self, faults, proofs):
        self.rounds += 1
        for path in {it.path for it in faults}:
            here, text = [it for it in faults if it.path == path], proofs[path]
            misfits = {it.item for it in here if not MISSING_NAME.search(it.why) and not NOT_CHECKED.search(it.why)}
            misfits |= with_users(text, misfits - goals_in(text))
            gone = with_users(text, {it.item for it in here})
            self.gone[path] |= gone
            self.lost[path] |= gone - misfits


class Said:
    """What a check printed, read: the verdict of each function, its open goals, and the faults of its proof files."""

    def __init__(self, crate, status, text, proofs):
        """The proofs are the texts of proof files, as the check read them."""
        self.crate, self.status, self.text, self.proofs = crate, status, text, proofs
        self.verdicts, self.goals, self.faults, open_goals = {}, {}, [], []
        for line in text.split("\n"):
            goal, fault, verdict = GOAL.match(line), PROOF_FAULT.match(line), VERDICT.match(line)
            if goal:
                open_goals.append(Goal(goal[1], int(goal[2]), goal[3], goal[4]))
            elif fault:
                for item in self.items_at(fault[1], int(fault[2]), fault[4]):
                    self.faults.append(Fault(fault[1], item, fault[3] or item or "", fault[4]))
            elif verdict:
                self.verdicts[verdict[1]] = verdict[2]
                self.goals[verdict[1]] = open_goals
                open_goals = []

    def items_at(self, path, line, why):
        """The items at a fault that may be taken out of a proof file: one, or those that use a name that is gone."""
        if not path.endswith("/Answers.antt"):
            return [None]
        text = self.proofs.get(path, "")
        gone = set(re.findall(r"has no `(.*?)`", why))
        users = [name for name, used in uses_in(text).items() if used & gone]
        return [it.name for it in items_in(text) if it.first <= line <= it.last] or users or [None]

    def is_judged(self):
        return self.status == 0 or self.status == 1 and re.search(r"^logic=not-proved", self.text, re.M)

    def text_faults(self):
        return [(it[1], int(it[2]), it[3]) for it in map(TEXT_FAULT.match, self.text.split("\n")) if it]

    def names_of(self, function):
        """How the check calls the function of a file: mostly one name, and none where it lists no such function."""
        module = re.sub(r"\Asrc/|(?:/mod)?\.rt\Z", "", function.file).replace("/", "::")
        above = self.crate + ("" if module in ("lib", "main") else f"::{module}")
        block = block_name(function.block)
        exact = "::".join(filter(None, [above, block, function.name]))
        if exact in self.verdicts:
            return [exact]
        # (a type's own functions are listed where the type stands)
        own = [it for it in self.verdicts if block and it.endswith(f"::{block}::{function.name}")]
        beside = [it for it in self.verdicts if re.fullmatch(rf"{re.escape(above)}::(?:[^:]+::)?{function.name}", it)]
        return own if len(own) == 1 else beside

    def names_at(self, path):
        return [it for it in self.verdicts if it == f"{self.crate}::{path}"]

    def is_proof_of(self, path, item, name):
        """Whether an item of a proof file is of the function's proof.

        The proof of a function that calls itself lies in a folder +NAME, and that of functions that call each other in
        one with another name, where each name of a goal begins with that of its function.
        """
        words = path.split("/")[1:-1]
        own = "::".join([self.crate, *words[:-1], words[-1].removeprefix("+")])
        above, _, last = name.rpartition("::")
        is_cycle = words[-1].startswith("+") and own not in self.verdicts and above == own.rpartition("::")[0]
        return own == name or is_cycle and re.match(rf"(?:invariant-|decreases-)?{last}-", item)

    def evidence(self, name, place, tried):
        """Whether a function is refused at a goal of its own.

        It has to be unproved, and a goal has to be open for its value. What is open for its proof file alone doesn't
        count: where an invariant doesn't fit, or answers name what is gone, a right change of the same shape would
        leave the same clauses open, maybe at other places. Answers that don't fit are given back, to be taken out.
        """
        verdict = self.verdicts.get(name, "")
        if not re.match(r"not proved|no proof", verdict):
            return Answer(False, verdict, [])
        goals = [it for its in self.goals.values() for it in its] if place else self.goals[name]
        goals = [it for it in goals if not place or it.file == place.file and place.first <= it.line <= place.last]
        false = [it for it in goals if "this goal is false" in it.why]
        if false:
            return Answer(True, f"`{false[0].name}` is false for some values", [])
        faults = [it for it in self.faults if self.is_proof_of(it.path, it.name, name)]
        held = [it for it in faults if not it.path.endswith("/Answers.antt")]
        gone, lost = (
            {item for path, items in found.items() for item in items if self.is_proof_of(path, item, name)}
            for found in (tried.gone, tried.lost)
        )
        lost |= {it.item for it in faults if it.item and MISSING_NAME.search(it.why)}
        lost_kinds = {kind_of(it) for it in lost}
        counted = [it for it in goals if kind_of(it.name) not in lost_kinds and not held]
        if counted:
            best = next((it for it in counted if it.name not in gone), counted[0])
            suffix = ", as its answer doesn't fit" if best.name in gone else ""
            return Answer(True, f"`{best.name}` has no proof{suffix}", [])
        if held and not any(MISSING_NAME.search(it.why) for it in held):
            said = f"`{held[0].name}` in {os.path.basename(held[0].path)} doesn't fit"
            return Answer(False, f"{said}, and nothing is tried without it: keep the shape", [])
        if lost or any(MISSING_NAME.search(it.why) for it in faults):
            verdict = "its proof names what the edit took away, which says little: change a value and keep the shape"
        return Answer(False, verdict, [it for it in faults if it.item and not held])


def judged(said, tried, places, is_alone):
    """Whether the edit counts as refused, or a right edit as proved."""
    edit, names = tried.edit, {place: said.names_of(place) for place in places}
    if edit.at:
        names = {None: said.names_at(edit.at)}
    for place, found in names.items():
        if not found:
            what = f"no function {edit.at}"
            if place is not None:
                what = f"no function {place.name} at {place.file}:{place.first}"
            return Answer(False, f"the check lists {what}", [])
    listed = [(name, place) for place, found in names.items() for name in found]
    if edit.is_right:
        unproved = [f"{name}: {said.verdicts[name]}" for name, _ in listed if said.verdicts[name] != "proved"]
        return Answer(not unproved, unproved[0] if unproved else "as it is right", [])
    if is_alone:
        # (a caller that relies on what the edit changed)
        listed += [(name, None) for name in said.verdicts if said.verdicts[name] != "proved"]
    answers = [(name.partition("::")[2], said.evidence(name, place, tried)) for name, place in listed]
    for name, answer in answers:
        if answer.well:
            return answer._replace(why=f"{name}: {answer.why}")
    name, answer = answers[0]
    why = f"{name}: {answer.why}" if said.status else "the crate is still proved"
    gone = sorted({item for items in tried.gone.values() for item in items})
    if gone and (answer.why == "proved" or not said.status):
        why += f" without {', '.join(f'`{it}`' for it in gone)} of its proof"
    return Answer(False, why, [it for _, answer in answers for it in answer.stale])
