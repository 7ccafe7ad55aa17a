"""The pieces of a crate that count by themselves in what a verdict stands on: functions, types, definitions, lemmas.

Blank lines, comments, imports and `mod` items are of no piece.
"""

import collections
import hashlib
import itertools
import re

from judge import BLOCK, HEAD

COMMENT = re.compile(r"^[^\S\n]*(?://|--).*$", re.M)
# An import, or a `mod` item, with its attributes. (Braces stand in braces up to three deep.)
IMPORT = re.compile(
    r"^(?:[^\S\n]*#\[[^\n]*\]\n)*[^\S\n]*(?:pub(?:\([\w:]+\))? )?(?:mod \w+|(?:ghost )?use (?P<path>[\w.:*+-]+)"
    r"(?:\{(?P<names>(?:[^{}\"]|\{(?:[^{}\"]|\{[^{}\"]*\})*\})*)\}|(?: as (?P<alias>\w+))?));?[^\S\n]*$",
    re.M,
)
WORD = re.compile(r"\w+")
# (a name of a definition or a lemma has other signs too)
NAME = re.compile(r"[^\s(){}\[\],;.]+")
# A function of a type or trait is called behind a dot, or named behind its type or trait.
METHOD = re.compile(r"\.\s*(\w+)(?=\s*\(|\s*::)|::\s*(\w+)")
DECLARED = re.compile(r"\b(?:struct|enum|union|type|const|static|trait|mod|ghost|macro_rules!)\s+(\w+)")
VARIANT = re.compile(r"^\s+([A-Z]\w*)", re.M)
EVALUATED = re.compile(r"\b(?:const|static)\b|\w!")
# What goes on an item of a file of sources, and lines before which only attributes stand.
CLOSING = (" ", "}", "{", ")", "]", "where")
ATTRIBUTE = (" ", "#[", ")", "]")
# In specs and proofs: the words before a name that is declared, and what goes on a definition.
DEFINED = re.compile(r"(?:(?:pub|abbrev|unfoldable|private|module|mutual|record|data) )*([^\s:]+)")
GOES_ON = re.compile(r"[\s)}\]]|unfolding ")
# (cases and what a module holds are declared inside, and there cases once more; what has fields is reached by its name)
HOLDS = re.compile(r"^(?:\w+ )*(?:module|mutual|data)\b", re.M)
INNER = re.compile(rf"^(?:  {DEFINED.pattern}|    (?:pub )?([^\s:]+) : )", re.M)


def sum_of(*parts):
    return hashlib.sha256("\0".join(parts).encode()).hexdigest()[:16]


def counted(text):
    """The text with empty lines in the place of those that don't count."""
    return IMPORT.sub(lambda it: "\n" * it[0].count("\n"), COMMENT.sub("", text))


def joined(lines):
    return "\n".join(line for line in lines if line.strip())


def lines_of(function, lines):
    """The numbers of a function's lines in its file, and of those the numbers of its body's lines.

    A function of a trait may have no body, and ends then where the trait does, or with the next function's head.
    """
    own = lines[function.first - 1 : function.last]
    head = next(at for at, line in enumerate(own) if HEAD.match(line) and HEAD.match(line)[2] == function.name)
    indent = re.match(r"\s*", own[head])[0]
    opening, ending = len(own), len(own)
    for at, line in enumerate(own[head:], head):
        if line.strip() and not line.startswith(indent):
            ending = at
        elif line in (f"{indent}}}", f"{indent}{{}}"):
            ending = at + 1
        elif line.endswith("{") and not line.startswith(f"{indent} "):
            # (a function without clauses has its brace where its head ends)
            opening = at + (line != f"{indent}{{")
        if ending <= at + 1:
            break
    first = function.first
    return range(first, first + ending), range(first + opening, first + ending)


class Piece:
    """A text that counts as a whole, and the words in it, with a dot where one may name a function of a type or trait.

    Of the functions that it names, it leads to what states them, or to none.
    """

    def __init__(self, file, text, names_functions=False, function=None):
        self.file, self.text, self.names_functions, self.function = file, text, names_functions, function
        methods = {f".{it}" for groups in METHOD.findall(text) for it in groups if it}
        self.sum, self.words = sum_of(text), {*WORD.findall(text), *NAME.findall(text), *methods}


class Item:
    """An item at the top of a file of sources: its text, what it declares, and which types it is about.

    A trait counts whole, and of its impl what the functions state, as code calls them without their names. Of other
    items the functions count by themselves.
    """

    def __init__(self, lines, spans):
        within = {it: span for it, span in spans.items() if any(at in lines for at in span[0])}
        own = [*itertools.dropwhile(lambda it: it.startswith(ATTRIBUTE), lines.values())]
        head = " ".join(it.strip() for it in own).partition("{")[0]
        is_block = bool(own and BLOCK.match(own[0]))
        is_trait = is_block and bool(re.search(r"\btrait\b", own[0]))
        is_shared = is_trait or is_block and " for " in head
        left_out = {at for span in within.values() for at in span[is_shared] if not is_trait}
        self.text = joined(line for number, line in lines.items() if number not in left_out)
        self.declared = set(DECLARED.findall(self.text))
        if re.search(r"\benum\b", self.text):
            self.declared |= set(VARIANT.findall(self.text))
        # (what an impl declares is reached by its type)
        self.is_impl = is_block and not is_trait
        self.names = set() if self.is_impl else set(self.declared)
        self.methods = set(within) if is_block else set()
        self.names |= {f".{it.name}" for it in within} if is_shared else set()
        # (an impl belongs to the types that its head names, and what a macro writes to all that it names)
        is_macro = bool(own and re.match(r"\w+!", own[0]))
        self.about = set(WORD.findall(head if is_block else self.text if is_macro else ""))
        self.names_functions = is_trait or bool(EVALUATED.search(self.text))


def items_of(lines, spans):
    """The items at the top of a file of sources, each with the numbers of its lines."""
    found = []
    for number, line in enumerate(lines, 1):
        if not line.strip():
            continue
        is_headed = found and next(iter(found[-1].values())).startswith("#[")
        goes_on = line.startswith(CLOSING) or is_headed and all(it.startswith(ATTRIBUTE) for it in found[-1].values())
        if not found or not goes_on:
            found.append({})
        found[-1][number] = line
    return [(it.keys(), Item(it, spans)) for it in found]


class Code:
    """The functions and the other items of a crate's sources, by their names."""

    def __init__(self, sources):
        self.whole, self.spans, self.names, self.of_file, self.declared_at = {}, {}, {}, {}, {}
        self.stated, self.in_block, self.items = (collections.defaultdict(set) for _ in range(3))
        found = []
        for file, text in sources.texts.items():
            lines = counted(text).split("\n")
            spans = {it: lines_of(it, lines) for it in sources.functions if it.file == file}
            own = items_of(lines, spans)
            methods = {it for _, item in own for it in item.methods}
            for it, span in spans.items():
                self.add_function(it, span, lines, f".{it.name}" if it in methods else it.name)
            found += [(file, *it) for it in own]
        types = {name for _, _, item in found if not item.is_impl for name in item.declared}
        for file, numbers, item in found:
            names = item.names | (item.about & types or item.about)
            piece = Piece(file, item.text, item.names_functions)
            self.declared_at |= {(file, it): item.declared or names for it in numbers}
            if item.text:
                self.of_file.setdefault(file, set()).add(piece)
                for name in names or {""}:
                    self.items[name].add(piece)

    def add_function(self, it, span, lines, name):
        own, body = self.spans[it] = span
        self.names[it] = name
        self.whole[it] = Piece(it.file, joined([it.block, *(lines[at - 1] for at in own)]), True, it)
        stated = Piece(it.file, joined([it.block, *(lines[at - 1] for at in own if at not in body)]))
        self.stated[name].add(stated)
        for word in WORD.findall(it.block):
            self.in_block[word].add(stated)

    def around(self, file, line):
        """The functions around a line."""
        return {it for it, (own, _) in self.spans.items() if it.file == file and line in own}

    def users_of(self, names):
        """The functions that name one of these."""
        return {it for it, piece in self.whole.items() if not names.isdisjoint(piece.words)}

    def generated(self, names, words):
        """What a path that the check makes itself leads to, of a type or a function, for a text with these words.

        A type's functions may be named behind the name of its contracts, and stand among the words then.
        """
        found = {it for name in names for it in self.items.get(name, ())}
        if names[:1] != ("declared",):
            own = {it for name in names for it in self.in_block.get(name, ())}
            found |= {it for name in names for one in (name, f".{name}") for it in self.stated.get(one, ())}
            found |= {it for word in words for it in self.stated.get(f".{word}", ()) if it in own}
        return found or {*self.whole.values(), *(it for its in self.of_file.values() for it in its)}


class Definitions:
    """The definitions and lemmas of a crate, by their files and the names that they declare."""

    def __init__(self, texts):
        self.items = {file: collections.defaultdict(set) for file in texts}
        for file, text in texts.items():
            for name, lines in self.lines_by_name(counted(text)).items():
                piece = Piece(file, joined(lines))
                inner = INNER.findall(piece.text) if HOLDS.search(piece.text) else []
                for it in {name, *itertools.chain(*inner)}:
                    if piece.text and it:
                        self.items[file][it].add(piece)

    def lines_by_name(self, text):
        """The lines of a file's definitions, by name: the equations of one, too, begin with its name."""
        found, name, ahead = collections.defaultdict(list), "", []
        for line in text.split("\n"):
            if line.strip() and not GOES_ON.match(line):
                name = DEFINED.match(line)[1]
                found[name].extend(ahead)
            ahead = [*ahead, line] if line.startswith("unfolding ") else []
            found[name or "first"].append(line)
        # (the equations of an operator begin with something else)
        return {"all": text.split("\n")} if any("◌" in it for it in found) else found

    def all_of(self, file):
        return {it for its in self.items[file].values() for it in its}

    def file_of(self, part, names):
        """The file that names lead to, if one, and those left of them."""
        ends = ((f"{part}/{'/'.join(names[:end])}.antt", names[end:]) for end in range(len(names), 0, -1))
        return next((it for it in ends if it[0] in self.items), (None, names))
