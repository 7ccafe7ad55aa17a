# SPDX-License-Identifier: MIT OR Apache-2.0
"""Rewrites texts by the renames: sources, definitions and proofs, edits, and prose."""
import collections
import re

from imports import ITEMS
from scopes import FUNCTION, GENERATED, HIDDEN, SPACE, hidden

TOKEN = re.compile(r"[^\s(){}\[\],;]+")
TREE = {
    True: re.compile(r"\bas\s+[^\s{},;]+|[{},]|[^\s{},.;]+"),
    False: re.compile(r"\bas\s+\w+|[{},]|\w+|\*"),
}
PATH = re.compile(r"(?<!\w)(?<!::)(?:(?<!\.)|(?<=\.\.))[A-Za-z_]\w*(?:\s*::\s*[A-Za-z_]\w*)*")
METHOD_CALL = re.compile(r"(?<=(?<!\.)\.)([a-z_]\w*)(?=\s*(?:\(|::<))")
CLAUSE = re.compile(r"\b(?:requires|ensures|invariant|decreases|ghost(?! use))\b[^{};]*\{|#!?\[tactic\(")
QUOTED = re.compile(r"`([^`\n]+)`")
WORDS = re.compile(r"\w+")
WORD = re.compile(r"[A-Za-z_◌][\w'◌-]*")
FILE_PATH = re.compile(r"[\w.*+<>-]+(?:/[\w.*+<>-]+)+")
NAMED = re.compile(r"[\w:]+(?:\(\))?")
GIVEN = re.compile(r"\b\w+::(?:specs|proofs)(?:::[\w'-]+)+")
START = re.compile(r"^(?=\S)|^(?=  (?:pub |abbrev )*[^\s:(){}]+ : )", re.M)
BRACKET = re.compile(r"[{}()\[\]]")


def applied(text, changes):
    """The text with each change (start, end, new) made."""
    found, at = [], 0
    for start, end, new in sorted(set(changes)):
        if start >= at:
            found += [text[at:start], new]
            at = end
    return "".join(found) + text[at:]


def closing(text, opening):
    """Where the bracket that opens at a place is closed."""
    depth = 0
    for found in BRACKET.finditer(text, opening):
        depth += 1 if found[0] in "{([" else -1
        if depth == 0:
            return found.start()
    return len(text)


def binds(text, name):
    """Whether a definition's text binds the name itself, so that it isn't the item of that name there."""
    word = rf"(?<![\w'-]){re.escape(name)}(?![\w'-])"
    group = rf"[({{][^(){{}}:,]*{word}[^(){{}}:,]*\s:\s"
    return re.search(rf"λ[^.()]*{word}[^.()]*\.|{group}|\blet {word}|{word} ↦", text)


class Rewriter:
    """Rewrites the files of a workspace."""

    def __init__(self, renames):
        self.renames, self.workspace = renames, renames.workspace
        self.called = collections.defaultdict(dict)
        self.notes, self.document, self.done, self.spans = [], "", {}, {}
        # (any word of a name that changes, those of parameters and modules too)
        self.definitional = {item[-1] for item in renames.new if item[0] == "def"}
        self.words = {word for name in renames.names for word in WORDS.findall(name)}
        fronts = sorted({name.partition("_")[0] for name in renames.crates})
        self.crate = re.compile(rf"\b(?:{'|'.join(fronts)})_\w+") if fronts else None
        self.methods = {item[-1]: new for item, new in renames.new.items() if item[0] == "method"}

    def with_crates(self, text):
        """The text with the new names of crates, which are names of nothing else but of a script's functions."""

        def new_name(found):
            is_called = text[found.end() : found.end() + 1] == "("
            return found[0] if is_called else self.renames.crates.get(found[0], found[0])

        return self.crate.sub(new_name, text) if self.crate else text

    def note(self, file, text):
        """Notes what a person is to look at."""
        self.notes.append(f"{file.path.relative_to(self.workspace.top) if file else self.document}: {text}")

    # ---- imports

    def in_tree(self, text, offset, start, step, is_ghost):
        """The changes in what an import names."""
        node, around, is_first = None, [], True
        for found in TREE[is_ghost].finditer(text):
            sign = found[0]
            if sign == "{":
                around.append(node)
            elif sign == ",":
                node = around[-1] if around else None
            elif sign == "}":
                around.pop()
            elif not re.match(r"as\s", sign):
                node, item = start(sign) if is_first else step(node, sign)
                is_first = False
                if item in self.renames.new:
                    yield offset + found.start(), offset + found.end(), self.renames.new[item]

    def in_definitions(self, text, offset):
        yield from self.in_tree(text, offset, lambda _: (("library",), None), self.workspace.step, True)

    def in_sources(self, file, text, offset):
        def start(name):
            node, item = self.workspace.start(file, name)
            return (node, item) if node else self.workspace.scope(file, False).get(name, (None, None))

        def step(node, name):
            if name == "super" and node and node[0] == "rust":
                return ("rust", node[1], node[2][:-1]), None
            return (node, None) if name == "self" else self.workspace.enter(node, name)

        yield from self.in_tree(text, offset, start, step, False)

    # ---- definitions and proofs

    def in_terms(self, bare, offset, scope, contexts=None, skipped=()):
        """The changes in a text of definitions, without those of names that it binds."""
        for found in TOKEN.finditer(bare):
            if not self.is_near(found[0], contexts):
                continue
            at, node, before = found.start(), None, ""
            for place, name in enumerate(found[0].split(".")):
                start = offset + at
                at += len(name) + 1
                if place == 0:
                    sign = len(name) - len(name.lstrip("¬"))
                    name, start = name[sign:], start + sign
                    node, item = scope.get(name, (None, None))
                    if name in skipped or self.is_label(bare, found, name):
                        node = item = None
                else:
                    node, item = self.workspace.step(node, name) if node else (None, None)
                if item in self.renames.new:
                    yield start, start + len(name), self.renames.new[item]
                elif contexts and (item is None or place == 0 and name in self.spans):
                    new = self.in_context(name, place, contexts, before)
                    if new != name:
                        yield start, start + len(name), new
                before = name

    def is_near(self, token, contexts):
        """Whether a token has a name that is given another one."""
        words = WORDS.findall(token)
        return not self.words.isdisjoint(words) or bool(contexts) and not contexts.keys().isdisjoint(words)

    def is_label(self, bare, found, name):
        """Whether the name is a field's, where a record is made: an equation begins where the definition does."""
        if found.start() - bare.rfind("\n", 0, found.start()) - 1 == self.spans.get(name):
            return False
        is_given = found[0] == name and bare[found.end() : found.end() + 3].rstrip("\n ") == " ="
        before = bare[max(found.start() - 200, 0) : found.start()]
        return is_given and re.search(r"(?:[{;]|\n\s+)\s*\Z", before) is not None

    @staticmethod
    def in_context(name, place, contexts, before=""):
        """A name of a function's goals, by the new names of what it calls; after `clause` is the name of a clause."""
        if "-" not in name:
            is_call = place == 1 or before in ("args", "fn", "at") or before[:1].isupper()
            return contexts.get(name, name) if place and is_call else name
        pieces = name.split("-")
        for at, piece in enumerate(pieces):
            if at == 0 or pieces[at - 1] != "clause":
                pieces[at] = "+".join(contexts.get(it, it) for it in piece.split("+"))
        return "-".join(pieces)

    def blocks(self, file):
        """The definitions of a file, with their equations: a name is bound in a whole one."""
        starts = [found.start() for found in START.finditer(file.bare)]
        ends = [*starts[1:], len(file.bare)]
        return [(start, end) for start, end in zip(starts or [0], ends)]

    def definitions(self, file):
        """The changes in a file of definitions or proofs."""
        contexts = self.contexts(file)
        if not contexts and self.words.isdisjoint(WORDS.findall(file.bare)):
            return []
        scope, changes, taken = self.workspace.scope(file, True), [], []
        for item in file.imports:
            taken.append((item.start(), item.end()))
            changes += self.in_definitions(item[4], item.start(4))
            changes += self.in_goals(item[4], item.start(4), contexts)
        wanted = {name for name, (_, item) in scope.items() if item in self.renames.new}
        self.note_captures(file, scope, wanted)
        body = list(file.bare)
        for start, end in taken:
            body[start:end] = SPACE.sub(" ", file.bare[start:end])
        body = "".join(body)
        near, self.spans = self.words | contexts.keys(), file.spans
        for start, end in self.blocks(file) if not near.isdisjoint(WORDS.findall(body)) else ():
            text = body[start:end]
            if near.isdisjoint(WORDS.findall(text)):
                continue
            skipped = {name for name in wanted if name in text and binds(text, name)}
            for name in skipped:
                self.note(file, f"{name} is bound: {text.split(' :')[0].strip()[-60:]}")
            changes += self.in_terms(text, start, scope, contexts, skipped)
        return changes

    def note_captures(self, file, scope, wanted):
        """Notes where a new name is another thing's in the file already."""
        for name in wanted:
            new = self.renames.new[scope[name][1]]
            if new != name and re.search(rf"(?<![\w'.-]){re.escape(new)}(?![\w'-])", file.bare):
                other = scope.get(new, (None, None))[1]
                if other not in self.renames.new:
                    self.note(file, f"{name} -> {new}, which is a name there")

    def contexts(self, file):
        """The new names of what is called by the functions whose goals a proof is about."""
        found = {}
        for path, _, _, _ in file.leaves(True):
            front, sign, _ = path.partition(".Goals") if ".Goals" in path else path.partition(".Given")
            node = self.workspace.definition(front)[0] if sign else None
            if node and node[0] == "goals":
                # (a type's functions may stand in any module)
                crate, steps, name = node[1:4]
                for caller, names in self.called.items():
                    if (caller[0], caller[2]) == (crate, name) and (caller[1] == steps or node[4:]):
                        found |= names
        return found

    def in_goals(self, text, offset, contexts):
        """The changes in what is imported of a function's goals."""
        if contexts and re.search(r"\.(?:Goals|Given)\.", text):
            start = re.search(r"\.(?:Goals|Given)\.", text).end()
            for found in TREE[True].finditer(text, start):
                new = self.in_context(found[0], 1, contexts)
                if new != found[0]:
                    yield offset + found.start(), offset + found.end(), new

    # ---- sources

    def regions(self, bare):
        """Where clauses and tactics stand in a source."""
        at = 0
        while found := CLAUSE.search(bare, at):
            end = closing(bare, found.end() - 1)
            yield found.end(), end
            at = end

    def source(self, file, bare=None, is_whole=True):
        """The changes in a source, or in a piece of it."""
        bare, changes = file.bare if bare is None else bare, []
        body = bare
        for item in ITEMS[".rt"].finditer(bare) if is_whole else ():
            at, inside = item.start(4), "" if self.words.isdisjoint(WORDS.findall(item[4])) else item[4]
            is_ghost = item[3].startswith("ghost")
            changes += self.in_definitions(inside, at) if is_ghost else self.in_sources(file, inside, at)
            body = body[: item.start()] + SPACE.sub(" ", item[0]) + body[item.end() :]
        ghost = self.workspace.scope(file, True)
        wanted = {name for name, (_, item) in ghost.items() if item in self.renames.new}
        pieces, last, self.spans = [], 0, {}
        for start, end in self.regions(body):
            text = body[start:end]
            skipped = {name for name in wanted if name in text and binds(text, name)}
            changes += self.in_terms(text, start, ghost, None, skipped)
            pieces += [body[last:start], SPACE.sub(" ", text)]
            last = end
        body = "".join(pieces) + body[last:]
        changes += self.in_tactics(file, bare)
        heads = [(found.start(), found[2]) for found in FUNCTION.finditer(body)] if is_whole else []
        changes += self.in_code(file, body, heads, is_whole)
        return changes

    def in_tactics(self, file, bare):
        """The changes in the definitions and lemmas that tactics are given, as in `crate::specs::FILE::NAME`."""
        for found in GIVEN.finditer(bare):
            at, node = found.start(), ("library",)
            for part in re.split(r"(::)", found[0]):
                name = file.crate if part == "crate" else part
                node, item = (node, None) if part == "::" else self.workspace.step(node, name) if node else (None, None)
                if item in self.renames.new and item[0] != "crate":
                    yield at, at + len(part), self.renames.new[item]
                at += len(part)

    def in_code(self, file, body, heads, is_whole):
        """The changes in what is code, with a note of which function calls what."""
        scope = self.workspace.scope(file, False)
        for found in PATH.finditer(body):
            if self.words.isdisjoint(WORDS.findall(found[0])):
                continue
            at, node, item = found.start(), None, None
            for place, part in enumerate(re.split(r"(\s*::\s*)", found[0])):
                if place % 2 == 0:
                    if place == 0:
                        node, item = self.workspace.start(file, part)
                        node, item = (node, item) if node else scope.get(part, (None, None))
                    else:
                        node, item = self.workspace.enter(node, part)
                    if item in self.renames.new and self.is_meant(file, body, found, part, item, is_whole):
                        self.note_call(file, heads, at, part, self.renames.new[item])
                        yield at, at + len(part), self.renames.new[item]
                at += len(part)
        for found in METHOD_CALL.finditer(body):
            if found[1] in self.methods:
                self.note_call(file, heads, found.start(), found[1], self.methods[found[1]])
                yield found.start(), found.end(), self.methods[found[1]]
        if is_whole:
            for found in FUNCTION.finditer(body):
                if found[1] and found[2] in self.methods:
                    yield found.start(2), found.end(2), self.methods[found[2]]
            yield from self.in_params(file)

    def is_meant(self, file, body, found, part, item, is_whole):
        """Whether a name by itself is the item, and no variable or field: a function's name is, where it is called."""
        if found[0] != part:
            return True
        behind = body[found.end() : found.end() + 2]
        if re.match(r":(?!:)", behind) or item[0] == "module" and not behind.startswith("::"):
            return body[found.start() - 4 : found.start()] == "mod "
        kind = self.workspace.file(item[1], "src", item[2]).items.get(part) if item[0] == "item" else None
        if kind != "fn" or behind.startswith(("(", "::", "<")):
            return True
        bound = rf"\blet (?:mut )?{part}\b|\b{part}:(?!:)|\|{part}\||\((?:mut )?{part}\)|for {part} in"
        is_bound = re.search(bound, file.bare)
        if is_bound:
            self.note(file, f"{part} is a variable there, too")
        return not is_bound

    def note_call(self, file, heads, at, old, new):
        caller = next((name for start, name in reversed(heads) if start < at), None)
        if caller:
            self.called[file.crate, file.steps, caller][old] = new

    def in_params(self, file):
        """The changes of parameters and variables, in their functions."""
        heads = [*FUNCTION.finditer(file.bare)]
        for place, head in enumerate(heads):
            names = self.renames.params.get((file.crate, file.steps, head[2]), {})
            end = heads[place + 1].start() if place + 1 < len(heads) else len(file.bare)
            self.called[file.crate, file.steps, head[2]].update(names)
            for name, new in names.items():
                for found in re.finditer(rf"(?<![\w.]){name}\b(?!\s*(?:\(|::))", file.bare[head.end() : end]):
                    yield head.end() + found.start(), head.end() + found.end(), new
                # (the comment above it names it in backquotes)
                above = file.text.rfind("\n\n", 0, head.start()) + 1
                for found in re.finditer(rf"(?<=`){name}(?=`)", file.text[above : head.start()]):
                    yield above + found.start(), above + found.end(), new

    def finished(self, file, changes):
        """The text with the changes, with new names in comments, and of crates."""
        found = list(changes)
        for comment in HIDDEN[file.ending].finditer(file.text):
            if comment[0].startswith(("//", "--", "/*", "{-")):
                found += self.in_prose(comment[0], comment.start(), file)
        return self.with_crates(applied(file.text, found))

    # ---- prose and edits

    def in_prose(self, text, offset, file=None, crates=()):
        """The changes in what stands in backquotes."""
        for quoted in QUOTED.finditer(text):
            # (a function is named by itself, a definition in a clause too, and neither in a path)
            names = self.renames.names if NAMED.fullmatch(quoted[1]) else self.definitional
            names = () if "/" in quoted[1] else names
            for word in WORD.finditer(quoted[1]):
                if word[0] in names:
                    front = re.search(r"(\w+)::$", quoted[1][: word.start()])
                    new = self.new_name(word[0], file, crates, front and front[1])
                    if new:
                        start = offset + quoted.start(1) + word.start()
                        yield start, start + len(word[0]), new

    def new_name(self, name, file, crates, front=None):
        """The new name of what a comment or a document names: by its scope, by its crates, or if all agree."""
        if file and not front:
            for is_ghost in (True, False):
                item = self.workspace.scope(file, is_ghost).get(name, (None, None))[1]
                if item:
                    return self.renames.new.get(item)
        crates = (file.crate,) if file else crates
        items = self.renames.by_name[name]
        if front:
            # (behind a module's or a type's name)
            calls = {it: new for it, new in items.items() if it[0] in ("item", "method")}
            items = {it: new for it, new in calls.items() if front in (it[-2], *it[2][-1:])}
        for near in ({it: new for it, new in items.items() if it[1] in crates}, items):
            if near and len(set(near.values())) == 1:
                return next(iter(near.values()))
        if items:
            self.note(file, f"`{name}` may be several")
        return None

    def rewritten(self, file):
        """The new text of a source or a file of definitions."""
        if file not in self.done:
            changes = self.source(file) if file.ending == ".rt" else self.definitions(file)
            self.done[file] = self.finished(file, changes)
        return self.done[file]

    def piece(self, file, text):
        """The new text of a piece of a source, as an edit quotes it."""
        bare = hidden(text, ".rt")
        changes = self.source(file, bare, False)
        # (a piece of a clause is a term)
        seen = {start for start, _, _ in changes}
        at = file.text.find(text)
        inside = any(start <= at < end for start, end in self.regions(file.bare)) if at >= 0 else False
        ghost, code = self.workspace.scope(file, True), self.workspace.scope(file, False)
        only = {name: it for name, it in ghost.items() if inside or name not in code}
        changes += [it for it in self.in_terms(bare, 0, only) if it[0] not in seen]
        for (crate, steps, function), names in self.renames.params.items():
            if (crate, steps) == (file.crate, file.steps) and self.is_within(file, at, function):
                for name, new in names.items():
                    uses = re.finditer(rf"(?<![\w.]){name}\b(?!\s*(?:\(|::))", bare)
                    changes += [(it.start(), it.end(), new) for it in uses]
        return self.with_crates(applied(text, changes))

    @staticmethod
    def is_within(file, at, function):
        heads = [found for found in FUNCTION.finditer(file.bare) if found.start() <= max(at, 0)]
        return at < 0 or bool(heads) and heads[-1][2] == function

    def edit(self, text, crate):
        """The new text of an edit."""
        lines, file = [], None
        for line in text.split("\n"):
            sign, _, rest = line.partition(": ")
            if sign == "file":
                steps = tuple(re.sub(r"\A(?:src/)|(?:/mod)?\.rt\Z", "", rest.strip()).split("/"))
                file = self.workspace.file(crate, "src", () if steps in (("lib",), ("main",)) else steps)
                lines.append("file: " + self.moved_source(crate, rest))
            elif sign in ("old", "new") and file:
                lines.append(f"{sign}: {self.piece(file, rest)}")
            elif sign == "at":
                lines.append("at: " + self.moved_function(crate, rest))
            else:
                lines.append(self.with_crates(line))
        return "\n".join(lines)

    def moved_source(self, crate, path):
        """The new path of a source, from its crate's folder."""
        steps = re.sub(r"\Asrc/|\.rt\Z", "", path.strip()).split("/")
        return "src/" + "/".join(self.module_names(crate, "src", steps)) + ".rt"

    def module_names(self, crate, part, steps):
        modules = [("module", crate, part, tuple(steps[:end])) for end in range(1, len(steps) + 1)]
        return [self.renames.new.get(module, name) for module, name in zip(modules, steps)]

    def moved_function(self, crate, path):
        """The new path of a function, as a line `at:` has it."""
        names, node, found = path.strip().split("::"), ("rust", crate, ()), []
        for name in names:
            node, item = self.workspace.enter(node, name)
            found.append(self.renames.new.get(item, name))
        return "::".join(found)
