"""What the crates' sources say of their functions: the clauses, what these cite, and the promise comments. For the scripts next to it.

An item is a function, a type, a trait, or a `ghost` line of one of these, by its path (`Framer::feed`). A function of a trait that is written in
an impl has the clauses of the trait's, or for std's Display the impl's `ghost output`. A `ghost` line is a clause of its own name.
"""

import re

import workspace

FUNCTION = re.compile(r"( *)(?:pub(?:\(\w+\))? )?(?:const |unsafe )*fn (\w+)")
TYPE = re.compile(r"pub(?:\(\w+\))? (?:struct|enum|trait|type) (\w+)")
BLOCK = re.compile(r"(?:pub(?:\(\w+\))? )?(?:unsafe )?(?:impl|trait|struct|enum)\b")
GHOST = re.compile(r"    (?:pub )?ghost (\w+)\s*([:=]) *(.*)")
CLAUSE = re.compile(r"\s*(ensures|requires) ?(\w*) ?\{")
DIRECTIVE = re.compile(r"(Promise|With|Clauses): (.+)|(Headline)\.$")
OWN = re.compile(r"Rattle\.\w+\.specs\.(?!declared\b|contracts\b)")


class Promise:
    """A promise as its comment has it: the words, further calls, and the clauses that carry it."""

    def __init__(self, words):
        self.said, self.last = {"Promise": words}, "Promise"

    def add(self, line):
        """Adds a line of the comment."""
        found = DIRECTIVE.match(line)
        if found:
            self.last = found[1] or found[3]
            self.said[self.last] = found[2] or ""
        else:
            self.said[self.last] += " " + line

    def names(self, what):
        """Returns the names of a list, its groups in braces one by one."""
        return [name for part in re.findall(r"[^,{}\s]+(?:\{[^}]*\})?", self.said.get(what, "")) for name in in_braces(part)]


class Clause:
    """A clause: its name, which is empty where it has none, and the definitions that it cites."""

    def __init__(self, name, text, names):
        self.name, self.cited = name, cited(text, names)


class Item:
    def __init__(self, file, path, at, start):
        self.file, self.path, self.start = file, path, start
        self.clauses, self.body, self.trait = [], None, None
        self.promises, self.is_law = [], False
        self.is_public = file.lines[at].lstrip().startswith("pub ")
        self.is_type = bool(TYPE.match(file.lines[at]))

    @property
    def crate(self):
        return self.file.crate

    def __repr__(self):
        return f"{self.crate}::{self.path}"


class File:
    """A source file: its lines, its items, and what its imports of definitions bring in."""

    def __init__(self, crate, path):
        self.crate, self.path, self.lines = crate, path, path.read_text().split("\n")
        self.items, self.names, self.block = [], {}, None
        at = 0
        while at < len(self.lines):
            at = self.read(at)

    def read(self, at):
        """Reads what begins at a line, and returns the line after what was read."""
        line = self.lines[at]
        if line.strip().startswith("ghost use "):
            note_definitions(line, self.names if self.block is None else self.block["names"])
        elif FUNCTION.match(line):
            return self.read_function(at)
        elif self.block is not None and GHOST.match(line):
            return self.read_ghost(at)
        elif BLOCK.match(line):
            self.begin_block(at)
        elif line.startswith("}"):
            self.block = None
        if TYPE.match(line):
            self.note(TYPE.match(line)[1], at)
        return at + 1

    def begin_block(self, at):
        """Begins an impl, a trait or a type: what stands in it belongs to its owner."""
        head = re.split(r"\bwhere\b|[{;(]", without_generics(" ".join(self.lines[at : at + 3])))[0]
        trait, _, owner = re.sub(r".*?\b(impl|trait|struct|enum) ", "", head, count=1).rpartition(" for ")
        owner = owner.partition(":")[0].strip() if not trait else owner.strip()
        is_open = not self.lines[at].endswith((";", "}"))
        self.block = {"owner": owner.rpartition("::")[2], "trait": trait.strip().rpartition("::")[2], "names": {}, "ghosts": []} if is_open else None

    def note(self, path, at):
        """Adds an item that stands at a line, with the comment above it."""
        begin = at
        while begin and re.match(r"\s*(///|#\[)", self.lines[begin - 1]):
            begin -= 1
        item = Item(self, path, at, begin)
        item.promises = promises_above(self.lines, begin)
        item.trait = self.block and self.block["trait"]
        self.items.append(item)
        return item

    def read_ghost(self, at):
        name, mark, text = GHOST.match(self.lines[at]).groups()
        end = at
        while self.lines[end].count("{") > self.lines[end].count("}") and not self.lines[end + 1].startswith("    }"):
            end += 1
        text = "\n".join([text, *self.lines[at + 1 : end + 1]])
        item = self.note(f"{self.block['owner']}::{name}", at)
        item.clauses, item.is_law = [Clause(name, text, self.names | self.block["names"])], True
        if mark == "=":
            self.block["ghosts"] += item.clauses
        return end + 1

    def read_function(self, at):
        """Reads a function: its clauses, and where its body begins and ends."""
        indent, name = FUNCTION.match(self.lines[at]).groups()
        path = f"{self.block['owner']}::{name}" if indent and self.block else name
        item, end = self.note(path, at), at
        while not self.lines[end].endswith(";") and not is_body(self.lines[end], indent):
            end += 1
        self.read_clauses(item, indent, self.lines[at : end + 1])
        if self.lines[end].endswith(";"):
            return end + 1
        item.is_law = self.lines[end] == indent + "{}"
        close = end
        if not self.lines[end].endswith("{}"):
            close = self.lines.index(indent + "}", end)
        item.body = (end, close)
        return close + 1

    def read_clauses(self, item, indent, lines):
        """Reads the clauses between a function's head and its body."""
        clauses, is_open = [], False
        for line in lines:
            found = CLAUSE.match(line)
            if found:
                is_open = found[1] == "ensures"
                if is_open:
                    clauses.append([found[2], line[found.end() :]])
            elif is_open and not line.strip().startswith("//"):
                clauses[-1][1] += "\n" + line
        names = self.names | (self.block["names"] if self.block else {})
        item.clauses = [Clause(name, text, names) for name, text in clauses]
        if not clauses and item.trait:
            item.clauses = [it for it in self.block["ghosts"] if it.name == "output"]


def cited(text, names):
    """Returns the definitions among these names that a text cites, each once."""
    found = []
    for word in re.findall(r"[^\s(){}\[\],;]+", text):
        head, _, rest = word.partition(".")
        if names.get(head) == "alias":
            found.append(rest.rstrip("."))
        elif head in names:
            found.append(head)
    found += [it for it in names if "◌" in it and it.strip("◌") in text]
    return list(dict.fromkeys(found))


def is_body(line, indent):
    """Tells whether a function's body begins at a line."""
    return line in (indent + "{", indent + "{}") or re.fullmatch(r".*[^\s{(] \{\}?", line) and not CLAUSE.match(line)


def without_generics(text):
    """Returns a text without what stands in angle brackets."""
    while re.search(r"<[^<>]*>", text):
        text = re.sub(r"<[^<>]*>", "", text)
    return text


def note_definitions(line, names):
    """Notes what a `ghost use` of definitions of these crates brings in."""
    found = re.match(r"\s*ghost use ([\w.]+?)(?:\.\{(.*)\}| as (\w+));$", line)
    module = found and workspace.origin(found[1])
    if not found or not OWN.match(module + "."):
        return
    if module.split(".")[1] not in workspace.crates():
        return
    if found[3]:
        names[found[3]] = "alias"
    for it in (found[2] or "").split(","):
        if it.strip():
            names[it.strip().rpartition(" as ")[2]] = "name"


def in_braces(part):
    """Returns the names that a name with a group in braces stands for."""
    head, brace, group = part.partition("{")
    return [head + it.strip() for it in group.rstrip("}").split(",")] if brace else [head]


def promises_above(lines, begin):
    """Returns the promises in the plain comment above a line."""
    top = begin
    while top and re.match(r"\s*//(?![/!])", lines[top - 1]):
        top -= 1
    found = []
    for line in (it.strip()[2:].strip() for it in lines[top:begin]):
        if line.startswith("Promise: "):
            found.append(Promise(line.removeprefix("Promise: ")))
        elif found:
            found[-1].add(line)
    return found


class Sources:
    """The items of all crates, those of lower crates first and in the order of their modules."""

    def __init__(self):
        self.files = [File(name, path) for name in workspace.crates() for path in ordered_files(name)]
        self.items = [item for file in self.files for item in file.items]
        self.by_path = {}
        for item in self.items:
            self.by_path.setdefault((item.crate, item.path), []).append(item)
        for item in self.items:
            if not item.clauses and item.trait:
                self.inherit(item)

    def inherit(self, item):
        """Gives a function of an impl the clauses that its trait has for it."""
        name = item.path.rpartition("::")[2]
        above = [it for it in self.items if it.path == f"{item.trait}::{name}" and not it.trait]
        if above:
            item.clauses = above[0].clauses

    def called(self, crate, path):
        """Returns the items of a path, which may begin with a crate's name or `crate`. A type stands for its public functions."""
        path = path.removeprefix("crate::")
        first, _, rest = path.partition("::")
        if rest and first in workspace.crates():
            crate, path = first, rest
        found = self.by_path.get((crate, path), [])
        if not any(it.is_type for it in found):
            return found
        return [it for it in self.items if it.crate == crate and it.path.startswith(path + "::") and it.is_public and it.clauses]


def ordered_files(name):
    """Returns the source files of a crate: its root, and then each module where the root names it."""
    folder = workspace.TOP / "crates" / name / "src"
    paths = sorted(folder.rglob("*.rt"))
    roots = [it for it in paths if it.parent == folder and it.stem in ("lib", "main")]
    named = [it for root in roots for it in re.findall(r"^(?:pub )?mod (\w+);", root.read_text(), re.M)]
    place = {it: at for at, it in enumerate(["lib", "main", *named])}
    return sorted(paths, key=lambda it: (place.get(it.relative_to(folder).parts[0].removesuffix(".rt"), len(place)), it))
