"""What the definitions in `specs/` are: their comments, their lines, and which of them public clauses reach. For the scripts next to it.

A definition is reached from a clause of a function that other crates can call, from a type's view or invariant, or from a definition that is
reached. Names are read, not types: a name counts for each definition that it may mean, so more may be called reached than is.
"""

import re
import sys

import workspace

WORDS = re.compile(r"[^\s(){}\[\],;]+")


class Definition:
    def __init__(self, file, name):
        self.file, self.name, self.lines, self.text, self.comment = file, name, 0, [], ""

    def __repr__(self):
        return f"{self.file.crate}.{self.file.module}.{self.name}"


class File:
    """A file of specs/: what it imports, and its definitions."""

    def __init__(self, crate, path, root):
        self.crate, self.path = crate, path
        self.module = ".".join(path.relative_to(root).with_suffix("").parts)
        self.names, self.aliases, self.passed_on, self.definitions = {}, {}, {}, []
        comment, current = [], None
        for line in path.read_text().splitlines():
            if line.startswith(("use ", "pub use ")):
                names = {}
                note_use(line.partition("use ")[2], names, self.aliases)
                self.names |= names
                if line.startswith("pub "):
                    self.passed_on |= names
                continue
            if line.startswith("pub mod ") or re.match(r"\s*module _", line):
                continue
            if line.lstrip().startswith("--"):
                comment, current = [*comment, line.lstrip("- ")], None
                continue
            begun = re.match(rf"^\s*(?:abbrev|unfoldable|opaque)?\s*(?:pub\s+)?(?:(?:abbrev|unfoldable|opaque)\s+)?(?:(?:record|data)\s+(\S+)|(\S+)\s+:\s)", line)
            is_head = re.match(r"^\s*(abbrev|unfoldable|opaque|pub (record|data|abbrev|unfoldable)|record|data)\b", line)
            if is_head and begun and "{" not in (begun[1] or begun[2]):
                current = Definition(self, (begun[1] or begun[2]).strip())
                current.lines, current.comment = len(comment), " ".join(comment)
                self.definitions.append(current)
            comment = []
            if not line.strip():
                continue
            if current is None and self.definitions:
                current = self.definitions[-1]
            if current:
                current.lines += 1
                current.text.append(line)


def note_use(words, names, aliases):
    """Notes what a `use` brings in: names of a module, or another name for it."""
    found = re.match(r"(?:pub )?([\w.+]+?)(?:\.\{([^}]*)\})?(?: as (\S+?))?;?\s*$", words.strip())
    if not found:
        return
    module, group, alias = found.groups()
    if group is None:
        aliases[alias or module.rpartition(".")[2]] = module
        return
    for item in group.split(","):
        own, _, other = item.strip().partition(" as ")
        if own:
            names[other or own] = (module, own)


def parts_of(word):
    """Returns the names in a word, such as `x.items` or `typed.Select`."""
    return [word, *word.split(".")]


class Workspace:
    def __init__(self):
        self.files = {}
        for crate in workspace.crates():
            root = workspace.TOP / "crates" / crate / "specs"
            for path in sorted(root.rglob("*.antt")):
                if path.name != "Lib.antt":
                    file = File(crate, path, root)
                    self.files[f"Rattle.{crate}.specs.{file.module}"] = file
        self.by_module = {
            module: {it.name: it for it in file.definitions} for module, file in self.files.items()
        }
        for module, file in self.files.items():
            for name, (there, own) in file.passed_on.items():
                if own in self.at(there):
                    self.by_module[module][name] = self.at(there)[own]

    def at(self, module):
        """Returns the definitions of a module by their names, also if another crate passes it on."""
        return self.by_module.get(workspace.origin(module), {})

    def named(self, name):
        """Returns the one definition of this name, as MODULE.NAME."""
        found = [it for file in self.files.values() for it in file.definitions if f".{it!r}".endswith(f".{name}")]
        if len(found) != 1:
            sys.exit(f"{len(found)} definitions are named {name}: {', '.join(map(repr, found))}")
        return found[0]

    def meant(self, text, names, aliases, own):
        """Returns the definitions that a text may speak of."""
        found = set()
        for word in WORDS.findall(text):
            head, dot, rest = word.partition(".")
            if dot and head in aliases:
                found.add(self.at(aliases[head]).get(rest.split(".")[0]))
            for name in {word, head, word.rstrip(".")}:
                if name in own:
                    found.add(own[name])
                elif name in names:
                    module, there = names[name]
                    found.add(self.at(module).get(there))
        for name, (module, there) in names.items():
            if "◌" in name and name.replace("◌", "") in text:
                found.add(self.at(module).get(there))
        for name, it in own.items():
            if "◌" in name and name.replace("◌", "") in text:
                found.add(it)
        found.discard(None)
        return found

    def closure(self, roots):
        seen, waiting = set(roots), list(roots)
        while waiting:
            it = waiting.pop()
            own = {d.name: d for d in it.file.definitions}
            for other in self.meant("\n".join(it.text), it.file.names, it.file.aliases, own):
                if other not in seen:
                    seen.add(other)
                    waiting.append(other)
        return seen

    def roots(self):
        found = set()
        for crate in workspace.crates():
            folder = workspace.TOP / "crates" / crate / "src"
            exported = exports(folder)
            for path in sorted(folder.rglob("*.rt")):
                if "tests" not in path.relative_to(folder).parts and path.stem not in ("tests", "status_tests"):
                    names, aliases, text = public_text(path, exported)
                    found |= self.meant(text, names, aliases, {})
        return found


def exports(folder, root="lib"):
    """Returns the names that a library, or a public module of it, gives to others; none for a program, all of whose public functions count."""
    file = folder / f"{root}.rt"
    if not file.exists():
        return None
    text = file.read_text()
    names = set(re.findall(r"^pub (?:fn|struct|enum|trait|type|const) (\w+)", text, re.M))
    for group in re.findall(r"^pub use ([^;]+);", text, re.M):
        names |= set(re.findall(r"\w+", group))
    for module in re.findall(r"^pub mod (\w+);", text, re.M):
        names |= exports(folder if root == "lib" else folder / root, module) or set()
    return names


def public_text(path, exported):
    """Returns what a file's ghost imports bring in, and the text of its clauses that other crates see."""
    names, aliases, kept = {}, {}, []
    owner, is_open, in_trait = None, False, False
    for line in path.read_text().splitlines():
        stripped = line.strip()
        if stripped.startswith("ghost use "):
            note_use(stripped[len("ghost use "):], names, aliases)
            continue
        if re.match(r"(pub )?(unsafe )?(impl|trait)\b", stripped) and not line.startswith(" "):
            shape = re.sub(r"<[^<>]*(<[^<>]*(<[^<>]*>)?[^<>]*>)?[^<>]*>", "", stripped)
            in_trait = " for " in shape or stripped.startswith("pub trait")
            owner = re.search(r"(?:for |impl |trait )\s*(\w+)", shape)
            owner = (re.search(r" for (\w+)", shape) or owner)
            owner = owner[1] if owner else None
        elif line.startswith("}"):
            owner, in_trait = None, False
        called = re.match(r"(pub(?:\(\w+\))? )?(?:const |unsafe )*fn (\w+)", stripped)
        if called:
            is_pub = called[1] == "pub " or in_trait
            subject = owner or called[2]
            is_open = is_pub and (exported is None or subject in exported or in_trait)
        elif stripped == "{":
            is_open = False
        elif is_open or (stripped.startswith("ghost ") and not called):
            kept.append(line)
    return names, aliases, "\n".join(kept)
