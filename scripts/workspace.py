"""What crates.txt says of the workspace, and which crates a change touches. For the scripts next to it."""

import functools
import pathlib
import re
import subprocess

TOP = pathlib.Path(__file__).resolve().parent.parent
PROVED = ("src", "specs", "proofs")
# What a crate's callers see: its definitions, and in its code clauses, public items and the types and traits that they speak of.
CONTRACT = re.compile(r"^[+-]\s*(pub\b|ensures\b|requires\b|law\b|invariant\b|trait\b|impl\b|ghost\b|type\b|///)", re.M)


@functools.cache
def crates():
    """Returns the libraries of the workspace that each crate names, the crates lowest first."""
    named = {}
    for line in (TOP / "crates.txt").read_text().splitlines():
        head, colon, below = line.partition("#")[0].partition(":")
        if colon:
            named[head.split()[0]] = below.split()
    below = {name: [it for it in libraries if it in named] for name, libraries in named.items()}
    ordered = []

    def visit(name):
        if name not in ordered:
            for it in below[name]:
                visit(it)
            ordered.append(name)

    for name in below:
        visit(name)
    return {name: below[name] for name in ordered}


@functools.cache
def below(name):
    """Returns all crates that a crate depends on."""
    return frozenset().union(*({it} | below(it) for it in crates()[name]))


@functools.cache
def passed_on():
    """Returns what a crate passes on of the definitions of others: the module that each such name stands for."""
    found = {}
    for name in crates():
        root = TOP / "crates" / name / "specs"
        for path in sorted(root.rglob("*.antt")):
            inside = path.relative_to(root).with_suffix("").parts
            here = ".".join(["Rattle", name, "specs", *(() if inside == ("Lib",) else inside)])
            for module, other in re.findall(r"^pub use ([\w.]+?)(?: as (\w+))?;?$", path.read_text(), re.M):
                found[f"{here}.{other or module.rpartition('.')[2]}"] = module
    return found


@functools.cache
def origin(module):
    """Returns the module that a path leads to, through all crates that pass it on."""
    parts = module.split(".")
    for end in range(len(parts), 0, -1):
        there = passed_on().get(".".join(parts[:end]))
        if there:
            return origin(".".join([there, *parts[end:]]))
    return module


def layers():
    """Returns the crates of each section of crates.txt, in its order."""
    found, ordered = {}, list(crates())
    for line in (TOP / "crates.txt").read_text().splitlines():
        head, colon, _ = line.partition("#")[0].partition(":")
        if line.startswith("# == "):
            found[line.removeprefix("# == ")] = []
        elif colon:
            next(reversed(found.values())).append(head.split()[0])
    return {layer: sorted(names, key=ordered.index) for layer, names in found.items()}


def comments():
    """Returns what crates.txt says above each crate, as one line."""
    found, said = {}, []
    for line in (TOP / "crates.txt").read_text().splitlines():
        head, colon, _ = line.partition("#")[0].partition(":")
        if colon:
            found[head.split()[0]] = " ".join(said)
        if line.startswith("# ") and not line.startswith("# == "):
            said.append(line.removeprefix("# "))
        else:
            said = []
    return found


def above(names, below):
    """Returns these crates and all that stand on one of them, lowest first."""
    found = set()
    for name in below:
        if name in names or found & set(below[name]):
            found.add(name)
    return [name for name in below if name in found]


def git(*words):
    return subprocess.run(["git", "-C", TOP, *words], check=True, capture_output=True, text=True).stdout


def paths_since(commit):
    """Returns the paths that differ from the commit, those that git doesn't know yet among them."""
    return git("diff", "--name-only", commit).split() + git("ls-files", "--others", "--exclude-standard").split()


def since(commit, parts, below):
    """Returns the crates of which a path in one of these folders differs from the commit, or whose line in crates.txt does."""
    found = set()
    for path in paths_since(commit):
        folders = path.split("/")
        if folders[0] == "crates" and len(folders) > 3 and folders[2] in parts:
            found.add(folders[1])
    lines = git("diff", "-U0", commit, "--", "crates.txt")
    found.update(re.findall(r"^\+(\w+)(?: [^:\n]*)?:", lines, re.M))
    return [name for name in below if name in found]


def changes_contracts(commit, name):
    """Tells whether what the crate's callers see differs from the commit."""
    folder = f"crates/{name}"
    news = git("ls-files", "--others", "--exclude-standard", "--", f"{folder}/specs", f"{folder}/src")
    specs = git("diff", "--name-only", commit, "--", f"{folder}/specs")
    return bool(news or specs or CONTRACT.search(git("diff", "-U0", commit, "--", f"{folder}/src")))
