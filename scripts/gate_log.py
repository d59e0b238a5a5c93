"""What scripts/time-gate counted, from its log or from the table of docs/GATE.md. For the scripts next to it."""

import dataclasses
import re

from workspace import TOP, crates

PAGE = TOP / "docs/GATE.md"
PARTS = ("proof", "edits", "tests", "run")


@dataclasses.dataclass
class Counted:
    """Seconds of processors by crate and part, of each check of a crate's edits, of `rt ci` itself and of what is left; and of the clock.

    Memory is in MB: of the largest check of a crate, and what was free before.
    """

    seconds: dict = dataclasses.field(default_factory=dict)
    checks: dict = dataclasses.field(default_factory=dict)
    drops: dict = dataclasses.field(default_factory=dict)
    megabytes: dict = dataclasses.field(default_factory=dict)
    functions: dict = dataclasses.field(default_factory=dict)
    command: float = 0
    rest: float = 0
    clock: float = 0
    processors: int = 0
    free: float = 0

    def of(self, crate, part):
        return self.seconds.get(crate, {}).get(part, 0)


def read_log(text):
    """Reads a log of scripts/time-gate. Only proofs of crates that the run proved are counted, and none that was kept from an earlier one."""
    found, name = Counted(), None
    proved = set(re.findall(r"^rt: (\w+) proved$", text, re.M))
    for line in text.splitlines():
        head = re.match(r"== (\w+)", line)
        name = head[1] if head else name
        told = re.match(r"logic=proved functions=(\d+)", line)
        words = line.split()
        if told and name:
            found.functions[name] = int(told[1])
        elif re.fullmatch(r"seconds \w+ \w+ \d+", line):
            _, crate, part, seconds = words
            if crate == "command":
                found.command = int(seconds)
            elif crate == "rest":
                found.rest = int(seconds)
            elif part == "edits" or crate in proved or not proved:
                found.seconds.setdefault(crate, {})[part] = int(seconds)
        elif re.fullmatch(r"edits \w+( \d+)+", line):
            found.checks[words[1]] = [int(it) for it in words[2:]]
        elif re.fullmatch(r"(drops|memory) \w+ \d+", line):
            (found.drops if words[0] == "drops" else found.megabytes)[words[1]] = int(words[2])
        elif re.fullmatch(r"clock \d+ processors \d+( free \d+)?", line):
            found.clock, found.processors, found.free = int(words[1]), int(words[3]), int(words[5] if words[5:] else 0)
    return found


def read_logs(paths):
    """Reads a log, and later ones, of what was proved or tried again; returns what was counted."""
    first, *later = (read_log(it.read_text(errors="replace")) for it in paths)
    for it in later:
        for name, parts in it.seconds.items():
            first.seconds.setdefault(name, {}).update(parts)
        first.checks.update(it.checks)
        proved = {name for name, parts in it.seconds.items() if "proof" in parts}
        for part in ("drops", "megabytes", "functions"):
            for name in proved:
                getattr(first, part).pop(name, None)
            getattr(first, part).update({name: told for name, told in getattr(it, part).items() if name in proved})
        first.megabytes["together"] = max(first.megabytes.get("together", 0), it.megabytes.get("together", 0))
        first.command, first.clock, first.rest = first.command + it.command, first.clock + it.clock, first.rest + it.rest
    return first


def read_page(text):
    """Reads the table of docs/GATE.md, which has minutes, and not those of each check."""
    found, head = Counted(), []
    for line in text.splitlines():
        cells = [it.strip().strip("`") for it in line.strip("|").split("|")]
        if line.startswith("| Crate |"):
            head = [it.lower() for it in cells]
        elif line.startswith("| `") and head and cells[0] in crates():
            row = {part: float(cells[at] or 0) for at, part in enumerate(head) if 0 < at < len(cells) and re.fullmatch(r"[\d.]*", cells[at])}
            row["run"] = row.pop("runs", 0)
            found.seconds[cells[0]] = {part: 60 * row.get(part, 0) for part in PARTS}
    itself = re.search(r"command itself took (\d+\.\d+)", text)
    rest = re.search(r"linking and the rest took (\d+\.\d+)", text)
    found.command, found.rest = (60 * float(it[1]) if it else 0 for it in (itself, rest))
    return found


def lines_of(crate):
    """Returns how many lines of source a crate has."""
    return sum(it.read_bytes().count(b"\n") for it in (TOP / "crates" / crate / "src").rglob("*.rt"))


def edits_of(crate):
    """Returns the edits of a crate that the gate tries."""
    return sorted(it.stem for it in (TOP / "crates" / crate).glob("must-fail/*.edit"))
