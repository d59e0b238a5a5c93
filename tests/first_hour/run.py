"""Runs what README.md and docs/FIRST.md tell a newcomer to run, and compares what is shown. Called by tests/first_hour.sh."""

import argparse
import difflib
import pathlib
import re
import shutil
import signal
import subprocess
import sys
import tempfile
import time

import sessions

SHOWN = pathlib.Path(__file__).parent / "shown"
DOCUMENTS = ("README.md", "docs/FIRST.md")
# what isn't run, and why
LEFT_OUT = {
    "scripts/cases --try": "it takes 9.5 GB; the gate runs these tests",
    "rt ci": "it takes hours",
    "scripts/first-build": "it takes hours; the program that stands in for its own isn't proved",
}
PROVES = "scripts/first-build"
# what isn't run by a program that was compiled with checks, and why
TOO_SLOW = {"examples/demo.sh": "beside other work a program with checks doesn't come level with the demo's clients; give a PROGRAM without"}
# it serves until it is ended, which is when another server begins or the document ends; it has printed all once it has printed this
SERVES, LISTENS = "examples/serve.sh", "Ctrl-C ends it"
# what differs from run to run: counts, and the lines of a chart
MEASURED = ((r"\d+ times", "N times"), (r"the \d+ that", "the N that"), (r"(?m)^ +\d+\.\d  #* .*\n", ""))
# seconds that a command may take, of which compiling is most, and in which a server has to listen
MOST, SOON = 3600, 60


def commands(text):
    """The lines of the document's blocks of shell commands without their comments, and the rows of its tables of statements, in their order."""
    kind = None
    for line in text.split("\n"):
        if line.startswith("```"):
            kind = None if kind else line[3:] or "text"
        elif kind == "sh" and line.strip():
            yield re.sub(r"\s+#\s.*", "", line).strip()
        elif not kind and (row := sessions.row_of(line)):
            yield row


def expected():
    """What each command shows, by the command."""
    parts = [it.partition("\n") for it in re.split(r"(?m)^\$ ", SHOWN.read_text())[1:]]
    return {command: shown for command, _, shown in parts}


def comparable(shown):
    for pattern, to in MEASURED:
        shown = re.sub(pattern, to, shown)
    return shown


class Hour:
    """A run of the documents' commands in a clone; what each has to show, by the command, or none if that is to be written."""

    def __init__(self, clone, program, wanted):
        self.clone, self.program, self.server = clone, program, None
        self.wanted, self.shown, self.passed, self.failed = wanted, {}, 0, 0
        if program:
            self.put(program, "unproved/vtgate_main")

    def put(self, program, place):
        """Puts a program where the scripts look for one that was compiled or proved of these sources."""
        to = self.clone / "crates/vtgate_main/out" / place
        to.parent.mkdir(parents=True, exist_ok=True)
        shutil.copyfile(program, to)
        to.chmod(0o755)
        (to.parent / "kit").write_text(subprocess.run(["rt", "version"], stdout=subprocess.PIPE, text=True, check=True).stdout)

    def told(self, what, wanted, shown):
        """Counts a comparison, and prints it."""
        right = wanted == shown
        self.passed, self.failed = self.passed + right, self.failed + (not right)
        print(f"{'passed' if right else 'FAILED'}: {what}", flush=True)
        if not right:
            print("\n".join(difflib.unified_diff((wanted or "").splitlines(), shown.splitlines(), "expected", "shown", lineterm="")), flush=True)

    def end_server(self):
        if self.server:
            self.server.send_signal(signal.SIGINT)
            self.server.wait(SOON)
            self.server = None

    def serve(self, command):
        """Starts a server, and returns what it prints until it listens."""
        self.end_server()
        with tempfile.TemporaryFile("w+") as out:
            self.server = subprocess.Popen(["bash", "-c", f"exec {command}"], cwd=self.clone, stdin=subprocess.DEVNULL, stdout=out)
            until, shown = time.monotonic() + SOON, ""
            while LISTENS not in shown and self.server.poll() is None and time.monotonic() < until:
                time.sleep(0.1)
                out.seek(0)
                shown = out.read()
        return shown

    def run(self, command):
        """Runs a command, and compares what it shows."""
        if why := LEFT_OUT.get(command) or (not self.program and TOO_SLOW.get(command)):
            print(f"left out: {command}: {why}", flush=True)
            if command == PROVES:
                self.put(self.program or self.clone / "crates/vtgate_main/out/unproved/vtgate_main", "vtgate_main")
            return
        if command.split()[0] == SERVES:
            shown = self.serve(command)
        else:
            ran = subprocess.run(["bash", "-c", command], cwd=self.clone, stdin=subprocess.DEVNULL, stdout=subprocess.PIPE, text=True, timeout=MOST)
            shown = ran.stdout + (f"status {ran.returncode}\n" if ran.returncode else "")
        self.shown[command] = comparable(shown)
        self.told(command, (self.shown if self.wanted is None else self.wanted).get(command), self.shown[command])

    def document(self, name):
        with sessions.Sessions() as clients:
            for it in commands((self.clone / name).read_text()):
                if isinstance(it, str):
                    self.run(it)
                else:
                    self.told("; ".join(it.statements), "\n".join(it.answers), "\n".join(clients.answer(it)))
        self.end_server()


def main():
    reader = argparse.ArgumentParser()
    reader.add_argument("clone", type=pathlib.Path)
    reader.add_argument("--program", type=pathlib.Path)
    reader.add_argument("--write", action="store_true")
    words = reader.parse_args()
    hour = Hour(words.clone, words.program, None if words.write else expected())
    try:
        for name in DOCUMENTS:
            print(f"{name}:", flush=True)
            hour.document(name)
    finally:
        hour.end_server()
    if words.write:
        SHOWN.write_text("".join(f"$ {command}\n{shown}" for command, shown in hour.shown.items()))
    print(f"first hour: {hour.passed} passed, {hour.failed} failed")
    return 1 if hour.failed else 0


if __name__ == "__main__":
    sys.exit(main())
