"""The clients: how each is called, what it can do, and how it shows an outcome."""

import dataclasses
import os
import pathlib
import re
import subprocess

HERE = pathlib.Path(__file__).resolve().parent
BUILT = pathlib.Path(os.environ.get("CLIENTS", "."))  # the folder of the compiled ones
PYTHON = "/usr/bin/python3"


def read_steps(path):
    """The steps of a list, each with the lines that it has to show: those of None, and for some clients others."""
    steps, names = [], (None,)
    for line in path.read_text().splitlines():
        if line.startswith("    "):
            for name in names:
                steps[-1][1].setdefault(name, []).append(line[4:])
        elif line.startswith("  "):
            names = tuple(line.strip().rstrip(":").split(", "))
        elif line and line[0] != "#":
            steps.append((line, {}))
            names = (None,)
    return steps


def outputs_of_process(process, lines, timeout):
    """What the process writes to both streams, given these lines. It is ended where it takes too long."""
    try:
        return process.communicate("".join(line + "\n" for line in lines).encode(), timeout)
    except subprocess.TimeoutExpired:
        process.kill()
        raise


@dataclasses.dataclass
class Library:
    name: str
    commands: tuple  # which lines with @ it runs
    call: tuple = ()
    options: tuple = ()  # words after those of the place
    has_numbers: bool = True  # whether it shows the number of a refusal
    has_states: bool = True  # whether it shows the five bytes of SQLSTATE
    has_quotes: bool = True  # whether it tells texts from numbers
    is_exact: bool = True  # whether its numbers have 64 bits, not the 53 of a double
    first: tuple = ()  # lines that it runs before the others

    def can(self, line):
        return line[0] != "@" or line.split()[0] in self.commands

    def wanted(self, outcomes):
        """What the library has to show, of the outcomes of a step."""
        return self.shown(outcomes.get(self.name) or outcomes[None])

    def shown(self, outcome):
        """How the library shows an outcome of the list."""
        if "ERROR" in outcome[0]:
            pattern = "" if self.has_states else r" \(.{5}\)" if self.has_numbers else r" \d+ \(.{5}\):"
            return [re.sub(pattern, "", outcome[0])]
        rows = [line if self.has_quotes else line.replace("'", "") for line in outcome[:-1]]
        if not self.is_exact:
            rows = [re.sub(r"(^|(?<=\|))-?\d+(?=\||$)", lambda it: str(int(float(it[0]))), row) for row in rows]
        return rows + outcome[-1:]

    def start(self, port, user, password, database):
        words = [str(port), user, password, database]
        return subprocess.Popen([*self.call, *words, *self.options], stdin=subprocess.PIPE, stdout=subprocess.PIPE, stderr=subprocess.STDOUT)

    def finish(self, process, lines, timeout=120):
        """The outcomes of the lines: a list of lines for each."""
        output, _ = outputs_of_process(process, [*self.first, *lines], timeout)
        blocks = [block.split("\n") for block in output.decode("latin-1").rstrip("\n").split("\n\n") if block]
        return blocks[len(self.first) :] if len(blocks) > len(self.first) else blocks

    def run(self, port, user, password, database, lines):
        return self.finish(self.start(port, user, password, database), lines)


class CommandLine(Library):
    """The mariadb command line, whose output is read: `-vv` echoes each statement, and refusals name the line."""

    def start(self, port, user, password, database, *choices, stdin=subprocess.PIPE):
        words = ["-h", "127.0.0.1", "-P", str(port), "-u", user, *([f"-p{password}"] if password else []), *([database] if database else [])]
        call = ["mariadb", "--no-defaults", *choices, "--batch", "--force", "--unbuffered", "-vv", *words]
        return subprocess.Popen(call, stdin=stdin, stdout=subprocess.PIPE, stderr=subprocess.PIPE)

    def finish(self, process, lines, timeout=120):
        typed = ["use " + line[5:] if line.startswith("@use ") else line.rstrip(";") for line in lines]
        output, errors = outputs_of_process(process, [text + ";" for text in typed], timeout)
        refusals, general = {}, []
        for line in errors.decode().splitlines():
            at = re.fullmatch(r"(ERROR \d+ \(.{5}\)) at line (\d+): (.*)", line)
            if at:
                refusals[int(at[2])] = [f"{at[1]}: {at[3]}"]
            else:
                general.append(line)
        if general:
            return [general]
        texts = outputs_of(typed, output.decode("latin-1").splitlines())
        return [refusals.get(number) or texts.get(number, ["ok 0"]) for number in range(1, len(typed) + 1)]


def cell(text):
    """A value of batch mode, with bytes that aren't plain as \\x and two digits."""
    text = re.sub(r"\\(.)", lambda it: {"n": "\n", "t": "\t", "0": "\0"}.get(it[1], it[1]), text)
    return "".join(it if " " <= it <= "~" and it not in "'\\" else f"\\x{ord(it):02x}" for it in text)


def outcome_of(lines):
    for line in reversed(lines):
        if count := re.match(r"Query OK, (\d+) row", line):
            return [f"ok {count[1]}"]
        if line.startswith("Empty set"):
            return ["rows 0"]
        if count := re.match(r"(\d+) rows? in set", line):
            rows = lines[1 : lines.index(line)]
            return ["|".join(map(cell, row.split("\t"))) for row in rows] + [f"rows {count[1]}"]
    return ["no outcome: " + " / ".join(lines)]


def outputs_of(typed, output):
    """What follows the echo of each statement, by the statement's number."""
    rule, found, at = "-" * 14, {}, 0
    for number, text in enumerate(typed, 1):
        echo = [rule, text, rule, ""]
        if output[at : at + 4] != echo:
            continue
        at += 4
        begin = at
        while at < len(output) and output[at] not in (rule, "Bye"):
            at += 1
        found[number] = outcome_of(output[begin:at])
    return found


def script(program, name, *words):
    return (program, str(HERE / name), *words)


# With their defaults: these run `steps`.
CALLS = ("@off", "@on", "@begin", "@commit", "@rollback", "@other")
VALUES = ("@bind", "@typed")
JAR = "/usr/share/java/mariadb-java-client.jar"
NODE = ("env", "NODE_PATH=/usr/share/nodejs", "node")
BY_DEFAULT = (
    Library("terminal", (*CALLS, "@use"), script(PYTHON, "by_terminal.py"), has_quotes=False),
    Library("PyMySQL", (*CALLS, *VALUES, "@use", "@ping"), script(PYTHON, "by_python.py", "pymysql"), has_states=False),
    Library("MySQLdb", (*CALLS, *VALUES, "@use", "@ping"), script(PYTHON, "by_python.py", "MySQLdb"), has_states=False),
    Library("aiomysql", (*CALLS, *VALUES, "@use", "@ping"), script(PYTHON, "by_python.py", "aiomysql"), has_states=False),
    Library("SQLAlchemy", (*CALLS, *VALUES), script(PYTHON, "by_python.py", "sqlalchemy"), has_states=False),
    Library("go-sql-driver", (*CALLS, "@bind", "@ping", "@readonly"), (str(BUILT / "by_go"),), has_states=False),
    Library("DBD::mysql", (*CALLS, *VALUES, "@ping"), script("perl", "by_dbi.pl", "mysql")),
    Library("DBD::MariaDB", (*CALLS, *VALUES, "@ping"), script("perl", "by_dbi.pl", "MariaDB")),
    Library("Connector/J", (*CALLS, *VALUES, "@use", "@ping"), ("java", "-cp", f"{BUILT}:{JAR}", "ByJava")),
    Library("mysqli", (*CALLS, "@bind", "@use", "@ping", "@readonly"), script("php", "by_php.php", "mysqli")),
    Library("PDO", (*CALLS, *VALUES), script("php", "by_php.php", "PDO")),
    Library("mysql2", (*CALLS, "@bind", "@use", "@ping"), script("ruby", "by_ruby.rb")),
    Library("node mysql", (*CALLS, *VALUES, "@ping"), (*NODE, str(HERE / "by_node.js")), is_exact=False),
    Library("LuaSQL", CALLS, script("lua5.4", "by_lua.lua"), has_numbers=False, has_states=False, has_quotes=False),
    Library("C", (*CALLS, "@bind", "@use", "@ping"), (str(BUILT / "by_c"),)),
    Library("mysqltcl", (*CALLS, "@use", "@ping"), script("tclsh", "by_tcl.tcl"), has_states=False, has_quotes=False),
    Library("RMySQL", CALLS, script("Rscript", "by_r.R"), has_states=False, is_exact=False),
)


def by_name(name, *commands, options=()):
    """One of these with autocommit on, and with the options that it needs for values."""
    library = next(it for it in BY_DEFAULT if it.name == name)
    return dataclasses.replace(library, commands=(*library.commands, *commands), options=options, first=("@on",))


# These run `statements`, and all the rest.
COMMAND_LINE = CommandLine("mariadb", ("@use",), has_quotes=False)
PYMYSQL = by_name("PyMySQL")
GO = by_name("go-sql-driver", "@typed", "@bytes", "@prepare", options=("?interpolateParams=true",))
DBD_MYSQL = by_name("DBD::mysql", "@prepare")
DBD_MARIADB = by_name("DBD::MariaDB", "@prepare")
# These run `statements` too. SQLAlchemy 1.4 doesn't: it sends COMMIT after each write that isn't in a transaction of its own.
ALSO = tuple(by_name(it.name) for it in BY_DEFAULT if it.name not in ("PyMySQL", "go-sql-driver", "DBD::mysql", "DBD::MariaDB", "SQLAlchemy"))

# These run the list `prepared`. Who has no call for long data doesn't send it.
PREPARED_CALLS = ("@bind", "@keep", "@kept", "@pause", "@begin", "@commit", "@rollback", "@other")
PREPARED = (
    Library("prepared go-sql-driver", PREPARED_CALLS, (str(BUILT / "by_go"),), ("bytes",), has_states=False),
    Library("prepared Connector/J", (*PREPARED_CALLS, "@long"), ("java", "-cp", f"{BUILT}:{JAR}", "ByJava"), ("?useServerPrepStmts=true",)),
    Library("prepared mysqli", (*PREPARED_CALLS, "@long"), script("php", "by_php.php", "Prepared")),
    Library("prepared PDO", PREPARED_CALLS, script("php", "by_php.php", "PreparedPDO")),
    Library("prepared mysql2", PREPARED_CALLS, script("ruby", "by_ruby.rb"), ("bytes",)),
    Library("prepared C", (*PREPARED_CALLS, "@long"), (str(BUILT / "by_c_prepared"),)),
    Library("pyodbc", PREPARED_CALLS, script(PYTHON, "by_odbc.py")),
    Library("tdbc::mysql", PREPARED_CALLS, script("tclsh", "by_tdbc.tcl")),
    Library("lua-dbi", PREPARED_CALLS, script("lua5.4", "by_lua_dbi.lua"), has_numbers=False, has_states=False, has_quotes=False, is_exact=False),
)

# The packages of Debian that each needs.
PACKAGES = {
    "mariadb": ("mariadb-client",),
    "terminal": ("mariadb-client",),
    "PyMySQL": ("python3-pymysql",),
    "MySQLdb": ("python3-mysqldb",),
    "aiomysql": ("python3-aiomysql",),
    "SQLAlchemy": ("python3-sqlalchemy", "python3-pymysql"),
    "go-sql-driver": ("golang-go", "golang-github-go-sql-driver-mysql-dev"),
    "DBD::mysql": ("libdbd-mysql-perl",),
    "DBD::MariaDB": ("libdbd-mariadb-perl",),
    "Connector/J": ("libmariadb-java",),
    "mysqli": ("php-cli", "php-mysql"),
    "PDO": ("php-cli", "php-mysql"),
    "mysql2": ("ruby", "ruby-mysql2"),
    "node mysql": ("nodejs", "node-mysql"),
    "LuaSQL": ("lua5.4", "lua-sql-mysql"),
    "C": ("gcc", "libmariadb-dev"),
    "mysqltcl": ("tcl8.6", "mysqltcl"),
    "peewee": ("python3-peewee", "python3-pymysql"),
    "Django": ("python3-django", "python3-mysqldb"),
    "pyodbc": ("python3-pyodbc", "odbc-mariadb"),
    "Sequel": ("ruby", "ruby-sequel", "ruby-mysql2"),
    "tdbc::mysql": ("tcl8.6", "tcl8.6-tdbc-mysql"),
    "RMySQL": ("r-base-core", "r-cran-rmysql"),
    "lua-dbi": ("lua5.4", "lua-dbi-mysql"),
}

# How the compiled ones are made.
C_FLAGS = "$(mariadb_config --cflags) $(mariadb_config --libs)"
BUILDS = {
    "go-sql-driver": f"cd {HERE}/go_sql_driver && GO111MODULE=off GOPATH=/usr/share/gocode go build -o {BUILT}/by_go .",
    "Connector/J": f"javac -d {BUILT} {HERE}/ByJava.java",
    "C": " && ".join(f"gcc -Wall -Wextra -Werror -O1 {HERE}/{it}.c -o {BUILT}/{it} {C_FLAGS}" for it in ("by_c", "by_c_prepared")),
}


def run(*call):
    return subprocess.run(call, stdout=subprocess.PIPE, stderr=subprocess.STDOUT, text=True)


def apt_get(*words):
    as_root = () if os.geteuid() == 0 else ("sudo",)
    return run(*as_root, "env", "DEBIAN_FRONTEND=noninteractive", "apt-get", *words)


def make_ready():
    """Installs the packages, and compiles the clients that need it. Returns what went wrong, by the client's name."""
    lacks = lambda packages: [it for it in packages if run("dpkg", "-s", it).returncode]
    if lacking := lacks({it for packages in PACKAGES.values() for it in packages}):
        apt_get("update", "-qq")
        install = ("install", "-y", "-qq", "--no-install-recommends")
        if apt_get(*install, *lacking).returncode:
            for each in lacking:
                apt_get(*install, each)
    wrong = {name: f"no package {' '.join(lacking)}" for name, packages in PACKAGES.items() if (lacking := lacks(packages))}
    for name, command in BUILDS.items():
        if name not in wrong and (built := run("bash", "-c", command)).returncode:
            wrong[name] = built.stdout
    return wrong
