"""Small programs of frameworks over the router and over MariaDB's server: each shows what its steps return, and the two are compared."""

import pathlib
import subprocess

import pymysql

from servers import PASSWORD, tables_of

from libraries import apt_get, run
from router import USER, Router

HERE = pathlib.Path(__file__).resolve().parent / "frameworks"
SCHEMA, ROWS = HERE / "schema.json", HERE / "rows"
PYTHON = "/usr/bin/python3"

# name: the packages of Debian that it needs, and its call
PROGRAMS = {
    "Django": (("python3-django", "python3-mysqldb"), (PYTHON, "by_django.py")),
    "SQLAlchemy": (("python3-sqlalchemy", "python3-pymysql"), (PYTHON, "by_sqlalchemy.py")),
    "SQLAlchemy's_mapper": (("python3-sqlalchemy", "python3-pymysql"), (PYTHON, "by_sqlalchemy.py", "mapper")),
    "peewee": (("python3-peewee", "python3-pymysql"), (PYTHON, "by_peewee.py")),
    "Laravel": (("php-cli", "php-mysql", "php-illuminate-database"), ("php", "by_laravel.php")),
    "Doctrine": (("php-cli", "php-mysql", "php-doctrine-orm", "php-doctrine-dbal"), ("php", "by_doctrine.php")),
    "Doctrine's_mapper": (("php-cli", "php-mysql", "php-doctrine-orm", "php-symfony-cache"), ("php", "by_doctrine.php", "orm")),
    "ActiveRecord": (("ruby", "ruby-activerecord", "ruby-mysql2"), ("ruby", "by_activerecord.rb")),
    "Sequel": (("ruby", "ruby-sequel", "ruby-mysql2"), ("ruby", "by_sequel.rb")),
    "DBIx::Class": (("libdbix-class-perl", "libdbd-mysql-perl"), ("perl", "by_dbix_class.pl")),
    "sysbench's_scripts": (("sysbench",), (PYTHON, "by_sysbench.py")),
}


def rows():
    return [line for line in ROWS.read_text().splitlines() if line and not line.startswith("#")]


def fill(port, database, first=()):
    connection = pymysql.connect(host="127.0.0.1", port=port, user=USER, password=PASSWORD, database=database, autocommit=True)
    for text in [*first, *rows()]:
        connection.query(text)
    connection.close()


def kept(port, database):
    """What the tables have at the end."""
    connection = pymysql.connect(host="127.0.0.1", port=port, user=USER, password=PASSWORD, database=database, autocommit=True)
    with connection.cursor() as cursor:
        found = []
        for name, _ in tables_of(SCHEMA):
            cursor.execute(f"SELECT * FROM `{name}`")
            found.append((name, sorted(cursor.fetchall())))
    connection.close()
    return found


def shown_by(call, port, database):
    """What each step of a program shows, by the step's name."""
    script = HERE / call[1]
    words = [call[0], str(script), str(port), USER, PASSWORD, database, *call[2:]]
    run = subprocess.run(words, stdin=subprocess.DEVNULL, stdout=subprocess.PIPE, stderr=subprocess.STDOUT, text=True, timeout=120)
    steps, others = {}, []
    for line in run.stdout.splitlines():
        name, colon, shown = line.partition(": ")
        if colon and name.replace(" ", "_").isidentifier():
            steps[name] = shown
        else:
            others.append(line)
    if run.returncode or not steps:
        steps["ends"] = f"status {run.returncode}: {' / '.join(others)[-500:]}"
    return steps


def install_packages():
    """Installs the packages of all programs. Returns the programs that lack one then, and which."""
    wanted = dict.fromkeys(it for packages, _ in PROGRAMS.values() for it in packages)
    for each in lacking(wanted):
        apt_get("install", "-y", "-qq", "--no-install-recommends", each)
    return {name: gone for name, (packages, _) in PROGRAMS.items() if (gone := lacking(packages))}


def lacking(packages):
    return [it for it in packages if run("dpkg", "-s", it).returncode]


def run_frameworks(program, mariadb, marks, check):
    """Runs all. Returns the marks of what is refused now, and by program how many of its steps are as they should be, of how many."""
    refused, counts = {}, {}
    database = mariadb.make(SCHEMA)
    gone = install_packages()
    for name, (_, call) in PROGRAMS.items():
        if name in gone:
            check(f"{name}: no package {' '.join(gone[name])}", False)
            continue
        fill(mariadb.port, database, [f"DELETE FROM `{it}`" for it, _ in tables_of(SCHEMA)])
        there = shown_by(call, mariadb.port, database)
        with Router(program, PASSWORD, schema=SCHEMA) as router:
            fill(router.port, database)
            got = shown_by(call, router.port, database)
            left = kept(router.port, database)
        mine = compare(name, got, there, marks, check)
        if not mine:
            check(f"{name}: what is in the tables", left, kept(mariadb.port, database))
        print(f"{name}: {len(there) - len(mine)} of {len(there)} steps are as MariaDB's server has them", flush=True)
        counts[name] = (len(there) - len(mine), len(there))
        refused |= mine
    return refused, counts


def compare(name, got, there, marks, check):
    refused = {}
    for step, wanted in there.items():
        check(f"{name}, {step}: MariaDB's server", "ERROR" in wanted or step == "ends", False)
        shown = got.get(step, "nothing")
        mark = marks.get((name, step))
        if shown == wanted:
            check(f"{name}, {step}: accepted, and isn't marked", mark, None)
            continue
        words = shown.split()
        number = int(words[1]) if words[0] == "ERROR" and words[1].isdigit() else 0
        refused[name, step] = (number, mark[1] if mark else "new")
        check(f"{name}, {step}: {shown} is not {wanted}", number, mark and mark[0])
    return refused
