"""The router and MariaDB's server over the tables of one VSchema."""

import json
import pathlib
import shutil
import subprocess
import sys
import time

sys.path.insert(0, str(pathlib.Path(__file__).resolve().parents[1] / "clients"))

from router import USER, free_ports

PASSWORD = "some password"


def tables_of(schema):
    """The tables of a VSchema: name, and what MySQL makes it by."""
    found = []
    for keyspace in json.loads(schema.read_text())["keyspaces"].values():
        for name, table in keyspace["tables"].items():
            columns = [f"`{it['name']}` {it['type']}{'' if it.get('null') else ' NOT NULL'}" for it in table["columns"]]
            key = ", ".join(f"`{it}`" for it in table["primary_key"])
            found.append((name, f"CREATE TABLE `{name}` ({', '.join(columns)}, PRIMARY KEY ({key})) ENGINE=InnoDB"))
    return found


def sharded_keyspace(schema):
    """The name of the sharded keyspace: clients connect to it."""
    return next(name for name, it in json.loads(schema.read_text())["keyspaces"].items() if it["sharded"])


class MariaDB:
    """A server of its own in a folder, with a database for each VSchema that it is given."""

    def __init__(self, work):
        self.port = free_ports(1)[0]
        self.socket = work / "mariadb.sock"
        data, log = work / "mariadb", work / "mariadb.log"
        choices = [f"--datadir={data}", "--user=root", "--auth-root-authentication-method=normal", "--skip-test-db"]
        subprocess.run(["mariadb-install-db", "--no-defaults", *choices], check=True, stdout=subprocess.DEVNULL, stderr=subprocess.DEVNULL)
        choices = [
            f"--datadir={data}", f"--socket={self.socket}", f"--port={self.port}", "--bind-address=127.0.0.1", "--user=root",
            "--skip-name-resolve", "--skip-log-bin", "--performance-schema=OFF", "--innodb-flush-log-at-trx-commit=0",
            "--innodb-buffer-pool-size=32M", "--innodb-log-file-size=16M", f"--pid-file={work / 'mariadb.pid'}",
        ]
        out = log.open("w")
        server = shutil.which("mariadbd") or "/usr/sbin/mariadbd"
        self.process = subprocess.Popen([server, "--no-defaults", *choices], stdin=subprocess.DEVNULL, stdout=out, stderr=out)
        self.client = ["mariadb", "--no-defaults", f"--socket={self.socket}", "-u", "root"]
        for _ in range(300):
            if subprocess.run([*self.client, "-e", "SELECT 1"], capture_output=True).returncode == 0:
                break
            time.sleep(0.1)
        else:
            sys.exit(log.read_text())
        user = f"{USER}@'127.0.0.1'"
        self.statement(f"CREATE USER {user} IDENTIFIED BY '{PASSWORD}'; GRANT ALL ON *.* TO {user}")

    def statement(self, text):
        subprocess.run([*self.client, "-e", text], check=True)

    def make(self, schema):
        """A database with the tables of a VSchema, empty."""
        database = sharded_keyspace(schema)
        tables = "; ".join(text for _, text in tables_of(schema))
        self.statement(f"DROP DATABASE IF EXISTS {database}; CREATE DATABASE {database}; USE {database}; {tables}")
        return database

    def stop(self):
        if self.process.poll() is None:
            self.process.kill()
        self.process.wait()
