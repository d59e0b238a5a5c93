"""sysbench: one event of each of its own scripts over a table that is there. `oltp_insert` needs ids below 0, and `bulk_insert` other tables."""

import re
import subprocess
import sys

PORT, USER, PASSWORD, DATABASE = sys.argv[1:5]
SCRIPTS = (
    "oltp_point_select", "oltp_read_only", "oltp_update_index", "oltp_update_non_index", "oltp_delete",
    "oltp_write_only", "oltp_read_write", "select_random_points", "select_random_ranges",
)  # fmt: skip
PLACE = ("--mysql-host=127.0.0.1", f"--mysql-port={PORT}", f"--mysql-user={USER}", f"--mysql-password={PASSWORD}", f"--mysql-db={DATABASE}")
CHOICES = ("--tables=1", "--table-size=40", "--auto_inc=off", "--threads=1", "--events=1", "--time=20", "--rand-seed=7")

for script in SCRIPTS:
    run = subprocess.run(["sysbench", script, *PLACE, *CHOICES, *sys.argv[5:], "run"], stdout=subprocess.PIPE, stderr=subprocess.STDOUT, text=True)
    error = re.search(r"(?:error|errno|code)\D{0,40}(\d{4})", run.stdout)
    ok = run.returncode == 0 and "FATAL" not in run.stdout
    print(f"{script}: {'ok' if ok else 'ERROR ' + (error[1] if error else run.stdout[-300:])}", flush=True)
