#!/usr/bin/env python3
"""Moves an amount from one row to another of the same shard, and begins again where another session was faster.

Usage: examples/again.py [PORT]     while examples/serve.sh runs; needs PyMySQL (Debian: python3-pymysql)
"""
import sys

import pymysql

# The transaction is over and nothing of it was kept: another session changed a table that it used, or its shard was replaced.
CONFLICT, OTHER = 1213, 1105


def move(connection, here, there, amount):
    with connection.cursor() as cursor:
        cursor.execute("BEGIN")
        cursor.execute("SELECT c FROM t WHERE id = %s", (here,))
        (left,) = cursor.fetchone()
        cursor.execute("SELECT c FROM t WHERE id = %s", (there,))
        (held,) = cursor.fetchone()
        cursor.execute("UPDATE t SET c = %s WHERE id = %s", (left - amount, here))
        cursor.execute("UPDATE t SET c = %s WHERE id = %s", (held + amount, there))
        cursor.execute("COMMIT")


def is_to_try_again(error):
    number, message = error.args[:2]
    return number == CONFLICT or (number == OTHER and message == "shard moved")


def move_in_the_end(connection, here, there, amount, tries=10):
    for _ in range(tries):
        try:
            return move(connection, here, there, amount)
        except pymysql.MySQLError as error:
            if not is_to_try_again(error):
                with connection.cursor() as cursor:
                    cursor.execute("ROLLBACK")
                raise
    raise TimeoutError(f"tried {tries} times")


def main():
    port = int(sys.argv[1]) if len(sys.argv) > 1 else 3306
    # autocommit=None: the router commits each statement outside a transaction by itself, and PyMySQL asks for nothing
    connection = pymysql.connect(host="127.0.0.1", port=port, user="app", database="shop", autocommit=None)
    with connection.cursor() as cursor:
        # the lowest bits of an id decide its shard: 8 and 16 lie on one, also after -40 was split into -20 and 20-40
        cursor.execute("DELETE FROM t WHERE id = 8")
        cursor.execute("DELETE FROM t WHERE id = 16")
        cursor.execute("INSERT INTO t VALUES (8, 100), (16, 0)")
    move_in_the_end(connection, 8, 16, 30)
    with connection.cursor() as cursor:
        cursor.execute("SELECT id, c FROM t WHERE id IN (8, 16) ORDER BY id")
        print(*cursor.fetchall())


if __name__ == "__main__":
    main()
