//usr/bin/env GO111MODULE=off GOPATH=/usr/share/gocode go run "$0" "$@"; exit $?

// Moves an amount from one row to another of the same shard, and begins again if another session was faster.
//
// Usage: examples/again.go [PORT]
// A shell runs the first line, and go takes it for a comment. It goes with examples/serve.sh, and needs go-sql-driver/mysql (Debian: golang-go, golang-github-go-sql-driver-mysql-dev).
package main

import (
	"database/sql"
	"errors"
	"fmt"
	"log"
	"os"

	"github.com/go-sql-driver/mysql"
)

func move(db *sql.DB, here, there, amount uint64) error {
	tx, err := db.Begin()
	if err != nil {
		return err
	}
	// It does nothing after a COMMIT.
	defer tx.Rollback()
	var left, held uint64
	if err := tx.QueryRow("SELECT c FROM t WHERE id = ?", here).Scan(&left); err != nil {
		return err
	}
	if err := tx.QueryRow("SELECT c FROM t WHERE id = ?", there).Scan(&held); err != nil {
		return err
	}
	if _, err := tx.Exec("UPDATE t SET c = ? WHERE id = ?", left-amount, here); err != nil {
		return err
	}
	if _, err := tx.Exec("UPDATE t SET c = ? WHERE id = ?", held+amount, there); err != nil {
		return err
	}
	return tx.Commit()
}

// isToTryAgain tells whether the transaction is over with nothing kept: another session changed a table that it used, or its shard was replaced.
func isToTryAgain(err error) bool {
	var told *mysql.MySQLError
	return errors.As(err, &told) && (told.Number == 1213 || told.Number == 1105 && told.Message == "shard moved")
}

func moveInTheEnd(db *sql.DB, here, there, amount uint64) error {
	var err error
	for tries := 0; tries < 10; tries++ {
		if err = move(db, here, there, amount); !isToTryAgain(err) {
			return err
		}
	}
	return fmt.Errorf("tried ten times: %w", err)
}

func main() {
	port := "3306"
	if len(os.Args) > 1 {
		port = os.Args[1]
	}
	// A statement with arguments is a prepared one.
	db, err := sql.Open("mysql", "app@tcp(127.0.0.1:"+port+")/shop")
	if err != nil {
		log.Fatal(err)
	}
	defer db.Close()
	// The lowest bits of an id decide its shard: 8 and 16 lie on one, also after -40 was split into -20 and 20-40.
	for _, text := range []string{"DELETE FROM t WHERE id = 8", "DELETE FROM t WHERE id = 16", "INSERT INTO t VALUES (8, 100), (16, 0)"} {
		if _, err := db.Exec(text); err != nil {
			log.Fatal(err)
		}
	}
	if err := moveInTheEnd(db, 8, 16, 30); err != nil {
		log.Fatal(err)
	}
	rows, err := db.Query("SELECT id, c FROM t WHERE id IN (8, 16) ORDER BY id")
	if err != nil {
		log.Fatal(err)
	}
	defer rows.Close()
	for rows.Next() {
		var id, c uint64
		if err := rows.Scan(&id, &c); err != nil {
			log.Fatal(err)
		}
		fmt.Println(id, c)
	}
	if err := rows.Err(); err != nil {
		log.Fatal(err)
	}
}
