// Runs the statements on standard input, one a line, by go-sql-driver, and prints the outcome of each, with an empty line after it.
// Usage: PROGRAM PORT USER PASSWORD DATABASE [OPTIONS]
package main

import (
	"bufio"
	"context"
	"database/sql"
	"encoding/json"
	"errors"
	"fmt"
	"os"
	"strconv"
	"strings"

	"github.com/go-sql-driver/mysql"
)

func refused(err error) string {
	var told *mysql.MySQLError
	if errors.As(err, &told) {
		return fmt.Sprintf("ERROR %d: %s", told.Number, told.Message)
	}
	return "ERROR " + err.Error()
}

func value(it sql.RawBytes, isText bool) string {
	if it == nil {
		return "NULL"
	}
	if !isText {
		return string(it)
	}
	var text strings.Builder
	for _, each := range it {
		if each < 0x20 || each > 0x7e || each == '\'' || each == '\\' {
			fmt.Fprintf(&text, "\\x%02x", each)
		} else {
			text.WriteByte(each)
		}
	}
	return "'" + text.String() + "'"
}

func read(rows *sql.Rows) ([]string, error) {
	defer rows.Close()
	kinds, err := rows.ColumnTypes()
	if err != nil {
		return nil, err
	}
	cells := make([]sql.RawBytes, len(kinds))
	places := make([]interface{}, len(kinds))
	for at := range cells {
		places[at] = &cells[at]
	}
	lines := []string{}
	for rows.Next() {
		if err := rows.Scan(places...); err != nil {
			return nil, err
		}
		texts := make([]string, len(cells))
		for at, cell := range cells {
			texts[at] = value(cell, kinds[at].DatabaseTypeName() == "VARBINARY")
		}
		lines = append(lines, strings.Join(texts, "|"))
	}
	return append(lines, fmt.Sprintf("rows %d", len(lines))), rows.Err()
}

func numberOf(number json.Number) interface{} {
	if it, err := number.Int64(); err == nil {
		return it
	}
	it, _ := strconv.ParseUint(number.String(), 10, 64)
	return it
}

// A text whose bytes are the characters of another.
func bytesOf(text string) string {
	bytes := []byte{}
	for _, each := range text {
		bytes = append(bytes, byte(each))
	}
	return string(bytes)
}

// Whether the characters of bound texts are bytes, as in the list `prepared`.
var hasBytes bool

// The text of a line, and the values for it.
func bound(line string) (string, []interface{}, error) {
	if line[0] != '@' {
		return line, nil, nil
	}
	begin, end := strings.Index(line, "["), strings.Index(line+" ", "] ")
	reader := json.NewDecoder(strings.NewReader(line[begin : end+1]))
	reader.UseNumber()
	var values []interface{}
	if err := reader.Decode(&values); err != nil {
		return "", nil, err
	}
	for at, it := range values {
		if number, is := it.(json.Number); is {
			values[at] = numberOf(number)
		} else if text, is := it.(string); is && strings.HasPrefix(line, "@bytes ") {
			values[at] = []byte(text)
		} else if is && hasBytes {
			values[at] = bytesOf(text)
		}
	}
	return strings.TrimPrefix(line[end+1:], " "), values, nil
}

// A connection of its own, its transaction if Begin has begun one, and a prepared statement if it keeps one.
type client struct {
	*sql.Conn
	transaction *sql.Tx
	kept        *sql.Stmt
	hasRows     bool
}

func connected(place string) (*client, error) {
	pool, err := sql.Open("mysql", place)
	if err != nil {
		return nil, err
	}
	connection, err := pool.Conn(context.Background())
	return &client{Conn: connection}, err
}

// What the driver has a call for.
func (connection *client) call(line string) (bool, error) {
	var err error
	switch line {
	case "@ping":
		return true, connection.PingContext(context.Background())
	case "@begin", "@readonly":
		connection.transaction, err = connection.BeginTx(context.Background(), &sql.TxOptions{ReadOnly: line == "@readonly"})
		return true, err
	}
	if connection.transaction == nil || line != "@commit" && line != "@rollback" {
		return false, nil
	}
	transaction := connection.transaction
	connection.transaction = nil
	if line == "@commit" {
		return true, transaction.Commit()
	}
	return true, transaction.Rollback()
}

var texts = map[string]string{"@pause": "ROLLBACK", "@off": "SET autocommit = 0", "@on": "SET autocommit = 1", "@commit": "COMMIT", "@rollback": "ROLLBACK"}

func run(connection *client, line string) ([]string, error) {
	begin := context.Background()
	if is, err := connection.call(line); is || err != nil {
		return []string{"ok 0"}, err
	}
	if text, is := texts[line]; is {
		line = text
	}
	if strings.HasPrefix(line, "@keep ") {
		return []string{"ok 0"}, connection.keep(line[len("@keep "):])
	}
	text, values, err := bound(line)
	if err != nil {
		return nil, err
	}
	if strings.HasPrefix(line, "@prepare ") {
		if err := connection.keep(text); err != nil {
			return nil, err
		}
	}
	if strings.HasPrefix(line, "@prepare ") || strings.HasPrefix(line, "@kept ") {
		if connection.hasRows {
			return rowsOf(connection.kept.QueryContext(begin, values...))
		}
		return countOf(connection.kept.ExecContext(begin, values...))
	}
	if isSelect(text) {
		return rowsOf(connection.QueryContext(begin, text, values...))
	}
	return countOf(connection.ExecContext(begin, text, values...))
}

func isSelect(text string) bool { return strings.HasPrefix(strings.ToUpper(text), "SELECT") }

func (connection *client) keep(text string) (err error) {
	connection.kept, err = connection.PrepareContext(context.Background(), text)
	connection.hasRows = isSelect(text)
	return
}

func rowsOf(rows *sql.Rows, err error) ([]string, error) {
	if err != nil {
		return nil, err
	}
	return read(rows)
}

func countOf(result sql.Result, err error) ([]string, error) {
	if err != nil {
		return nil, err
	}
	count, err := result.RowsAffected()
	return []string{fmt.Sprintf("ok %d", count)}, err
}

func outcome(connection *client, line string) []string {
	lines, err := run(connection, line)
	if err != nil {
		return []string{refused(err)}
	}
	return lines
}

func main() {
	options := strings.Join(os.Args[5:], "")
	if options == "bytes" {
		hasBytes, options = true, ""
	}
	place := fmt.Sprintf("%s:%s@tcp(127.0.0.1:%s)/%s%s", os.Args[2], os.Args[3], os.Args[1], os.Args[4], options)
	first, err := connected(place)
	if err != nil {
		fmt.Println(refused(err))
		os.Exit(1)
	}
	var other *client
	input := bufio.NewScanner(os.Stdin)
	input.Buffer(nil, 1<<21)
	for input.Scan() {
		line := input.Text()
		if !strings.HasPrefix(line, "@other ") {
			fmt.Println(strings.Join(outcome(first, line), "\n") + "\n")
			continue
		}
		if other == nil {
			if other, err = connected(place); err != nil {
				fmt.Println(refused(err))
				os.Exit(1)
			}
		}
		fmt.Println(strings.Join(outcome(other, line[len("@other "):]), "\n") + "\n")
		outcome(other, "COMMIT")
	}
	// without that it would wait for the end of a transaction
	if first.transaction == nil {
		first.Close()
	}
}
