<?php
// Runs the lines on standard input by PHP's mysqli or PDO, and prints the outcome of each, with an empty line after it.
// Usage: by_php.php mysqli|PDO|Prepared|PreparedPDO PORT USER PASSWORD DATABASE   (the last two run the list `prepared`)

function value($it, $is_text) {
    if ($it === null) return 'NULL';
    if (!$is_text) return (string) $it;
    return "'" . preg_replace_callback("/[^\\x20-\\x7e]|['\\\\]/", fn ($found) => sprintf('\x%02x', ord($found[0])), $it) . "'";
}

function shown($rows, $are_texts) {
    $lines = array_map(fn ($row) => implode('|', array_map('value', $row, $are_texts)), $rows);
    return [...$lines, 'rows ' . count($rows)];
}

#[AllowDynamicProperties]
class ByMysqli {
    function __construct($port, $user, $password, $database) {
        $this->connection = new mysqli('127.0.0.1', $user, $password, $database, (int) $port);
    }
    // a call that throws nothing and returns false
    function told($is_done) {
        $told = $this->connection;
        return [$is_done ? 'ok 0' : "in silence ERROR $told->errno ($told->sqlstate): $told->error"];
    }
    function shown($result) {
        if (is_bool($result)) return ['ok ' . $this->connection->affected_rows];
        return shown($result->fetch_all(), array_map(fn ($it) => $it->type == MYSQLI_TYPE_VAR_STRING, $result->fetch_fields()));
    }
    function query($text) { return $this->shown($this->connection->query($text)); }
    function bind($text, $values) { return $this->shown($this->connection->execute_query($text, $values)); }
    function begin() { return $this->told($this->connection->begin_transaction()); }
    function readonly() { return $this->told($this->connection->begin_transaction(MYSQLI_TRANS_START_READ_ONLY)); }
    function commit() { return $this->told($this->connection->commit()); }
    function rollback() { return $this->told($this->connection->rollback()); }
    function off() { return $this->told($this->connection->autocommit(false)); }
    function on() { return $this->told($this->connection->autocommit(true)); }
    function use($name) { return $this->told($this->connection->select_db($name)); }
    function ping() { return $this->told($this->connection->ping()); }
}

#[AllowDynamicProperties]
class ByPDO {
    function __construct($port, $user, $password, $database) {
        $this->connection = new PDO("mysql:host=127.0.0.1;port=$port" . ($database ? ";dbname=$database" : ''), $user, $password);
    }
    function told($is_done) {
        [$state, $number, $message] = $this->connection->errorInfo();
        return [$is_done ? 'ok 0' : "in silence ERROR $number ($state): $message"];
    }
    function shown($result) {
        if (!$result->columnCount()) return ['ok ' . $result->rowCount()];
        $are_texts = [];
        for ($at = 0; $at < $result->columnCount(); $at++) {
            $are_texts[] = $result->getColumnMeta($at)['native_type'] == 'VAR_STRING';
        }
        return shown($result->fetchAll(PDO::FETCH_NUM), $are_texts);
    }
    function query($text) { return $this->shown($this->connection->query($text)); }
    function bind($text, $values) {
        $statement = $this->connection->prepare($text);
        $statement->execute($values);
        return $this->shown($statement);
    }
    function typed($text, $values) {
        $statement = $this->connection->prepare($text);
        foreach ($values as $at => $each) $statement->bindValue($at + 1, $each, is_int($each) ? PDO::PARAM_INT : PDO::PARAM_STR);
        $statement->execute();
        return $this->shown($statement);
    }
    function begin() { return $this->told($this->connection->beginTransaction()); }
    function commit() { return $this->told($this->connection->commit()); }
    function rollback() { return $this->told($this->connection->rollBack()); }
    function off() { return $this->told($this->connection->setAttribute(PDO::ATTR_AUTOCOMMIT, 0)); }
    function on() { return $this->told($this->connection->setAttribute(PDO::ATTR_AUTOCOMMIT, 1)); }
}

// What the characters of a text are as bytes, and values as they are bound: what has no 64 bits with a sign is a text.
function bytes($values) {
    return array_map(fn ($it) => is_string($it) ? iconv('UTF-8', 'ISO-8859-1', $it) : $it, $values);
}

class ByPrepared extends ByMysqli {
    function executed($statement, $values, $is_long = false) {
        $types = implode('', array_map(fn ($it) => is_int($it) ? 'i' : ($is_long ? 'b' : 's'), $values));
        $bound = $is_long ? array_fill(0, count($values), null) : bytes($values);
        if ($values) $statement->bind_param($types, ...$bound);
        foreach ($is_long ? bytes($values) : [] as $at => $each) {
            foreach (str_split($each, 7) as $piece) $statement->send_long_data($at, $piece);
        }
        $statement->execute();
        return $statement->field_count ? $this->shown($statement->get_result()) : ["ok $statement->affected_rows"];
    }
    function bind($text, $values) { return $this->executed($this->connection->prepare($text), $values); }
    function long($text, $values) { return $this->executed($this->connection->prepare($text), $values, true); }
    function keep($text) {
        $this->kept = $this->connection->prepare($text);
        return ['ok 0'];
    }
    function kept($text, $values) { return $this->executed($this->kept, $values); }
    function pause() { return ['ok 0']; }
}

class ByPreparedPDO extends ByPDO {
    function __construct($port, $user, $password, $database) {
        parent::__construct($port, $user, $password, $database);
        $this->connection->setAttribute(PDO::ATTR_EMULATE_PREPARES, false);
    }
    function executed($statement, $values) {
        foreach (bytes($values) as $at => $each) {
            $statement->bindValue($at + 1, $each, is_int($each) ? PDO::PARAM_INT : ($each === null ? PDO::PARAM_NULL : PDO::PARAM_STR));
        }
        $statement->execute();
        return $this->shown($statement);
    }
    function bind($text, $values) { return $this->executed($this->connection->prepare($text), $values); }
    function keep($text) {
        $this->kept = $this->connection->prepare($text);
        return ['ok 0'];
    }
    function kept($text, $values) { return $this->executed($this->kept, $values); }
    function pause() { return ['ok 0']; }
}

function refusal($error) {
    if ($error instanceof mysqli_sql_exception) return ["ERROR {$error->getCode()} ({$error->getSqlState()}): {$error->getMessage()}"];
    if ($error instanceof PDOException && $error->errorInfo) return ["ERROR {$error->errorInfo[1]} ({$error->errorInfo[0]}): {$error->errorInfo[2]}"];
    return ['ERROR ' . $error->getMessage()];
}

function outcome($client, $line) {
    try {
        if ($line[0] != '@') return $client->query($line);
        if (preg_match('/^@(bind|typed|long|kept) (\[.*?\])(?: (.*))?$/', $line, $parts)) {
            return $client->{$parts[1]}($parts[3] ?? '', json_decode($parts[2], false, 9, JSON_BIGINT_AS_STRING));
        }
        [$call, $word] = explode(' ', substr($line, 1) . ' ', 2);
        $word = rtrim($word);
        return $client->$call($word);
    } catch (Exception $error) {
        return refusal($error);
    }
}

[, $name, $port, $user, $password, $database] = $argv;
$made = "By$name";
try {
    $client = new $made($port, $user, $password, $database);
} catch (Exception $error) {
    exit(refusal($error)[0] . "\n");
}
$other = null;
while (($line = fgets(STDIN)) !== false) {
    $line = rtrim($line, "\n");
    if (str_starts_with($line, '@other ')) {
        $other ??= new $made($port, $user, $password, $database);
        $lines = outcome($other, substr($line, 7));
        outcome($other, 'COMMIT');
    } else {
        $lines = outcome($client, $line);
    }
    echo implode("\n", $lines), "\n\n";
}
