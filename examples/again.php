<?php
// Moves an amount from one row to another of the same shard, and begins again where another session was faster.
//
// Usage: php examples/again.php [PORT]     while examples/serve.sh runs; needs PDO (Debian: php-cli, php-mysql)

// The transaction is over and nothing of it was kept: another session changed a table that it used, or its shard was replaced.
const CONFLICT = 1213, OTHER = 1105;

function value_of(PDO $connection, int $id): int {
    $statement = $connection->prepare('SELECT c FROM t WHERE id = ?');
    $statement->bindValue(1, $id, PDO::PARAM_INT);
    $statement->execute();
    return (int) $statement->fetchColumn();
}

function set_value(PDO $connection, int $id, int $value): void {
    $statement = $connection->prepare('UPDATE t SET c = ? WHERE id = ?');
    $statement->bindValue(1, $value, PDO::PARAM_INT);
    $statement->bindValue(2, $id, PDO::PARAM_INT);
    $statement->execute();
}

function move(PDO $connection, int $here, int $there, int $amount): void {
    $connection->beginTransaction();
    [$left, $held] = [value_of($connection, $here), value_of($connection, $there)];
    set_value($connection, $here, $left - $amount);
    set_value($connection, $there, $held + $amount);
    $connection->commit();
}

function is_to_try_again(PDOException $error): bool {
    [, $number, $message] = $error->errorInfo;
    return $number == CONFLICT || $number == OTHER && $message == 'shard moved';
}

function move_in_the_end(PDO $connection, int $here, int $there, int $amount, int $tries = 10): void {
    for ($try = 0; $try < $tries; $try++) {
        try {
            move($connection, $here, $there, $amount);
            return;
        } catch (PDOException $error) {
            // a refusal has no status, so PDO still believes that the transaction is open: without this the next beginTransaction throws
            if ($connection->inTransaction()) $connection->rollBack();
            if (!is_to_try_again($error)) throw $error;
        }
    }
    throw new RuntimeException("tried $tries times");
}

$port = $argv[1] ?? 3306;
$connection = new PDO("mysql:host=127.0.0.1;port=$port;dbname=shop", 'app', '');
// the lowest bits of an id decide its shard: 8 and 16 lie on one, also after -40 was split into -20 and 20-40
$connection->exec('DELETE FROM t WHERE id = 8');
$connection->exec('DELETE FROM t WHERE id = 16');
$connection->exec('INSERT INTO t VALUES (8, 100), (16, 0)');
move_in_the_end($connection, 8, 16, 30);
foreach ($connection->query('SELECT id, c FROM t WHERE id IN (8, 16) ORDER BY id', PDO::FETCH_NUM) as $row) echo implode(' ', $row), "\n";
