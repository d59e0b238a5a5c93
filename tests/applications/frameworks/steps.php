<?php
// What the programs of PHP share: how a step is shown.

function number_of(Throwable $error) {
    for ($it = $error; $it; $it = $it->getPrevious()) {
        if ($it instanceof PDOException && isset($it->errorInfo[1])) return $it->errorInfo[1];
        if ($it instanceof mysqli_sql_exception) return $it->getCode();
    }
    return get_class($error) . ' ' . substr($error->getMessage(), 0, 200);
}

function step(string $name, callable $action) {
    try {
        $shown = $action();
        echo "$name: ", is_array($shown) ? implode('|', array_map(fn($it) => $it ?? 'NULL', $shown)) : 'ok', "\n";
    } catch (Throwable $error) {
        echo "$name: ERROR ", number_of($error), "\n";
    }
}
