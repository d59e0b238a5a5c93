# Runs the lines on standard input by R's RMySQL, and prints the outcome of each, with an empty line after it.
# Usage: Rscript by_r.R PORT USER PASSWORD DATABASE
suppressMessages(library(RMySQL))
words <- commandArgs(trailingOnly = TRUE)

connected <- function() {
    dbConnect(MySQL(), host = "127.0.0.1", port = as.integer(words[1]), username = words[2], password = words[3], dbname = words[4])
}

value <- function(it) {
    if (is.na(it)) return("NULL")
    # numbers are doubles
    if (is.numeric(it)) return(sprintf("%.0f", it))
    bytes <- vapply(as.integer(charToRaw(it)), function(byte) {
        if (byte < 0x20 || byte > 0x7e || byte == 0x27 || byte == 0x5c) sprintf("\\x%02x", byte) else rawToChar(as.raw(byte))
    }, "")
    paste0("'", paste(bytes, collapse = ""), "'")
}

executed <- function(connection, text) {
    result <- suppressWarnings(dbSendQuery(connection, text))
    on.exit(dbClearResult(result))
    if (!grepl("^SELECT", text, ignore.case = TRUE)) return(paste("ok", dbGetRowsAffected(result)))
    rows <- suppressWarnings(dbFetch(result, n = -1))
    lines <- vapply(seq_len(nrow(rows)), function(at) paste(vapply(rows, function(column) value(column[at]), ""), collapse = "|"), "")
    c(lines, paste("rows", nrow(rows)))
}

outcome <- function(connection, line) {
    tryCatch(switch(line,
        "@off" = executed(connection, "SET autocommit = 0"),
        "@on" = executed(connection, "SET autocommit = 1"),
        "@begin" = { stopifnot(dbBegin(connection)); "ok 0" },
        "@commit" = { stopifnot(dbCommit(connection)); "ok 0" },
        "@rollback" = { stopifnot(dbRollback(connection)); "ok 0" },
        executed(connection, line)
    ), error = function(error) {
        told <- dbGetException(connection)
        sprintf("ERROR %d: %s", told$errorNum, told$errorMsg)
    })
}

client <- tryCatch(connected(), error = function(error) {
    cat(sub(".*Error: ", "ERROR ", conditionMessage(error)), "\n", sep = "")
    quit(status = 1)
})
other <- NULL
input <- file("stdin", encoding = "UTF-8")
for (line in readLines(input)) {
    if (startsWith(line, "@other ")) {
        if (is.null(other)) other <- connected()
        lines <- outcome(other, substring(line, 8))
        outcome(other, "COMMIT")
    } else {
        lines <- outcome(client, line)
    }
    cat(lines, "", sep = "\n")
}
close(input)
invisible(dbDisconnect(client))
