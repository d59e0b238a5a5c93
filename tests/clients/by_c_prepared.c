// Runs the list `prepared` on standard input by mysql_stmt_* of the C library (MariaDB Connector/C), and prints the outcome of each line.
// Usage: by_c_prepared PORT USER PASSWORD DATABASE
#include <mysql.h>
#include <stdio.h>
#include <stdlib.h>
#include <string.h>

enum { MOST_VALUES = 8, MOST_COLUMNS = 32, MOST_BYTES = 4096 };

struct value {
    char bytes[MOST_BYTES];
    unsigned long length;
    long long number;
};

static struct value values[MOST_VALUES];
static MYSQL_BIND binds[MOST_VALUES];

static void refused(MYSQL *connection) { printf("ERROR %u (%s): %s\n", mysql_errno(connection), mysql_sqlstate(connection), mysql_error(connection)); }

static void statement_refused(MYSQL_STMT *it) { printf("ERROR %u (%s): %s\n", mysql_stmt_errno(it), mysql_stmt_sqlstate(it), mysql_stmt_error(it)); }

static void done(MYSQL *connection, int failed) {
    if (failed) refused(connection);
    else printf("ok 0\n");
}

// A text of JSON from its quote on, as the bytes of its characters. Returns what follows it.
static const char *read_text(const char *at, struct value *into) {
    into->length = 0;
    for (at++; *at != '"'; at++) {
        char byte = *at;
        if (byte == '\\') {
            at++;
            if (*at == 'u') {
                char digits[5] = {at[1], at[2], at[3], at[4], 0};
                byte = strtol(digits, NULL, 16);
                at += 4;
            } else {
                byte = *at == 'n' ? '\n' : *at;
            }
        }
        into->bytes[into->length++] = byte;
    }
    return at + 1;
}

// Reads the values of a line from its bracket on. Returns how many; `*end` is what follows them.
static unsigned read_values(const char *at, const char **end) {
    unsigned count = 0;
    memset(binds, 0, sizeof binds);
    for (at++; *at != ']'; count++) {
        struct value *it = &values[count];
        MYSQL_BIND *bind = &binds[count];
        if (*at == '"') {
            at = read_text(at, it);
            *bind = (MYSQL_BIND){.buffer_type = MYSQL_TYPE_STRING, .buffer = it->bytes, .buffer_length = it->length, .length = &it->length};
        } else if (*at == 'n') {
            at += strlen("null");
            bind->buffer_type = MYSQL_TYPE_NULL;
        } else {
            char *rest;
            bind->is_unsigned = *at != '-';
            it->number = bind->is_unsigned ? (long long)strtoull(at, &rest, 10) : strtoll(at, &rest, 10);
            at = rest;
            bind->buffer_type = MYSQL_TYPE_LONGLONG;
            bind->buffer = &it->number;
        }
        while (*at == ',' || *at == ' ') at++;
    }
    *end = at[1] ? at + 2 : at + 1;
    return count;
}

static void print_value(const unsigned char *bytes, unsigned long length, int is_text) {
    if (is_text) putchar('\'');
    for (unsigned long at = 0; at < length; at++) {
        if (bytes[at] < 0x20 || bytes[at] > 0x7e || bytes[at] == '\'' || bytes[at] == '\\') printf("\\x%02x", bytes[at]);
        else putchar(bytes[at]);
    }
    if (is_text) putchar('\'');
}

static void print_rows(MYSQL_STMT *statement, MYSQL_RES *columns) {
    static char cells[MOST_COLUMNS][MOST_BYTES];
    unsigned long lengths[MOST_COLUMNS];
    my_bool are_null[MOST_COLUMNS];
    MYSQL_BIND into[MOST_COLUMNS] = {0};
    unsigned width = mysql_num_fields(columns), count = 0;
    MYSQL_FIELD *fields = mysql_fetch_fields(columns);
    for (unsigned at = 0; at < width; at++) {
        into[at] = (MYSQL_BIND){.buffer_type = MYSQL_TYPE_STRING, .buffer = cells[at], .buffer_length = MOST_BYTES, .length = &lengths[at], .is_null = &are_null[at]};
    }
    if (mysql_stmt_bind_result(statement, into)) return statement_refused(statement);
    for (; !mysql_stmt_fetch(statement); count++) {
        for (unsigned at = 0; at < width; at++) {
            if (at) putchar('|');
            if (are_null[at]) printf("NULL");
            else print_value((unsigned char *)cells[at], lengths[at], fields[at].type == MYSQL_TYPE_VAR_STRING);
        }
        putchar('\n');
    }
    printf("rows %u\n", count);
}

// Two pieces for each text.
static int send_long(MYSQL_STMT *statement, unsigned count) {
    for (unsigned at = 0; at < count; at++) {
        unsigned long half = values[at].length / 2;
        if (mysql_stmt_send_long_data(statement, at, values[at].bytes, half)) return 1;
        if (mysql_stmt_send_long_data(statement, at, values[at].bytes + half, values[at].length - half)) return 1;
    }
    return 0;
}

static void execute(MYSQL_STMT *statement, unsigned count, int is_long) {
    for (unsigned at = 0; is_long && at < count; at++) binds[at].buffer_type = MYSQL_TYPE_BLOB;
    if (count && mysql_stmt_bind_param(statement, binds)) return statement_refused(statement);
    if (is_long && send_long(statement, count)) return statement_refused(statement);
    if (mysql_stmt_execute(statement)) return statement_refused(statement);
    MYSQL_RES *columns = mysql_stmt_result_metadata(statement);
    if (!columns) {
        printf("ok %llu\n", (unsigned long long)mysql_stmt_affected_rows(statement));
        return;
    }
    print_rows(statement, columns);
    mysql_free_result(columns);
    mysql_stmt_free_result(statement);
}

static MYSQL_STMT *prepared(MYSQL *connection, const char *text) {
    MYSQL_STMT *statement = mysql_stmt_init(connection);
    if (!mysql_stmt_prepare(statement, text, strlen(text))) return statement;
    statement_refused(statement);
    mysql_stmt_close(statement);
    return NULL;
}

static void run(MYSQL *connection, const char *line) {
    static MYSQL_STMT *kept;
    const char *text, *list = strchr(line, '[');
    if (!strncmp(line, "@keep ", 6)) {
        if (kept) mysql_stmt_close(kept);
        if ((kept = prepared(connection, line + 6))) printf("ok 0\n");
    } else if (!strncmp(line, "@kept ", 6)) {
        execute(kept, read_values(list, &text), 0);
    } else if (!strncmp(line, "@bind ", 6) || !strncmp(line, "@long ", 6)) {
        unsigned count = read_values(list, &text);
        MYSQL_STMT *statement = prepared(connection, text);
        if (!statement) return;
        execute(statement, count, line[1] == 'l');
        mysql_stmt_close(statement);
    } else if (!strcmp(line, "@commit")) {
        done(connection, mysql_commit(connection));
    } else if (!strcmp(line, "@rollback")) {
        done(connection, mysql_rollback(connection));
    } else {
        done(connection, mysql_query(connection, strcmp(line, "@begin") ? "ROLLBACK" : "BEGIN"));
    }
}

static void print_query(MYSQL *connection, const char *text) {
    if (mysql_query(connection, text)) return refused(connection);
    MYSQL_RES *result = mysql_store_result(connection);
    MYSQL_ROW row;
    if (!result) {
        printf("ok %llu\n", (unsigned long long)mysql_affected_rows(connection));
        return;
    }
    while ((row = mysql_fetch_row(result))) printf("%s\n", row[0]);
    printf("rows %llu\n", (unsigned long long)mysql_num_rows(result));
    mysql_free_result(result);
}

static MYSQL *connected(char **words) {
    MYSQL *connection = mysql_init(NULL);
    if (mysql_real_connect(connection, "127.0.0.1", words[2], words[3], words[4], atoi(words[1]), NULL, 0)) return connection;
    refused(connection);
    exit(1);
}

int main(int count, char **words) {
    if (count != 5) return 2;
    MYSQL *client = connected(words), *other = connected(words);
    char *line = NULL;
    size_t room = 0;
    for (ssize_t length; (length = getline(&line, &room, stdin)) > 0;) {
        if (line[length - 1] == '\n') line[length - 1] = 0;
        if (!strncmp(line, "@other ", 7)) print_query(other, line + 7);
        else run(client, line);
        printf("\n");
        fflush(stdout);
    }
    free(line);
    mysql_close(client);
    mysql_close(other);
    return 0;
}
