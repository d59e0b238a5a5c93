// Runs the lines on standard input by the C library (MariaDB Connector/C), and prints the outcome of each, with an empty line after it.
// Usage: by_c PORT USER PASSWORD DATABASE
#include <mysql.h>
#include <stdio.h>
#include <stdlib.h>
#include <string.h>

static int refused(MYSQL *connection) {
    printf("ERROR %u (%s): %s\n", mysql_errno(connection), mysql_sqlstate(connection), mysql_error(connection));
    return 1;
}

static MYSQL *connected(char **words) {
    MYSQL *connection = mysql_init(NULL);
    if (!mysql_real_connect(connection, "127.0.0.1", words[2], words[3], words[4], atoi(words[1]), NULL, 0)) {
        refused(connection);
        exit(1);
    }
    return connection;
}

static void print_value(const unsigned char *bytes, unsigned long length, int is_text) {
    if (!bytes) {
        printf("NULL");
        return;
    }
    if (is_text) putchar('\'');
    for (unsigned long at = 0; at < length; at++) {
        if (bytes[at] < 0x20 || bytes[at] > 0x7e || bytes[at] == '\'' || bytes[at] == '\\') printf("\\x%02x", bytes[at]);
        else putchar(bytes[at]);
    }
    if (is_text) putchar('\'');
}

static int print_rows(MYSQL_RES *result) {
    unsigned width = mysql_num_fields(result);
    MYSQL_FIELD *fields = mysql_fetch_fields(result);
    MYSQL_ROW row;
    while ((row = mysql_fetch_row(result))) {
        unsigned long *lengths = mysql_fetch_lengths(result);
        for (unsigned at = 0; at < width; at++) {
            if (at) putchar('|');
            print_value((unsigned char *)row[at], lengths[at], fields[at].type == MYSQL_TYPE_VAR_STRING);
        }
        putchar('\n');
    }
    printf("rows %llu\n", (unsigned long long)mysql_num_rows(result));
    mysql_free_result(result);
    return 0;
}

static int executed(MYSQL *connection, const char *text) {
    if (mysql_real_query(connection, text, strlen(text))) return refused(connection);
    MYSQL_RES *result = mysql_store_result(connection);
    if (result) return print_rows(result);
    if (mysql_field_count(connection)) return refused(connection);
    printf("ok %llu\n", (unsigned long long)mysql_affected_rows(connection));
    return 0;
}

static int prepared(MYSQL *connection, const char *text) {
    MYSQL_STMT *statement = mysql_stmt_init(connection);
    if (!mysql_stmt_prepare(statement, text, strlen(text))) printf("prepared\n");
    else printf("ERROR %u (%s): %s\n", mysql_stmt_errno(statement), mysql_stmt_sqlstate(statement), mysql_stmt_error(statement));
    mysql_stmt_close(statement);
    return 0;
}

static int done(MYSQL *connection, int failed) { return failed ? refused(connection) : printf("ok 0\n"); }

static void run(MYSQL *connection, const char *line) {
    if (!strcmp(line, "@off")) done(connection, mysql_autocommit(connection, 0));
    else if (!strcmp(line, "@on")) done(connection, mysql_autocommit(connection, 1));
    else if (!strcmp(line, "@commit")) done(connection, mysql_commit(connection));
    else if (!strcmp(line, "@rollback")) done(connection, mysql_rollback(connection));
    else if (!strcmp(line, "@ping")) done(connection, mysql_ping(connection));
    else if (!strncmp(line, "@use ", 5)) done(connection, mysql_select_db(connection, line + 5));
    else if (!strncmp(line, "@bind ", 6)) prepared(connection, strstr(line, "] ") + 2);
    else executed(connection, strcmp(line, "@begin") ? line : "BEGIN");
}

int main(int count, char **words) {
    if (count != 5) return 2;
    MYSQL *client = connected(words), *other = NULL;
    char *line = NULL;
    size_t room = 0;
    for (ssize_t length; (length = getline(&line, &room, stdin)) > 0;) {
        if (line[length - 1] == '\n') line[length - 1] = 0;
        if (!strncmp(line, "@other ", 7)) {
            if (!other) other = connected(words);
            run(other, line + 7);
            mysql_query(other, "COMMIT");
        } else {
            run(client, line);
        }
        printf("\n");
        fflush(stdout);
    }
    free(line);
    mysql_close(client);
    if (other) mysql_close(other);
    return 0;
}
