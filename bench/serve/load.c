/* A client that asks as fast as it is answered, over blocking sockets, one thread a connection, with the least of MySQL's protocol; and an
   echo that answers the same requests with bytes that it was given. Called by measure.py.

   load fill PORT USER PASSWORD DATABASE ROWS          puts so many rows into the table t, and 100 into the table few
   load reply PORT USER PASSWORD DATABASE ROWS KIND    writes the bytes of the reply to one statement of a kind
   load run PORT USER PASSWORD DATABASE ROWS KIND CONNECTIONS SECONDS
                                                       prints statements or transactions a second, the 50th and 99th of 100 latencies in
                                                       nanoseconds, how many of 1000 transactions were given up for a conflict, the 999th
                                                       of 1000 latencies and the longest
   load echo PORT POINT INSERT UPDATE SCATTER          answers requests with the bytes of these files, by their kind
   A USER of - is none: the connection begins with the first statement. */
#include <arpa/inet.h>
#include <fcntl.h>
#include <netinet/tcp.h>
#include <pthread.h>
#include <signal.h>
#include <stdint.h>
#include <stdio.h>
#include <stdlib.h>
#include <string.h>
#include <sys/socket.h>
#include <time.h>
#include <unistd.h>

enum { FIRST_ID = 100000, FIRST_INSERTED = 10000000, FEW = 100, SHARDS = 4, AT_ONCE = 500, BUFFER = 1 << 16 };
enum kind { POINT, INSERT, UPDATE, SCATTER, MIX, TRANSACTION, FIRST, AMONG, SORTED, GROUPS, ROWS, KINDS };
static const char *const names[KINDS] = {"point", "insert", "update", "scatter", "mix", "transaction", "first", "among", "sorted", "groups", "rows"};

static void fail(const char *what) {
    perror(what);
    exit(1);
}

static void refuse(const char *what) {
    fprintf(stderr, "%s\n", what);
    exit(1);
}

static uint64_t now(void) {
    struct timespec at;
    clock_gettime(CLOCK_MONOTONIC, &at);
    return (uint64_t)at.tv_sec * 1000000000u + at.tv_nsec;
}

static void write_all(int to, const void *data, size_t length) {
    for (const char *at = data; length > 0;) {
        ssize_t n = write(to, at, length);
        if (n <= 0)
            fail("write");
        at += n, length -= n;
    }
}

/* What a connection has read and not yet looked at. */
struct connection {
    int socket;
    size_t begin, end;
    unsigned char bytes[BUFFER];
};

/* Has at least this many bytes read; 0 where the other side has closed. */
static int await(struct connection *it, size_t wanted) {
    if (it->begin > 0 && it->begin + wanted > BUFFER) {
        memmove(it->bytes, it->bytes + it->begin, it->end - it->begin);
        it->end -= it->begin, it->begin = 0;
    }
    if (wanted > BUFFER)
        refuse("a packet is too long for this client");
    while (it->end - it->begin < wanted) {
        ssize_t n = read(it->socket, it->bytes + it->end, BUFFER - it->end);
        if (n <= 0)
            return 0;
        it->end += n;
    }
    return 1;
}

/* The next payload, which stands until the next call; NULL where the other side has closed. */
static unsigned char *next_payload(struct connection *it, size_t *length) {
    if (!await(it, 4))
        return NULL;
    unsigned char *header = it->bytes + it->begin;
    *length = header[0] | header[1] << 8 | header[2] << 16;
    if (!await(it, 4 + *length))
        return NULL;
    unsigned char *payload = it->bytes + it->begin + 4;
    it->begin += 4 + *length;
    return payload;
}

static unsigned char *payload_of(struct connection *it, size_t *length) {
    unsigned char *payload = next_payload(it, length);
    if (!payload)
        refuse("the server closed the connection");
    return payload;
}

static void must_be_no_error(const unsigned char *payload, size_t length) {
    if (payload[0] == 0xff) {
        fprintf(stderr, "refused: %.*s\n", (int)length - 3, payload + 3);
        exit(1);
    }
}

enum { CONFLICT = 1213 };

/* Reads a whole reply, whose result sets have EOF packets; 0 where it tells a conflict, which ends its transaction. */
static int read_reply_or_conflict(struct connection *it) {
    size_t length;
    unsigned char *payload = payload_of(it, &length);
    if (payload[0] == 0xff && (payload[1] | payload[2] << 8) == CONFLICT)
        return 0;
    must_be_no_error(payload, length);
    if (payload[0] == 0)
        return 1;
    for (int ends = 0; ends < 2;) {
        payload = payload_of(it, &length);
        must_be_no_error(payload, length);
        ends += payload[0] == 0xfe && length < 9;
    }
    return 1;
}

static void read_reply(struct connection *it) {
    if (!read_reply_or_conflict(it))
        refuse("a conflict outside a transaction");
}

static uint32_t turned(uint32_t word, int by) { return word << by | word >> (32 - by); }

static void sha1_block(uint32_t state[5], const unsigned char block[64]) {
    uint32_t w[80], a = state[0], b = state[1], c = state[2], d = state[3], e = state[4];
    for (int i = 0; i < 16; i++)
        w[i] = (uint32_t)block[4 * i] << 24 | block[4 * i + 1] << 16 | block[4 * i + 2] << 8 | block[4 * i + 3];
    for (int i = 16; i < 80; i++)
        w[i] = turned(w[i - 3] ^ w[i - 8] ^ w[i - 14] ^ w[i - 16], 1);
    for (int i = 0; i < 80; i++) {
        uint32_t f = i < 20 ? (b & c) | (~b & d) : i < 40 || i >= 60 ? b ^ c ^ d : (b & c) | (b & d) | (c & d);
        uint32_t k = i < 20 ? 0x5a827999 : i < 40 ? 0x6ed9eba1 : i < 60 ? 0x8f1bbcdc : 0xca62c1d6;
        uint32_t next = turned(a, 5) + f + e + k + w[i];
        e = d, d = c, c = turned(b, 30), b = a, a = next;
    }
    state[0] += a, state[1] += b, state[2] += c, state[3] += d, state[4] += e;
}

/* SHA-1 of at most 55 bytes. */
static void sha1(const unsigned char *data, size_t length, unsigned char digest[20]) {
    uint32_t state[5] = {0x67452301, 0xefcdab89, 0x98badcfe, 0x10325476, 0xc3d2e1f0};
    unsigned char block[64] = {0};
    if (length > 55)
        refuse("a password of more than 55 bytes");
    memcpy(block, data, length);
    block[length] = 0x80;
    block[62] = length >> 5, block[63] = length << 3;
    sha1_block(state, block);
    for (int i = 0; i < 20; i++)
        digest[i] = state[i / 4] >> (24 - 8 * (i % 4));
}

static void native_password(const char *password, const unsigned char salt[20], unsigned char answer[20]) {
    unsigned char once[20], twice[20], both[40], mask[20];
    sha1((const unsigned char *)password, strlen(password), once);
    sha1(once, 20, twice);
    memcpy(both, salt, 20);
    memcpy(both + 20, twice, 20);
    sha1(both, 40, mask);
    for (int i = 0; i < 20; i++)
        answer[i] = once[i] ^ mask[i];
}

struct place {
    int port;
    const char *user, *password, *database;
};

/* How many rows the table t has. */
static unsigned rows_of_t;

/* LONG_PASSWORD, CONNECT_WITH_DB, PROTOCOL_41, TRANSACTIONS, SECURE_CONNECTION */
enum { CAPABILITIES = 0x1 | 0x8 | 0x200 | 0x2000 | 0x8000 };

static void login(struct connection *it, const struct place *place) {
    size_t length;
    unsigned char *greeting = payload_of(it, &length), salt[20], out[512] = {0}, *at = out + 4;
    must_be_no_error(greeting, length);
    unsigned char *rest = greeting + 1 + strlen((char *)greeting + 1) + 1 + 4;
    memcpy(salt, rest, 8);
    memcpy(salt + 8, rest + 8 + 1 + 2 + 1 + 2 + 2 + 1 + 10, 12);
    for (int i = 0; i < 4; i++)
        at[i] = (unsigned)CAPABILITIES >> 8 * i;
    at[7] = 1, at[8] = 63, at += 32;
    at = (unsigned char *)stpcpy((char *)at, place->user) + 1;
    if (place->password[0]) {
        *at++ = 20;
        native_password(place->password, salt, at);
        at += 20;
    } else {
        *at++ = 0;
    }
    at = (unsigned char *)stpcpy((char *)at, place->database) + 1;
    length = at - out - 4;
    out[0] = length, out[1] = length >> 8, out[3] = 1;
    write_all(it->socket, out, length + 4);
    unsigned char *answer = payload_of(it, &length);
    must_be_no_error(answer, length);
    if (answer[0] != 0)
        refuse("the server asks for another plugin");
}

static struct connection *open_connection(const struct place *place) {
    struct sockaddr_in address = {.sin_family = AF_INET, .sin_port = htons(place->port), .sin_addr.s_addr = htonl(INADDR_LOOPBACK)};
    struct connection *it = malloc(sizeof *it);
    int one = 1;
    it->socket = socket(AF_INET, SOCK_STREAM, 0), it->begin = it->end = 0;
    if (it->socket < 0 || connect(it->socket, (struct sockaddr *)&address, sizeof address))
        fail("connect");
    setsockopt(it->socket, IPPROTO_TCP, TCP_NODELAY, &one, sizeof one);
    if (strcmp(place->user, "-"))
        login(it, place);
    return it;
}

static void close_connection(struct connection *it) {
    static const unsigned char quit[] = {1, 0, 0, 0, 1};
    write_all(it->socket, quit, sizeof quit);
    close(it->socket);
    free(it);
}

/* Sends a COM_QUERY, once all before it was read. `out` has five bytes before the text. */
static void send_query(struct connection *it, unsigned char *out, size_t text) {
    size_t length = text + 1;
    if (it->begin != it->end)
        refuse("more bytes than the reply");
    it->begin = it->end = 0;
    out[0] = length, out[1] = length >> 8, out[2] = length >> 16, out[3] = 0, out[4] = 3;
    write_all(it->socket, out, length + 4);
}

/* xorshift64 */
static uint64_t next_random(uint64_t *state) {
    *state ^= *state << 13, *state ^= *state >> 7, *state ^= *state << 17;
    return *state;
}

/* Values have four digits and ids six, so that all replies of a kind have one length. */
static uint64_t random_id(uint64_t *state) { return FIRST_ID + next_random(state) % rows_of_t; }
static uint64_t random_value(uint64_t *state) { return 1000 + next_random(state) % 9000; }

/* Of 20 statements of a mix 16 are points, 2 updates, 1 an insert and 1 a scatter. */
static enum kind of_mix(uint64_t *state) {
    uint64_t n = next_random(state) % 20;
    return n < 16 ? POINT : n < 18 ? UPDATE : n < 19 ? INSERT : SCATTER;
}

static size_t put_text(char *out, size_t room, enum kind kind, uint64_t *state, uint64_t *next_id, uint64_t step) {
    switch (kind == MIX ? of_mix(state) : kind) {
    case POINT:
        return snprintf(out, room, "SELECT c FROM t WHERE id = %llu", (unsigned long long)random_id(state));
    case INSERT:
        *next_id += step;
        return snprintf(out, room, "INSERT INTO t (id, c) VALUES (%llu, 1000)", (unsigned long long)*next_id);
    case UPDATE: {
        unsigned long long value = random_value(state);
        return snprintf(out, room, "UPDATE t SET c = %llu WHERE id = %llu", value, (unsigned long long)random_id(state));
    }
    case FIRST:
        return snprintf(out, room, "SELECT id, c FROM t LIMIT 10");
    case AMONG: {
        unsigned long long one = random_id(state), other = random_id(state);
        return snprintf(out, room, "SELECT id, c FROM t WHERE id IN (%llu, %llu)", one, other);
    }
    case SORTED:
        return snprintf(out, room, "SELECT id, c FROM t ORDER BY c, id LIMIT 10");
    case GROUPS:
        return snprintf(out, room, "SELECT c, COUNT(*) FROM t GROUP BY c");
    case ROWS:
        return snprintf(out, room, "SELECT id, c FROM t");
    default:
        return snprintf(out, room, "SELECT id, c FROM few ORDER BY c, id LIMIT 10");
    }
}

static enum kind kind_of_text(const unsigned char *text) {
    return text[0] == 'I' ? INSERT : text[0] == 'U' ? UPDATE : text[7] == 'c' ? POINT : SCATTER;
}

/* One INSERT for many rows whose ids leave the same remainder, and so lie on one shard. */
static void fill_table(struct connection *it, const char *table, unsigned first, unsigned rows) {
    unsigned char *out = malloc(BUFFER);
    char *text = (char *)out + 5;
    for (unsigned shard = 0; shard < SHARDS; shard++) {
        for (unsigned id = first + shard; id < first + rows;) {
            size_t at = snprintf(text, BUFFER - 5, "INSERT INTO %s (id, c) VALUES ", table);
            for (int n = 0; n < AT_ONCE && id < first + rows; n++, id += SHARDS)
                at += snprintf(text + at, BUFFER - 5 - at, "%s(%u, %u)", n ? ", " : "", id, 1000 + id * 7919 % 9000);
            send_query(it, out, at);
            read_reply(it);
        }
    }
    free(out);
}

static void fill(const struct place *place) {
    struct connection *it = open_connection(place);
    fill_table(it, "t", FIRST_ID, rows_of_t);
    fill_table(it, "few", FIRST_ID, FEW);
    close_connection(it);
}

static enum kind kind_of(const char *name) {
    for (int kind = 0; kind < KINDS; kind++)
        if (!strcmp(name, names[kind]))
            return kind;
    refuse("no such kind");
    return KINDS;
}

static void show_reply(const struct place *place, enum kind kind) {
    struct connection *it = open_connection(place);
    unsigned char out[256];
    uint64_t state = 88172645463325252u, next_id = 0;
    send_query(it, out, put_text((char *)out + 5, sizeof out - 5, kind, &state, &next_id, FIRST_INSERTED - 1));
    read_reply(it);
    write_all(1, it->bytes, it->end);
    close_connection(it);
}

/* What a thread asks, and what it found. */
struct asker {
    struct connection *connection;
    enum kind kind;
    unsigned number, step;
    uint32_t *latencies;
    size_t count, room, conflicts;
};

static pthread_barrier_t ready;
static volatile uint64_t measured_from, measured_to;

static void note(struct asker *asker, uint64_t nanoseconds) {
    if (asker->count == asker->room) {
        asker->room = asker->room ? asker->room * 2 : 1 << 16;
        asker->latencies = realloc(asker->latencies, asker->room * sizeof *asker->latencies);
    }
    asker->latencies[asker->count++] = nanoseconds > UINT32_MAX ? UINT32_MAX : nanoseconds;
}

static int asked(struct asker *asker, unsigned char *out, size_t text) {
    send_query(asker->connection, out, text);
    return read_reply_or_conflict(asker->connection);
}

/* Reads a row by its key in a transaction and changes it there; 0 where that was given up for a conflict. */
static int transact(struct asker *asker, unsigned char *out, size_t room, uint64_t *state) {
    char *text = (char *)out + 5;
    unsigned long long id = random_id(state), value = random_value(state);
    return asked(asker, out, snprintf(text, room, "BEGIN"))
        && asked(asker, out, snprintf(text, room, "SELECT c FROM t WHERE id = %llu", id))
        && asked(asker, out, snprintf(text, room, "UPDATE t SET c = %llu WHERE id = %llu", value, id))
        && asked(asker, out, snprintf(text, room, "COMMIT"));
}

static int ask_one(struct asker *asker, unsigned char *out, size_t room, uint64_t *state, uint64_t *next_id) {
    if (asker->kind == TRANSACTION)
        return transact(asker, out, room, state);
    send_query(asker->connection, out, put_text((char *)out + 5, room, asker->kind, state, next_id, asker->step));
    read_reply(asker->connection);
    return 1;
}

static void *ask(void *data) {
    struct asker *asker = data;
    uint64_t state = 88172645463325252u * (asker->number + 1), next_id = FIRST_INSERTED + asker->number;
    unsigned char out[256];
    pthread_barrier_wait(&ready);
    pthread_barrier_wait(&ready);
    for (uint64_t begin = now(); begin < measured_to;) {
        int done = ask_one(asker, out, sizeof out - 5, &state, &next_id);
        uint64_t end = now();
        if (begin >= measured_from && end <= measured_to) {
            if (done)
                note(asker, end - begin);
            else
                asker->conflicts++;
        }
        begin = end;
    }
    return NULL;
}

static int compare(const void *a, const void *b) {
    uint32_t x = *(const uint32_t *)a, y = *(const uint32_t *)b;
    return (x > y) - (x < y);
}

static void print_results(struct asker *askers, unsigned count, double seconds) {
    size_t total = 0, conflicts = 0;
    for (unsigned i = 0; i < count; i++)
        total += askers[i].count, conflicts += askers[i].conflicts;
    uint32_t *all = malloc((total + 1) * sizeof *all), *at = all;
    for (unsigned i = 0; i < count; i++)
        at = (uint32_t *)mempcpy(at, askers[i].latencies, askers[i].count * sizeof *all);
    qsort(all, total, sizeof *all, compare);
    if (total == 0)
        refuse("no statement was answered in time");
    printf("%.0f %u %u %zu %u %u\n", total / seconds, all[total / 2], all[total * 99 / 100], conflicts * 1000 / (total + conflicts),
        all[total * 999 / 1000], all[total - 1]);
    free(all);
}

static void run(const struct place *place, enum kind kind, unsigned connections, double seconds) {
    struct asker *askers = calloc(connections, sizeof *askers);
    pthread_t *threads = calloc(connections, sizeof *threads);
    pthread_barrier_init(&ready, NULL, connections + 1);
    for (unsigned i = 0; i < connections; i++) {
        askers[i] = (struct asker){.connection = open_connection(place), .kind = kind, .number = i, .step = connections};
        pthread_create(&threads[i], NULL, ask, &askers[i]);
    }
    pthread_barrier_wait(&ready);
    measured_from = now() + (uint64_t)(seconds * 0.25e9);
    measured_to = measured_from + (uint64_t)(seconds * 1e9);
    pthread_barrier_wait(&ready);
    for (unsigned i = 0; i < connections; i++)
        pthread_join(threads[i], NULL);
    print_results(askers, connections, seconds);
    for (unsigned i = 0; i < connections; i++)
        close_connection(askers[i].connection);
}

/* The bytes that the echo answers with. */
static struct {
    unsigned char *bytes;
    size_t length;
} replies[MIX];

static void *echo_connection(void *data) {
    struct connection *it = data;
    size_t length;
    for (unsigned char *payload; (payload = next_payload(it, &length)) && payload[0] == 3;) {
        enum kind kind = kind_of_text(payload + 1);
        write_all(it->socket, replies[kind].bytes, replies[kind].length);
    }
    close(it->socket);
    free(it);
    return NULL;
}

static void read_file(const char *name, enum kind kind) {
    int file = open(name, O_RDONLY);
    replies[kind].bytes = malloc(BUFFER);
    ssize_t n = file < 0 ? -1 : read(file, replies[kind].bytes, BUFFER);
    if (n <= 0)
        fail(name);
    replies[kind].length = n;
    close(file);
}

static void echo(int port) {
    struct sockaddr_in address = {.sin_family = AF_INET, .sin_port = htons(port), .sin_addr.s_addr = htonl(INADDR_LOOPBACK)};
    int listener = socket(AF_INET, SOCK_STREAM, 0), one = 1;
    setsockopt(listener, SOL_SOCKET, SO_REUSEADDR, &one, sizeof one);
    if (bind(listener, (struct sockaddr *)&address, sizeof address) || listen(listener, 128))
        fail("bind");
    puts("listening");
    fflush(stdout);
    for (;;) {
        struct connection *it = malloc(sizeof *it);
        pthread_t thread;
        it->begin = it->end = 0;
        it->socket = accept(listener, NULL, NULL);
        if (it->socket < 0)
            fail("accept");
        setsockopt(it->socket, IPPROTO_TCP, TCP_NODELAY, &one, sizeof one);
        pthread_create(&thread, NULL, echo_connection, it);
        pthread_detach(thread);
    }
}

int main(int count, char **words) {
    signal(SIGPIPE, SIG_IGN);
    if (count == 7 && !strcmp(words[1], "echo")) {
        for (int kind = 0; kind < MIX; kind++)
            read_file(words[3 + kind], kind);
        echo(atoi(words[2]));
    }
    if (count < 7)
        refuse("usage: load fill|reply|run|echo ..");
    struct place place = {atoi(words[2]), words[3], words[4], words[5]};
    rows_of_t = atoi(words[6]);
    if (rows_of_t == 0 || rows_of_t > 900000)
        refuse("1 to 900000 rows");
    if (count == 7 && !strcmp(words[1], "fill"))
        fill(&place);
    else if (count == 8 && !strcmp(words[1], "reply"))
        show_reply(&place, kind_of(words[7]));
    else if (count == 10 && !strcmp(words[1], "run"))
        run(&place, kind_of(words[7]), atoi(words[8]), atof(words[9]));
    else
        refuse("usage: load fill|reply|run|echo ..");
    return 0;
}
