/* A client of many connections on few threads: each thread waits for the replies to all of its connections at once. What it says, and what it takes for
   an answer, are those of bench/serve/load.c. Called by measure.py.

   many run PORT USER PASSWORD DATABASE ROWS KIND CONNECTIONS SECONDS FIRST
       prints statements a second, and the 500th, 990th and 999th of 1000 latencies in nanoseconds. FIRST: rows are inserted from there on
   many hold PORT USER PASSWORD DATABASE ROWS CONNECTIONS
       has so many connections log in, prints `held`, and closes them once its input ends
   many storm PORT USER PASSWORD DATABASE ROWS CONNECTIONS
       has so many connections log in at the same time; prints the nanoseconds until the last has, the 500th and 990th of 1000 logins, and how many
       aren't logged in after PATIENCE seconds: a connection that the system has dropped from a full queue waits for its greeting for ever */
#define main main_of_serve
#include "../serve/load.c"
#undef main
#include <sys/epoll.h>
#include <sys/resource.h>

enum { MOST_THREADS = 4, EVENTS = 64, STACK = 1 << 17, PATIENCE = 20 };

/* A connection that is asked again as soon as it has answered. */
struct busy {
    struct connection *connection;
    uint64_t state, next_id, begin;
};

struct group {
    struct busy *busy;
    unsigned count, connections;
    struct asker found;
};

static enum kind asked_kind;

static void send_next(struct group *group, struct busy *it) {
    unsigned char out[256];
    size_t text = put_text((char *)out + 5, sizeof out - 5, asked_kind, &it->state, &it->next_id, group->connections);
    it->begin = now();
    send_query(it->connection, out, text);
}

static void take_answer(struct group *group, struct busy *it) {
    read_reply(it->connection);
    uint64_t end = now();
    if (it->begin >= measured_from && end <= measured_to)
        note(&group->found, end - it->begin);
    if (end < measured_to)
        send_next(group, it);
    else
        group->count--;
}

/* Has all of a group's connections asked, and waits for each that answers. A single one is read from without waiting for events. */
static void *ask_group(void *data) {
    struct group *group = data;
    struct epoll_event events[EVENTS];
    unsigned count = group->count;
    int set = epoll_create1(0);
    for (unsigned i = 0; i < count; i++) {
        struct epoll_event event = {.events = EPOLLIN, .data.ptr = &group->busy[i]};
        if (set < 0 || epoll_ctl(set, EPOLL_CTL_ADD, group->busy[i].connection->socket, &event))
            fail("epoll");
    }
    pthread_barrier_wait(&ready);
    pthread_barrier_wait(&ready);
    for (unsigned i = 0; i < count; i++)
        send_next(group, &group->busy[i]);
    while (group->count > 0) {
        int told = count == 1 ? 1 : epoll_wait(set, events, EVENTS, 20000);
        if (told <= 0)
            refuse("no answer within 20 s");
        for (int i = 0; i < told; i++)
            take_answer(group, count == 1 ? group->busy : events[i].data.ptr);
    }
    close(set);
    return NULL;
}

static void make_group(struct group *group, const struct place *place, unsigned first, unsigned count, unsigned connections, uint64_t first_id) {
    *group = (struct group){calloc(count, sizeof *group->busy), count, connections, {0}};
    for (unsigned i = 0; i < count; i++) {
        uint64_t number = first + i;
        group->busy[i] = (struct busy){open_connection(place), 88172645463325252u * (number + 1), first_id + number, 0};
    }
}

static void print_found(struct group *groups, unsigned count, double seconds) {
    size_t total = 0;
    for (unsigned i = 0; i < count; i++)
        total += groups[i].found.count;
    uint32_t *all = malloc((total + 1) * sizeof *all), *at = all;
    for (unsigned i = 0; i < count; i++)
        at = (uint32_t *)mempcpy(at, groups[i].found.latencies, groups[i].found.count * sizeof *all);
    qsort(all, total, sizeof *all, compare);
    if (total == 0)
        refuse("no statement was answered in time");
    printf("%.0f %u %u %u\n", total / seconds, all[total / 2], all[total * 99 / 100], all[total * 999 / 1000]);
}

static void run_many(const struct place *place, unsigned connections, double seconds, uint64_t first_id) {
    unsigned count = connections < MOST_THREADS ? connections : MOST_THREADS;
    struct group groups[MOST_THREADS];
    pthread_t threads[MOST_THREADS];
    pthread_barrier_init(&ready, NULL, count + 1);
    for (unsigned i = 0; i < count; i++) {
        unsigned first = connections * i / count, after = connections * (i + 1) / count;
        make_group(&groups[i], place, first, after - first, connections, first_id);
        pthread_create(&threads[i], NULL, ask_group, &groups[i]);
    }
    pthread_barrier_wait(&ready);
    measured_from = now() + (uint64_t)(seconds * 0.25e9);
    measured_to = measured_from + (uint64_t)(seconds * 1e9);
    pthread_barrier_wait(&ready);
    for (unsigned i = 0; i < count; i++)
        pthread_join(threads[i], NULL);
    print_found(groups, count, seconds);
}

static void hold(const struct place *place, unsigned connections) {
    char byte;
    for (unsigned i = 0; i < connections; i++)
        open_connection(place);
    puts("held");
    fflush(stdout);
    while (read(0, &byte, 1) > 0)
        ;
}

static const struct place *stormed;
static uint64_t stormed_from;
static unsigned logged_in;

static void *log_in_now(void *taken) {
    pthread_barrier_wait(&ready);
    open_connection(stormed);
    *(uint32_t *)taken = now() - stormed_from;
    __atomic_add_fetch(&logged_in, 1, __ATOMIC_ACQ_REL);
    return NULL;
}

static void storm(const struct place *place, unsigned connections) {
    uint32_t *taken = calloc(connections, sizeof *taken);
    pthread_attr_t attributes;
    pthread_attr_init(&attributes);
    pthread_attr_setstacksize(&attributes, STACK);
    pthread_barrier_init(&ready, NULL, connections + 1);
    stormed = place;
    for (unsigned i = 0; i < connections; i++) {
        pthread_t thread;
        if (pthread_create(&thread, &attributes, log_in_now, &taken[i]))
            refuse("no thread");
        pthread_detach(thread);
    }
    stormed_from = now();
    pthread_barrier_wait(&ready);
    while (__atomic_load_n(&logged_in, __ATOMIC_ACQUIRE) < connections && now() < stormed_from + PATIENCE * 1000000000ull)
        usleep(1000);
    unsigned lost = connections - __atomic_load_n(&logged_in, __ATOMIC_ACQUIRE);
    for (unsigned i = 0; i < connections; i++)
        if (taken[i] == 0)
            taken[i] = UINT32_MAX;
    qsort(taken, connections, sizeof *taken, compare);
    printf("%u %u %u %u\n", taken[connections - 1], taken[connections / 2], taken[connections * 99ul / 100], lost);
}

int main(int count, char **words) {
    struct rlimit files;
    signal(SIGPIPE, SIG_IGN);
    getrlimit(RLIMIT_NOFILE, &files);
    files.rlim_cur = files.rlim_max;
    setrlimit(RLIMIT_NOFILE, &files);
    if (count < 8)
        refuse("usage: many run|hold|storm ..");
    struct place place = {atoi(words[2]), words[3], words[4], words[5]};
    rows_of_t = atoi(words[6]);
    if (count == 11 && !strcmp(words[1], "run")) {
        asked_kind = kind_of(words[7]);
        run_many(&place, atoi(words[8]), atof(words[9]), strtoull(words[10], NULL, 10));
    } else if (count == 8 && !strcmp(words[1], "hold")) {
        hold(&place, atoi(words[7]));
    } else if (count == 8 && !strcmp(words[1], "storm")) {
        storm(&place, atoi(words[7]));
    } else {
        refuse("usage: many run|hold|storm ..");
    }
    return 0;
}
