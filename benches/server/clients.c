/* Clients that ask one after another and measure how long each turn takes.
   usage: clients SOCKET CONNECTIONS SECONDS HELLO REQUEST [FOLLOW]

   Each connection has a thread. It sends the line HELLO once, and then REQUEST again and again, and waits for its
   reply; if REQUEST has several lines, it sends them together, and waits for as many replies. With FOLLOW, a turn goes
   on with that line, in which the job's number of the first reply stands for `@`. After each 200 turns it asks,
   unmeasured, that the jobs be retired, if REQUEST brings a job and FOLLOW does not release it. It prints how many turns were
   taken, how many a second while turns were taken, and the 50th and 99th of 100 turns in microseconds. */
#include <pthread.h>
#include <stdio.h>
#include <stdlib.h>
#include <string.h>
#include <sys/socket.h>
#include <sys/un.h>
#include <time.h>
#include <unistd.h>

enum { MOST = 4000000, LINE = 65536, BATCH = 200 };

struct client {
    pthread_t thread;
    int socket;
    size_t turns;
    unsigned *nanoseconds;
    char reply[LINE];
};

static char **said;
static double end_at;

static double now(void) {
    struct timespec it;
    clock_gettime(CLOCK_MONOTONIC, &it);
    return (double)it.tv_sec + 1e-9 * (double)it.tv_nsec;
}

static void stop(const char *why, const char *what) {
    fprintf(stderr, "%s: %s\n", why, what);
    exit(1);
}

static size_t lines_in(const char *text, size_t length) {
    size_t lines = 0;
    for (size_t it = 0; it < length; it++)
        lines += text[it] == '\n';
    return lines;
}

/* Sends lines together and waits for their replies. */
static void ask(struct client *client, const char *lines, size_t length) {
    if (write(client->socket, lines, length) != (ssize_t)length)
        stop("not sent", lines);
    size_t got = 0, owed = lines_in(lines, length);
    while (owed > 0) {
        ssize_t more = read(client->socket, client->reply + got, LINE - 1 - got);
        if (more <= 0)
            stop("no reply", lines);
        owed -= lines_in(client->reply + got, (size_t)more);
        got += (size_t)more;
    }
    client->reply[got] = 0;
    if (strstr(client->reply, "\"error\""))
        stop(lines, client->reply);
}

static void follow(struct client *client, const char *line) {
    char next[LINE];
    const char *job = strstr(client->reply, "\"job\":"), *gap = strchr(line, '@');
    if (!job || !gap)
        stop("no job", client->reply);
    int length = snprintf(next, sizeof next, "%.*s%llu%s\n", (int)(gap - line), line, strtoull(job + 6, NULL, 10), gap + 1);
    ask(client, next, (size_t)length);
}

static size_t ended(char *line, const char *text) {
    return (size_t)snprintf(line, LINE, "%s\n", text);
}

static void *run(void *given) {
    struct client *client = given;
    static const char retire[] = "{\"op\":\"retire\"}\n";
    char hello[LINE], request[LINE];
    size_t hello_length = ended(hello, said[4]), length = ended(request, said[5]);
    int leaves_job = strstr(request, "procs") && !(said[6] && strstr(said[6], "\"release\":true"));
    ask(client, hello, hello_length);
    while (client->turns < MOST && now() < end_at) {
        double begun = now();
        ask(client, request, length);
        if (said[6])
            follow(client, said[6]);
        client->nanoseconds[client->turns++] = (unsigned)(1e9 * (now() - begun));
        if (leaves_job && client->turns % BATCH == 0)
            ask(client, retire, sizeof retire - 1);
    }
    close(client->socket);
    return NULL;
}

static int is_above(const void *a, const void *b) {
    unsigned x = *(const unsigned *)a, y = *(const unsigned *)b;
    return (x > y) - (x < y);
}

static void print_sums(struct client *clients, int count) {
    size_t all = 0;
    for (int it = 0; it < count; it++)
        all += clients[it].turns;
    unsigned *times = malloc((all + 1) * sizeof *times);
    size_t at = 0;
    for (int it = 0; it < count; it++) {
        memcpy(times + at, clients[it].nanoseconds, clients[it].turns * sizeof *times);
        at += clients[it].turns;
    }
    double sum = 0;
    for (size_t it = 0; it < all; it++)
        sum += 1e-9 * times[it];
    qsort(times, all, sizeof *times, is_above);
    printf("%zu %.0f %.1f %.1f\n", all, (double)all / sum * count, times[all / 2] / 1e3, times[all * 99 / 100] / 1e3);
}

int main(int count, char **words) {
    if (count != 6 && count != 7)
        return 2;
    said = words;
    int connections = atoi(words[2]);
    struct client *clients = calloc((size_t)connections, sizeof *clients);
    struct sockaddr_un at = {.sun_family = AF_UNIX};
    strncpy(at.sun_path, words[1], sizeof at.sun_path - 1);
    for (int it = 0; it < connections; it++) {
        clients[it].nanoseconds = malloc(MOST * sizeof(unsigned));
        clients[it].socket = socket(AF_UNIX, SOCK_STREAM, 0);
        if (connect(clients[it].socket, (struct sockaddr *)&at, sizeof at) != 0)
            return 3;
    }
    end_at = now() + atof(words[3]);
    for (int it = 0; it < connections; it++)
        pthread_create(&clients[it].thread, NULL, run, &clients[it]);
    for (int it = 0; it < connections; it++)
        pthread_join(clients[it].thread, NULL);
    print_sums(clients, connections);
    return 0;
}
