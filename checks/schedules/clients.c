// The clients of a run: threads of the same program, which play what a file says, and keep what they saw.
#define _GNU_SOURCE
#include "schedule.h"
#include <errno.h>
#include <fcntl.h>
#include <poll.h>
#include <stdarg.h>
#include <stdlib.h>
#include <string.h>
#include <sys/socket.h>
#include <sys/syscall.h>
#include <sys/un.h>
#include <unistd.h>

enum { MOST_CLIENTS = 64, MOST_ACTS = 512, MOST_LINES = 4096 };

struct act {
    char what[16];
    long number;
    char *text; // a path, or what is sent
};

struct client {
    struct act acts[MOST_ACTS];
    int count;
    int socket;
    bool is_over; // nothing more comes
    struct thread *thread;
    char *line; // what has come of the next line
    size_t length;
    int lines;
    unsigned long jobs[MOST_LINES]; // the job that each reply tells of
    char *seen;
    size_t size;
    FILE *story;
};

static struct {
    struct client *all[MOST_CLIENTS];
    int count;
    pthread_t handles[MOST_CLIENTS];
    bool have_begun;
} clients;

const char *client_name(const struct thread *thread, char *room, size_t size) {
    for (int i = 0; i < clients.count; i++)
        if (clients.all[i] == thread->client)
            snprintf(room, size, "client %d", i);
    return room;
}

// -- the file

static void *copy_of(FILE *file, long length) {
    char *text = calloc(1, (size_t)length + 1);
    if (!text || fread(text, 1, (size_t)length, file) != (size_t)length)
        abort();
    return text;
}

static void read_act(struct client *client, FILE *file, const char *line) {
    struct act *act = &client->acts[client->count++];
    char text[200] = "";
    if (client->count == MOST_ACTS || sscanf(line, "%15s %199s", act->what, text) < 1)
        abort();
    act->number = atol(text);
    act->text = strcmp(act->what, "send") ? strdup(text) : copy_of(file, act->number);
}

void read_clients(const char *path) {
    char line[256];
    FILE *file = fopen(path, "r");
    if (!file)
        abort();
    while (fgets(line, sizeof line, file)) {
        if (!strcmp(line, "client\n")) {
            if (clients.count == MOST_CLIENTS)
                abort();
            struct client *client = calloc(1, sizeof *client);
            client->socket = -1;
            client->story = open_memstream(&client->seen, &client->size);
            clients.all[clients.count++] = client;
        } else if (*line != '\n') {
            read_act(clients.all[clients.count - 1], file, line);
        }
    }
    fclose(file);
}

// -- what a client saw, each with the step at which it did

static void note(struct client *me, const char *how, ...) {
    va_list words;
    self->is_inside = true;
    fprintf(me->story, "%ld ", world.steps);
    va_start(words, how);
    vfprintf(me->story, how, words);
    va_end(words);
    fputc('\n', me->story);
    self->is_inside = false;
    has_moved();
}

void tell_clients(FILE *out) {
    for (int i = 0; i < clients.count; i++) {
        fflush(clients.all[i]->story);
        fprintf(out, "client %d\n%s", i, clients.all[i]->seen);
    }
}

// -- acts

static void connect_to(struct client *me, const char *path) {
    struct sockaddr_un where = {.sun_family = AF_UNIX};
    strncpy(where.sun_path, path, sizeof where.sun_path - 1);
    me->socket = (int)raw(SYS_socket, AF_UNIX, SOCK_STREAM | SOCK_CLOEXEC, 0, 0, 0, 0);
    long done = raw(SYS_connect, me->socket, (long)&where, sizeof where, 0, 0, 0);
    files_are_new();
    me->is_over = done < 0;
    note(me, done < 0 ? "refused" : "connected");
}

static void keep_line(struct client *me) {
    if (me->lines == MOST_LINES)
        fail("a client has too many replies");
    const char *job = strstr(me->line, "\"job\":");
    me->jobs[me->lines++] = job ? strtoul(job + 6, NULL, 10) : 0;
    note(me, "< %s", me->line);
    me->length = 0;
}

static void keep_bytes(struct client *me, const char *bytes, long count) {
    for (long i = 0; i < count; i++) {
        self->is_inside = true;
        if (me->length % 4096 == 0)
            me->line = realloc(me->line, me->length + 4096);
        self->is_inside = false;
        me->line[me->length++] = bytes[i] == '\n' ? 0 : bytes[i];
        if (bytes[i] == '\n')
            keep_line(me);
    }
}

// Reads until there are so many replies in all, or nothing more comes.
static void read_lines(struct client *me, long most) {
    char bytes[512];
    while (!me->is_over && me->lines < most) {
        point("client_recv");
        // Now and then a byte or two: a reply may come in parts.
        size_t size = draw(8) ? sizeof bytes : 1 + draw(20);
        long count = raw(SYS_recvfrom, me->socket, (long)bytes, (long)size, MSG_DONTWAIT, 0, 0);
        files_are_new();
        if (count == -EAGAIN) {
            wait_for_file(me->socket, POLLIN, "client_recv", NEVER);
        } else if (count <= 0) {
            me->is_over = true;
            note(me, count ? "cut" : me->length ? "over in a line" : "over");
        } else {
            keep_bytes(me, bytes, count);
        }
    }
}

void read_what_is_left(void) {
    char bytes[512];
    for (int i = 0; i < clients.count; i++) {
        struct client *me = clients.all[i];
        while (me->socket >= 0 && !me->is_over) {
            long count = raw(SYS_recvfrom, me->socket, (long)bytes, sizeof bytes, MSG_DONTWAIT, 0, 0);
            if (count <= 0)
                break;
            keep_bytes(me, bytes, count);
        }
    }
}

// What is sent, with the jobs' numbers: $3 is the one of which the fourth reply told.
static char *with_numbers(struct client *me, const char *text) {
    char *made = NULL;
    size_t size;
    FILE *into = open_memstream(&made, &size);
    while (*text) {
        if (*text != '$') {
            fputc(*text++, into);
            continue;
        }
        char *rest;
        unsigned long reply = strtoul(text + 1, &rest, 10);
        fprintf(into, "%lu", reply < (unsigned long)me->lines ? me->jobs[reply] : 0);
        text = rest;
    }
    fclose(into);
    return made;
}

static void send_text(struct client *me, const char *text) {
    self->is_inside = true;
    char *made = with_numbers(me, text);
    self->is_inside = false;
    size_t length = strlen(made), sent = 0;
    while (sent < length) {
        long count = raw(SYS_sendto, me->socket, (long)made + (long)sent, (long)(length - sent), MSG_DONTWAIT | MSG_NOSIGNAL, 0, 0);
        files_are_new();
        if (count == -EAGAIN)
            wait_for_file(me->socket, POLLOUT, "client_send", NEVER);
        else if (count < 0)
            break;
        else
            sent += (size_t)count;
    }
    note(me, sent == length ? "sent" : "broken");
    free(made);
}

static void close_socket(struct client *me) {
    raw(SYS_close, me->socket, 0, 0, 0, 0, 0);
    files_are_new();
    me->is_over = true;
    note(me, "closed");
}

static void await_those_before(struct client *me) {
    for (int i = 0; clients.all[i] != me; i++)
        wait_for_end_of(clients.all[i]->thread);
}

static void remove_path(struct client *me, const char *path) {
    long done = raw(SYS_unlink, (long)path, 0, 0, 0, 0, 0);
    note(me, done < 0 ? "gone before" : "removed");
}

static void make_file(struct client *me, const char *path) {
    long file = raw(SYS_open, (long)path, O_CREAT | O_WRONLY | O_CLOEXEC, 0600, 0, 0, 0);
    raw(SYS_close, file, 0, 0, 0, 0, 0);
    note(me, "made");
}

static void play_act(struct client *me, const struct act *act) {
    point(act->what);
    if (!strcmp(act->what, "connect"))
        connect_to(me, act->text);
    else if (!strcmp(act->what, "send"))
        send_text(me, act->text);
    else if (!strcmp(act->what, "lines"))
        read_lines(me, act->number);
    else if (!strcmp(act->what, "rest"))
        read_lines(me, LONG_MAX);
    else if (!strcmp(act->what, "sleep"))
        wait_at(ASLEEP, "client_sleep", world.now + act->number * 1000);
    else if (!strcmp(act->what, "close"))
        close_socket(me);
    else if (!strcmp(act->what, "await"))
        await_those_before(me);
    else if (!strcmp(act->what, "remove"))
        remove_path(me, act->text);
    else if (!strcmp(act->what, "make"))
        make_file(me, act->text);
    else if (!strcmp(act->what, "end"))
        raw(SYS_shutdown, me->socket, SHUT_WR, 0, 0, 0, 0), files_are_new();
    else
        fail("a client's act is unknown");
}

static void *play(void *client) {
    struct client *me = client;
    me->thread = self;
    for (int i = 0; i < me->count; i++)
        play_act(me, &me->acts[i]);
    return NULL;
}

void start_clients(void) {
    if (clients.have_begun)
        return;
    clients.have_begun = true;
    int first = world.count;
    for (int i = 0; i < clients.count; i++) {
        if (make_thread(&clients.handles[i], NULL, play, clients.all[i], clients.all[i]))
            fail("a client has no thread");
        clients.all[i]->thread = &world.threads[first + i];
    }
    world.playing = clients.count;
}

void await_clients(void) {
    for (int i = 0; clients.have_begun && i < clients.count; i++)
        join_thread(clients.all[i]->thread, NULL);
}
