// The threads of a run: who runs, who waits for what, and who comes next.
#define _GNU_SOURCE
#include "schedule.h"
#include <dlfcn.h>
#include <errno.h>
#include <linux/futex.h>
#include <poll.h>
#include <signal.h>
#include <stdatomic.h>
#include <stdlib.h>
#include <string.h>
#include <sys/syscall.h>
#include <unistd.h>

struct world world;
__thread struct thread *self __attribute__((tls_model("initial-exec")));

long raw(long number, long a, long b, long c, long d, long e, long f) {
    long result;
    register long r10 __asm__("r10") = d;
    register long r8 __asm__("r8") = e;
    register long r9 __asm__("r9") = f;
    __asm__ volatile("syscall"
                     : "=a"(result)
                     : "a"(number), "D"(a), "S"(b), "d"(c), "r"(r10), "r"(r8), "r"(r9)
                     : "rcx", "r11", "memory");
    return result;
}

long told(long result) {
    if (result >= 0 || result < -4095)
        return result;
    errno = (int)-result;
    return -1;
}

// A number from 0, less than `below`, by splitmix64.
uint64_t draw(uint64_t below) {
    uint64_t it = (world.dice += 0x9e3779b97f4a7c15);
    it = (it ^ (it >> 30)) * 0xbf58476d1ce4e5b9;
    it = (it ^ (it >> 27)) * 0x94d049bb133111eb;
    return (it ^ (it >> 31)) % below;
}

static const char *name_of(const struct thread *thread, char *room, size_t size) {
    if (thread->client)
        return client_name(thread, room, size);
    snprintf(room, size, thread->number ? "thread %d" : "main", thread->number);
    return room;
}

static void tell_threads(FILE *out) {
    static const char *const states[] = {"may run", "waits for a futex", "waits for a file", "sleeps", "waits for an end", "has ended"};
    for (int i = 0; i < world.count; i++) {
        char room[40];
        struct thread *it = &world.threads[i];
        if (it->state == ENDED)
            continue;
        fprintf(out, "thread %s: %s, at %s", name_of(it, room, sizeof room), states[it->state], it->at ? it->at : "its start");
        if (it->state == AT_FILE)
            fprintf(out, " of file %d", it->file);
        if (it->state == AT_END_OF)
            fprintf(out, " of thread %d", it->other->number);
        fprintf(out, it->deadline == NEVER ? "\n" : ", until %.6f s\n", (double)it->deadline / SECOND);
    }
}

// Writes what the run came to, for whoever started it.
static void tell(const char *end) {
    FILE *out = world.out ? fopen(world.out, "w") : NULL;
    if (!out)
        return;
    fprintf(out, "end %s\nsteps %ld\nhash %016lx\nclock %ld\ndice %lu\n", end, world.steps, world.hash, world.now, world.dice);
    tell_threads(out);
    tell_clients(out);
    fclose(out);
}

void fail(const char *why) {
    self->is_inside = true;
    tell(why);
    if (world.trace)
        fclose(world.trace);
    raw(SYS_exit_group, 97, 0, 0, 0, 0, 0);
    __builtin_unreachable();
}

// Ends the process as a kill does: nothing of it goes on, and what it has given to the system stays. So clients still get the
// replies that had gone out.
static _Noreturn void die(void) {
    read_what_is_left();
    self->is_inside = true;
    tell("a kill");
    if (world.trace) {
        fprintf(world.trace, "%ld %.6f killed\n", world.steps, (double)world.now / SECOND);
        fclose(world.trace);
    }
    raw(SYS_kill, raw(SYS_getpid, 0, 0, 0, 0, 0, 0), SIGKILL, 0, 0, 0, 0);
    for (;;)
        raw(SYS_pause, 0, 0, 0, 0, 0, 0);
}

bool dies_next(void) { return world.kill && world.steps + 1 >= world.kill; }

void note_reply(void) {
    if (++world.replies == world.kill_reply)
        world.kill = world.steps + 1;
}

// A process that is to be killed has nothing to wait for once its last client is gone.
static void note_last_client(void) {
    if (!--world.playing && (world.kill || world.kill_reply)) {
        long soon = world.steps + 1 + (long)draw(SOON);
        if (!world.kill || soon < world.kill)
            world.kill = soon;
    }
}

void has_moved(void) { world.idle = 0; }

void files_are_new(void) { world.are_files_new = true; }

// Finds who may go on of those that wait for files, without taking what is there.
static void look_at_files(void) {
    struct pollfd files[MOST_THREADS];
    struct thread *who[MOST_THREADS];
    int count = 0;
    for (int i = 0; i < world.count; i++) {
        struct thread *it = &world.threads[i];
        if (it->state != AT_FILE)
            continue;
        files[count] = (struct pollfd){.fd = it->file, .events = it->events};
        who[count++] = it;
    }
    world.are_files_new = false;
    if (!count || raw(SYS_poll, (long)files, count, 0, 0, 0, 0) <= 0)
        return;
    for (int i = 0; i < count; i++)
        if (files[i].revents)
            who[i]->state = READY;
}

static void end_waits_until_now(void) {
    for (int i = 0; i < world.count; i++) {
        struct thread *it = &world.threads[i];
        if (it->state == READY || it->state == ENDED || it->deadline > world.now)
            continue;
        it->state = READY;
        it->is_late = true;
    }
}

static int64_t next_deadline(void) {
    int64_t next = NEVER;
    for (int i = 0; i < world.count; i++) {
        struct thread *it = &world.threads[i];
        if (it->state != READY && it->state != ENDED && it->deadline < next)
            next = it->deadline;
    }
    return next;
}

static int may_run(struct thread *ready[]) {
    int count = 0;
    if (world.are_files_new)
        look_at_files();
    end_waits_until_now();
    for (int i = 0; i < world.count; i++)
        if (world.threads[i].state == READY)
            ready[count++] = &world.threads[i];
    return count;
}

// Sets the clock to the next deadline. Nobody else moves meanwhile if nobody may run: when that lasts too long it is a hang.
static void pass_time(bool is_idle) {
    int64_t next = next_deadline();
    if (next == NEVER) {
        if (is_idle)
            fail("no thread can run");
        return;
    }
    if (is_idle && next > world.now) {
        world.idle += next - world.now;
        if (world.idle > PATIENCE)
            fail("nothing moves");
    }
    if (next > world.now)
        world.now = next;
}

static struct thread *highest(struct thread *ready[], int count) {
    struct thread *best = ready[0];
    for (int i = 1; i < count; i++)
        if (ready[i]->rank > best->rank)
            best = ready[i];
    return best;
}

static struct thread *drawn(struct thread *ready[], int count) {
    switch (world.manner) {
    case BY_RANK:
    case BY_RESTLESS_RANK:
        return highest(ready, count);
    case STAYING:
        if (self->state == READY && draw(16))
            return self;
        return ready[draw((uint64_t)count)];
    default:
        return ready[draw((uint64_t)count)];
    }
}

// The thread that runs next. Now and then the clock runs ahead though somebody could go on, as on a machine that is slow.
static struct thread *next_thread(void) {
    struct thread *ready[MOST_THREADS];
    int count = may_run(ready);
    if (count && draw(1024) == 0) {
        pass_time(false);
        count = may_run(ready);
    }
    while (!count) {
        pass_time(true);
        world.are_files_new = true;
        count = may_run(ready);
    }
    return drawn(ready, count);
}

static void wait_for_baton(struct thread *me) {
    while (!__atomic_exchange_n(&me->baton, 0, __ATOMIC_ACQUIRE))
        raw(SYS_futex, (long)&me->baton, FUTEX_WAIT_PRIVATE, 0, 0, 0, 0);
    // What a thread does at its end, after the last point, is over before another one goes on.
    while (world.leaving && raw(SYS_tgkill, getpid(), world.leaving, 0, 0, 0, 0) == 0)
        raw(SYS_sched_yield, 0, 0, 0, 0, 0, 0);
    world.leaving = 0;
}

static void give_baton(struct thread *next) {
    __atomic_store_n(&next->baton, 1, __ATOMIC_RELEASE);
    raw(SYS_futex, (long)&next->baton, FUTEX_WAKE_PRIVATE, 1, 0, 0, 0);
}

static void note_choice(struct thread *me, struct thread *next) {
    const char *letters = me->at;
    world.hash = (world.hash ^ (uint64_t)next->number) * 0x100000001b3;
    for (; *letters; letters++)
        world.hash = (world.hash ^ (uint64_t)*letters) * 0x100000001b3;
    if (world.trace) {
        char mine[40], its[40];
        fprintf(world.trace, "%ld %.6f %s: %s -> %s\n", world.steps, (double)world.now / SECOND,
                name_of(me, mine, sizeof mine), me->at, name_of(next, its, sizeof its));
    }
}

// One choice: whoever runs next takes over.
static struct thread *choose(const char *what) {
    struct thread *me = self;
    me->at = what;
    me->is_inside = true;
    world.steps++;
    world.now += 1000; // a microsecond for each step
    if (world.kill && world.steps >= world.kill)
        die();
    if (world.steps > MOST_STEPS)
        fail("no end after so many steps");
    if (world.change && draw(world.change) == 0)
        me->rank = --world.lowest;
    struct thread *next = next_thread();
    note_choice(me, next);
    me->is_inside = false;
    return next;
}

static void go_on_by(struct thread *next) {
    struct thread *me = self;
    if (next != me) {
        give_baton(next);
        wait_for_baton(me);
    }
}

void point(const char *what) {
    if (!self || self->is_inside || !world.is_on)
        return;
    int kept = errno;
    go_on_by(choose(what));
    errno = kept;
}

// A point of a thread that has nothing to do but to let others go on. By ranks alone it would go on for ever.
void point_yielding(const char *what) {
    if (self && !self->is_inside)
        self->rank = --world.lowest;
    point(what);
}

void wait_at(enum state state, const char *what, int64_t deadline) {
    struct thread *me = self;
    int kept = errno;
    me->state = state;
    me->deadline = deadline;
    me->is_late = false;
    go_on_by(choose(what));
    me->deadline = NEVER;
    errno = kept;
}

void wait_for_file(int file, short events, const char *what, int64_t deadline) {
    self->file = file;
    self->events = events;
    world.are_files_new = true;
    wait_at(AT_FILE, what, deadline);
}

void wait_for_end_of(struct thread *other) {
    self->other = other;
    if (other->state != ENDED)
        wait_at(AT_END_OF, "join", NEVER);
}

static void end_thread(struct thread *me) {
    me->state = ENDED;
    for (int i = 0; i < world.count; i++)
        if (world.threads[i].state == AT_END_OF && world.threads[i].other == me)
            world.threads[i].state = READY;
    if (me->client) {
        has_moved();
        note_last_client();
    }
    struct thread *next = choose("end");
    world.leaving = me->id;
    self = NULL;
    give_baton(next);
}

static void *run_thread(void *thread) {
    struct thread *me = thread;
    self = me;
    me->id = (pid_t)raw(SYS_gettid, 0, 0, 0, 0, 0, 0);
    wait_for_baton(me);
    void *result = me->start(me->argument);
    end_thread(me);
    return result;
}

static struct thread *new_thread(void) {
    if (world.count == MOST_THREADS)
        fail("too many threads");
    struct thread *it = &world.threads[world.count];
    *it = (struct thread){.number = world.count, .state = READY, .rank = (int64_t)draw(1 << 20), .deadline = NEVER};
    world.count++;
    return it;
}

int make_thread(pthread_t *handle, const pthread_attr_t *how, void *(*start)(void *), void *argument, struct client *client) {
    int (*next)(pthread_t *, const pthread_attr_t *, void *(*)(void *), void *) = dlsym(RTLD_NEXT, "pthread_create");
    struct thread *it = new_thread();
    it->start = start;
    it->argument = argument;
    it->client = client;
    self->is_inside = true;
    int status = next(handle, how, run_thread, it);
    self->is_inside = false;
    if (status)
        it->state = ENDED;
    it->handle = *handle;
    it->is_joined = status != 0;
    return status;
}

int join_thread(struct thread *other, void **result) {
    int (*next)(pthread_t, void **) = dlsym(RTLD_NEXT, "pthread_join");
    point("join");
    if (other->state != ENDED) {
        self->other = other;
        wait_at(AT_END_OF, "join", NEVER);
    }
    other->is_joined = true;
    self->is_inside = true;
    int status = next(other->handle, result);
    self->is_inside = false;
    return status;
}

static const char *word(const char *name) {
    const char *value = getenv(name);
    return value && *value ? value : NULL;
}

static void seed_dice(const char *seed) {
    world.dice = strtoull(seed, NULL, 10);
    draw(2); // near seeds do not begin alike
    world.manner = (enum manner)draw(MANNERS);
    world.change = world.manner == BY_RANK ? 20000 : world.manner == BY_RESTLESS_RANK ? 300 : 0;
    world.hash = 0xcbf29ce484222325;
}

static int64_t number(const char *name) {
    const char *value = word(name);
    return value ? strtoll(value, NULL, 10) : 0;
}

// One thread runs at a time, and on one processor it takes over from the last one sooner.
static void stay_on(const char *processor) {
    unsigned long set[16] = {0};
    unsigned long number = strtoul(processor, NULL, 10) % 1024;
    set[number / 64] = 1UL << number % 64;
    raw(SYS_sched_setaffinity, 0, sizeof set, (long)set, 0, 0, 0);
}

__attribute__((constructor)) static void begin(void) {
    if (!word("SEED"))
        return;
    if (word("PROCESSOR"))
        stay_on(word("PROCESSOR"));
    look_at_program();
    if (word("STOPS"))
        put_stops(word("STOPS"));
    seed_dice(word("SEED"));
    world.now = number("CLOCK");
    world.kill = number("KILL_STEP");
    world.kill_reply = number("KILL_REPLY");
    world.out = word("OUT");
    if (word("CLIENTS"))
        read_clients(word("CLIENTS"));
    if (word("TRACE"))
        world.trace = fopen(word("TRACE"), "a");
    unsetenv("LD_PRELOAD");
    self = new_thread();
    self->id = getpid();
    self->handle = pthread_self();
    world.is_on = true;
}

// The program has come to its own end: its clients come to theirs too.
__attribute__((destructor)) void end_run(void) {
    if (!world.is_on || !self)
        return;
    await_clients();
    world.is_on = false;
    world.threads[0].state = ENDED;
    tell("itself");
    if (world.trace)
        fclose(world.trace);
}
