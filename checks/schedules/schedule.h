// What the parts of the library share. It is loaded before the C library, and lets exactly one thread of a program run at
// a time. At each call that it sees, a *point*, the thread that runs hands on to one that it draws by a seed. The clock of
// the program goes on only as the library says, so a seed gives one run, and gives it again.
#pragma once
#include <limits.h>
#include <pthread.h>
#include <stdbool.h>
#include <stdint.h>
#include <stdio.h>
#include <time.h>

enum { MOST_THREADS = 256, MOST_STEPS = 3000000 };
#define NEVER INT64_MAX
#define SECOND 1000000000LL
// How long nothing may move, by the clock of the run, until it counts as a hang.
#define PATIENCE (60 * SECOND)
// How many steps after its last client's a process is killed at the latest, if it is to be.
#define SOON 1000

enum state { READY, AT_FUTEX, AT_FILE, ASLEEP, AT_END_OF, ENDED };

// How the next thread is drawn.
enum manner { BY_CHANCE, BY_RANK, BY_RESTLESS_RANK, STAYING, MANNERS };

struct client;

struct thread {
    int number;
    struct client *client; // none: a thread of the program
    enum state state;
    uint32_t baton; // 1: it may run
    pid_t id;       // the system's number
    pthread_t handle;
    bool is_joined;
    int64_t rank;
    int64_t deadline;
    bool is_late;         // its deadline passed before what it waited for
    const void *address;  // of the futex that it waits for
    int file;             // the file that it waits for,
    short events;         // and what for
    struct thread *other; // whose end it waits for
    bool is_inside;       // it is in a call of the C library that must not be left for another thread
    const char *at;       // the last point
    void *(*start)(void *);
    void *argument;
};

struct world {
    bool is_on, is_checked; // checked: the program is built with AddressSanitizer
    uint64_t dice, hash;
    enum manner manner;
    uint32_t change; // one in so many steps drops the rank of the thread that runs
    int64_t lowest, now, idle;
    long steps;
    long kill;        // the step at which the process is killed; 0: never
    long replies;     // how many parts of replies went out
    long kill_reply;  // after which of these it is killed, from 1 on
    int playing;      // clients that have not come to their ends
    struct thread threads[MOST_THREADS];
    int count;
    bool are_files_new; // a file may have become ready since the last look
    pid_t leaving;      // a thread that has ended here, and may still be there for the system
    uintptr_t base, code, code_end; // of the program itself
    FILE *trace;
    const char *out;
};

extern struct world world;
extern __thread struct thread *self;

// The system's own calls, around those that the library stands before. They return a negative error number.
long raw(long number, long a, long b, long c, long d, long e, long f);
// The same with errno set, as the C library returns it.
long told(long result);

uint64_t draw(uint64_t below);
void point(const char *what);
void point_yielding(const char *what);
// Waits until a thread is woken, or the deadline has passed: then it is late.
void wait_at(enum state state, const char *what, int64_t deadline);
void wait_for_file(int file, short events, const char *what, int64_t deadline);
void wait_for_end_of(struct thread *other);
void has_moved(void);
void files_are_new(void);
// Whether the process is killed at the next point.
bool dies_next(void);
// A part of a reply has gone out.
void note_reply(void);
int make_thread(pthread_t *handle, const pthread_attr_t *how, void *(*start)(void *), void *argument, struct client *client);
int join_thread(struct thread *other, void **result);
void end_run(void);
_Noreturn void fail(const char *why);

// Points at the entries of functions whose addresses a file has.
void put_stops(const char *path);
// Finds the program's own code, and whether it is checked.
void look_at_program(void);

// The clients.
void read_clients(const char *path);
void start_clients(void);
void await_clients(void);
// They get what was sent to them, though the program goes on no more.
void read_what_is_left(void);
void tell_clients(FILE *out);
const char *client_name(const struct thread *thread, char *room, size_t size);
