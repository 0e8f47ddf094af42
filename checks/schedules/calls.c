// The calls of the C library that are points, and how those that block wait for their turn instead.
#define _GNU_SOURCE
#include "schedule.h"
#include <dlfcn.h>
#include <errno.h>
#include <fcntl.h>
#include <link.h>
#include <linux/futex.h>
#include <poll.h>
#include <stdarg.h>
#include <stddef.h>
#include <stdlib.h>
#include <string.h>
#include <sys/epoll.h>
#include <sys/file.h>
#include <sys/socket.h>
#include <sys/stat.h>
#include <sys/syscall.h>
#include <sys/uio.h>
#include <unistd.h>

static bool is_scheduled(void) { return world.is_on && self && !self->is_inside; }

static bool blocks(int file) { return !(raw(SYS_fcntl, file, F_GETFL, 0, 0, 0, 0) & O_NONBLOCK); }

// AddressSanitizer makes these calls under locks of its own, at which another thread would block.
static void point_unless_checked(const char *what) {
    if (!world.is_checked)
        point(what);
}

// -- futexes: the locks and conditions of the program

static int64_t deadline_of(int how, const struct timespec *until) {
    if (!until || until->tv_sec > INT64_MAX / SECOND / 2)
        return NEVER;
    int64_t time = until->tv_sec * SECOND + until->tv_nsec;
    return how == FUTEX_WAIT ? world.now + time : time;
}

static long wait_at_futex(const uint32_t *word, int how, uint32_t value, const struct timespec *until) {
    int64_t deadline = deadline_of(how, until);
    point("futex_wait");
    if (__atomic_load_n(word, __ATOMIC_SEQ_CST) != value)
        return -EAGAIN;
    self->address = word;
    wait_at(AT_FUTEX, "futex_sleep", deadline);
    return self->is_late ? -ETIMEDOUT : 0;
}

// Wakes so many of those who wait there, whichever the dice say: the system promises no order.
static long wake_at_futex(const uint32_t *word, int most) {
    int woken = 0;
    for (; woken < most; woken++) {
        struct thread *asleep[MOST_THREADS];
        int count = 0;
        for (int i = 0; i < world.count; i++)
            if (world.threads[i].state == AT_FUTEX && world.threads[i].address == word)
                asleep[count++] = &world.threads[i];
        if (!count)
            break;
        asleep[draw((uint64_t)count)]->state = READY;
    }
    return woken;
}

static long futex(const uint32_t *word, int how, uint32_t value, const struct timespec *until) {
    switch (how & FUTEX_CMD_MASK) {
    case FUTEX_WAIT:
    case FUTEX_WAIT_BITSET:
        return wait_at_futex(word, how & FUTEX_CMD_MASK, value, until);
    case FUTEX_WAKE:
    case FUTEX_WAKE_BITSET:
        point("futex_wake");
        long woken = wake_at_futex(word, (int)value);
        point("futex_woke");
        return woken;
    default:
        fail("a futex is used in another way");
    }
}

long syscall(long number, ...) {
    long a[6];
    va_list words;
    va_start(words, number);
    for (int i = 0; i < 6; i++)
        a[i] = va_arg(words, long);
    va_end(words);
    if (number == SYS_futex && is_scheduled())
        return told(futex((const uint32_t *)a[0], (int)a[1], (uint32_t)a[2], (const struct timespec *)a[3]));
    if (number == SYS_exit_group)
        end_run();
    point("syscall");
    return told(raw(number, a[0], a[1], a[2], a[3], a[4], a[5]));
}

// The program ends by one of these, with no look at what stands in destructors.
void _exit(int status) {
    end_run();
    raw(SYS_exit_group, status, 0, 0, 0, 0, 0);
    __builtin_unreachable();
}

// -- threads

static struct thread *thread_of(pthread_t handle) {
    for (int i = world.count - 1; i >= 0; i--)
        if (!world.threads[i].is_joined && pthread_equal(world.threads[i].handle, handle))
            return &world.threads[i];
    return NULL;
}

int pthread_create(pthread_t *handle, const pthread_attr_t *how, void *(*start)(void *), void *argument) {
    if (!world.is_on || !self) {
        int (*next)(pthread_t *, const pthread_attr_t *, void *(*)(void *), void *) = dlsym(RTLD_NEXT, "pthread_create");
        return next(handle, how, start, argument);
    }
    int status = make_thread(handle, how, start, argument, NULL);
    point_unless_checked("create");
    return status;
}

int pthread_join(pthread_t handle, void **result) {
    int (*next)(pthread_t, void **) = dlsym(RTLD_NEXT, "pthread_join");
    struct thread *other = is_scheduled() ? thread_of(handle) : NULL;
    return other ? join_thread(other, result) : next(handle, result);
}

int pthread_detach(pthread_t handle) {
    int (*next)(pthread_t) = dlsym(RTLD_NEXT, "pthread_detach");
    struct thread *other = world.is_on ? thread_of(handle) : NULL;
    if (other)
        other->is_joined = true;
    point_unless_checked("detach");
    return next(handle);
}

int sched_yield(void) {
    point_yielding("yield");
    return 0;
}

// -- time

int clock_gettime(clockid_t clock, struct timespec *time) {
    if (!world.is_on || !self || clock == CLOCK_PROCESS_CPUTIME_ID || clock == CLOCK_THREAD_CPUTIME_ID)
        return (int)told(raw(SYS_clock_gettime, clock, (long)time, 0, 0, 0, 0));
    point_unless_checked("clock");
    int64_t since = clock == CLOCK_REALTIME || clock == CLOCK_REALTIME_COARSE ? 1700000000LL * SECOND : 0;
    *time = (struct timespec){.tv_sec = (since + world.now) / SECOND, .tv_nsec = (since + world.now) % SECOND};
    return 0;
}

int nanosleep(const struct timespec *time, struct timespec *left) {
    if (!is_scheduled())
        return (int)told(raw(SYS_nanosleep, (long)time, (long)left, 0, 0, 0, 0));
    wait_at(ASLEEP, "sleep", world.now + time->tv_sec * SECOND + time->tv_nsec);
    return 0;
}

int clock_nanosleep(clockid_t clock, int how, const struct timespec *time, struct timespec *left) {
    (void)clock;
    (void)left;
    int64_t until = time->tv_sec * SECOND + time->tv_nsec;
    wait_at(ASLEEP, "sleep", how ? until : world.now + until);
    return 0;
}

int usleep(useconds_t time) {
    wait_at(ASLEEP, "sleep", world.now + 1000LL * time);
    return 0;
}

// -- memory: points inside and outside of locks, of calls by the program's own code alone. What the C library allocates may
// lie under locks of its own, at which another thread would block.

void *__libc_malloc(size_t size);
void *__libc_calloc(size_t count, size_t size);
void *__libc_realloc(void *block, size_t size);
void __libc_free(void *block);

static bool is_own_code(const void *place) { return (uintptr_t)place >= world.code && (uintptr_t)place < world.code_end; }

static void point_of(const char *what, const void *caller) {
    if (is_own_code(caller))
        point(what);
}

void *malloc(size_t size) {
    point_of("malloc", __builtin_return_address(0));
    return __libc_malloc(size);
}

void *calloc(size_t count, size_t size) {
    point_of("calloc", __builtin_return_address(0));
    return __libc_calloc(count, size);
}

void *realloc(void *block, size_t size) {
    point_of("realloc", __builtin_return_address(0));
    return __libc_realloc(block, size);
}

void free(void *block) {
    point_of("free", __builtin_return_address(0));
    __libc_free(block);
}

// -- sockets and files

// A call that would block is made without blocking, and waits here until it may be made again.
static ssize_t take(int file, void *bytes, size_t size, int how, const char *what) {
    for (;;) {
        long taken = raw(SYS_recvfrom, file, (long)bytes, (long)size, how | MSG_DONTWAIT, 0, 0);
        files_are_new();
        if (taken == -ENOTSOCK)
            return told(raw(SYS_read, file, (long)bytes, (long)size, 0, 0, 0));
        if (taken != -EAGAIN || how & MSG_DONTWAIT || !blocks(file))
            return told(taken);
        wait_for_file(file, POLLIN, what, NEVER);
    }
}

static ssize_t put(int file, const void *bytes, size_t size, int how, const char *what) {
    size_t sent = 0;
    for (;;) {
        long put = raw(SYS_sendto, file, (long)bytes + (long)sent, (long)(size - sent), how | MSG_DONTWAIT, 0, 0);
        files_are_new();
        if (put == -ENOTSOCK)
            return told(raw(SYS_write, file, (long)bytes, (long)size, 0, 0, 0));
        if (put > 0) {
            sent += (size_t)put;
            note_reply();
        }
        if (sent == size || (put < 0 && put != -EAGAIN) || how & MSG_DONTWAIT || !blocks(file))
            return sent ? (ssize_t)sent : told(put);
        wait_for_file(file, POLLOUT, what, NEVER);
    }
}

ssize_t read(int file, void *bytes, size_t size) {
    point("read");
    return is_scheduled() ? take(file, bytes, size, 0, "read") : told(raw(SYS_read, file, (long)bytes, (long)size, 0, 0, 0));
}

ssize_t recv(int file, void *bytes, size_t size, int how) {
    point("recv");
    return take(file, bytes, size, how, "recv");
}

// The clients begin when the program says that it listens.
static void note_listening(int file, const void *bytes, size_t size) {
    if (file == STDOUT_FILENO && size >= 10 && memmem(bytes, size, "listening\n", 10))
        start_clients();
}

// Of a write that a kill ends, the system may have taken a part.
static void write_before_end(int file, const void *bytes, size_t size) {
    struct stat kind;
    if (is_scheduled() && dies_next() && !raw(SYS_fstat, file, (long)&kind, 0, 0, 0, 0) && S_ISREG(kind.st_mode))
        raw(SYS_write, file, (long)bytes, (long)draw(size + 1), 0, 0, 0);
}

ssize_t write(int file, const void *bytes, size_t size) {
    write_before_end(file, bytes, size);
    point("write");
    if (!is_scheduled())
        return told(raw(SYS_write, file, (long)bytes, (long)size, 0, 0, 0));
    ssize_t written = put(file, bytes, size, 0, "write");
    note_listening(file, bytes, size);
    return written;
}

ssize_t send(int file, const void *bytes, size_t size, int how) {
    point("send");
    return put(file, bytes, size, how, "send");
}

ssize_t writev(int file, const struct iovec *parts, int count) {
    point("writev");
    long written = raw(SYS_writev, file, (long)parts, count, 0, 0, 0);
    files_are_new();
    return told(written);
}

int accept4(int file, struct sockaddr *address, socklen_t *length, int how) {
    point("accept");
    for (;;) {
        long taken = raw(SYS_accept4, file, (long)address, (long)length, how, 0, 0);
        files_are_new();
        if (taken != -EAGAIN || !blocks(file))
            return (int)told(taken);
        wait_for_file(file, POLLIN, "accept", NEVER);
    }
}

int accept(int file, struct sockaddr *address, socklen_t *length) { return accept4(file, address, length, 0); }

int shutdown(int file, int how) {
    point("shutdown");
    long done = raw(SYS_shutdown, file, how, 0, 0, 0, 0);
    files_are_new();
    return (int)told(done);
}

int close(int file) {
    point("close");
    long done = raw(SYS_close, file, 0, 0, 0, 0, 0);
    files_are_new();
    return (int)told(done);
}

static int64_t after(int milliseconds) { return milliseconds < 0 ? NEVER : world.now + milliseconds * (SECOND / 1000); }

int epoll_wait(int file, struct epoll_event *events, int most, int milliseconds) {
    int64_t deadline = after(milliseconds);
    point("epoll_wait");
    for (;;) {
        long count = raw(SYS_epoll_wait, file, (long)events, most, 0, 0, 0);
        if (count || deadline <= world.now || !is_scheduled())
            return (int)told(count);
        wait_for_file(file, POLLIN, "epoll_wait", deadline);
    }
}

int poll(struct pollfd *files, nfds_t count, int milliseconds) {
    int64_t deadline = after(milliseconds);
    point("poll");
    for (;;) {
        long ready = raw(SYS_poll, (long)files, (long)count, 0, 0, 0, 0);
        if (ready || deadline <= world.now || !is_scheduled())
            return (int)told(ready);
        // Looks again each millisecond: a thread waits for one file alone here.
        int64_t soon = world.now + SECOND / 1000;
        wait_at(ASLEEP, "poll", soon < deadline ? soon : deadline);
    }
}

static int point_before(const char *what, long number, long a, long b, long c) {
    point(what);
    long done = raw(number, a, b, c, 0, 0, 0);
    files_are_new();
    return (int)told(done);
}

int fsync(int file) { return point_before("fsync", SYS_fsync, file, 0, 0); }

int fdatasync(int file) { return point_before("fdatasync", SYS_fdatasync, file, 0, 0); }

int ftruncate(int file, off_t size) { return point_before("ftruncate", SYS_ftruncate, file, size, 0); }

int rename(const char *from, const char *to) { return point_before("rename", SYS_rename, (long)from, (long)to, 0); }

int link(const char *from, const char *to) { return point_before("link", SYS_link, (long)from, (long)to, 0); }

int unlink(const char *path) { return point_before("unlink", SYS_unlink, (long)path, 0, 0); }

int mkdir(const char *path, mode_t mode) { return point_before("mkdir", SYS_mkdir, (long)path, mode, 0); }

// -- what is there when the program begins

static int find_code(struct dl_phdr_info *object, size_t size, void *unused) {
    (void)size;
    (void)unused;
    world.base = object->dlpi_addr;
    for (int i = 0; i < object->dlpi_phnum; i++) {
        const ElfW(Phdr) *part = &object->dlpi_phdr[i];
        if (part->p_type == PT_LOAD && part->p_flags & PF_X) {
            world.code = object->dlpi_addr + part->p_vaddr;
            world.code_end = world.code + part->p_memsz;
        }
    }
    return 1; // the first object is the program
}

// A program that is built with AddressSanitizer has its own of these calls, and comes here by them.
void look_at_program(void) {
    dl_iterate_phdr(find_code, NULL);
    world.is_checked = is_own_code(dlsym(RTLD_DEFAULT, "pthread_create"));
}
