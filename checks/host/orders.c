// Loaded before the C library: writes a line to the file that ORDERS names for each file that takes a name, for each folder
// whose names are brought to the disk, for what is written to a journal or brought to the disk of one, and for what is sent
// over a socket.
#define _GNU_SOURCE
#include <dlfcn.h>
#include <fcntl.h>
#include <stdio.h>
#include <stdlib.h>
#include <string.h>
#include <sys/socket.h>
#include <sys/stat.h>
#include <unistd.h>

static void note(const char *what, const char *path) {
    char line[4200];
    int length = snprintf(line, sizeof line, "%s %s\n", what, path);
    int file = open(getenv("ORDERS"), O_WRONLY | O_APPEND | O_CREAT, 0600);
    if (file >= 0 && write(file, line, (size_t)length) == length)
        close(file);
}

// What is known of an open file: its mode, and its path if that is a journal's.
static mode_t known(int file, char *path, size_t size) {
    struct stat found;
    char link[64];
    snprintf(link, sizeof link, "/proc/self/fd/%d", file);
    ssize_t length = readlink(link, path, size - 1);
    path[length > 0 && strstr(path, "/journals/") ? length : 0] = 0;
    return fstat(file, &found) == 0 ? found.st_mode : 0;
}

static void note_written(int file) {
    char path[4096] = "";
    if (S_ISSOCK(known(file, path, sizeof path)))
        note("told", "");
    else if (*path)
        note("written", path);
}

ssize_t write(int file, const void *bytes, size_t count) {
    static __thread int is_noting;
    ssize_t (*next)(int, const void *, size_t) = dlsym(RTLD_NEXT, "write");
    if (!is_noting) {
        is_noting = 1;
        note_written(file);
        is_noting = 0;
    }
    return next(file, bytes, count);
}

ssize_t send(int file, const void *bytes, size_t count, int how) {
    ssize_t (*next)(int, const void *, size_t, int) = dlsym(RTLD_NEXT, "send");
    note_written(file);
    return next(file, bytes, count, how);
}

int fdatasync(int file) {
    int (*next)(int) = dlsym(RTLD_NEXT, "fdatasync");
    char path[4096] = "";
    known(file, path, sizeof path);
    int done = next(file);
    if (*path)
        note("synced", path);
    return done;
}

int rename(const char *from, const char *to) {
    int (*next)(const char *, const char *) = dlsym(RTLD_NEXT, "rename");
    int done = next(from, to);
    if (done == 0)
        note("rename", to);
    return done;
}

int fsync(int file) {
    int (*next)(int) = dlsym(RTLD_NEXT, "fsync");
    struct stat found;
    char link[64], path[4096] = "";
    snprintf(link, sizeof link, "/proc/self/fd/%d", file);
    if (fstat(file, &found) == 0 && S_ISDIR(found.st_mode) && readlink(link, path, sizeof path - 1) > 0)
        note("folder", path);
    return next(file);
}
