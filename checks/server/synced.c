// Loaded before the C library: each rename adds a line to the file that RENAMES names, with how many bytes were written to
// files before the last fsync, and how many after it.
#define _GNU_SOURCE
#include <dlfcn.h>
#include <fcntl.h>
#include <stdatomic.h>
#include <stdio.h>
#include <stdlib.h>
#include <sys/stat.h>
#include <unistd.h>

static atomic_long synced, unsynced;

ssize_t write(int file, const void *bytes, size_t count) {
    ssize_t (*next)(int, const void *, size_t) = (ssize_t (*)(int, const void *, size_t))dlsym(RTLD_NEXT, "write");
    struct stat kind;
    ssize_t written = next(file, bytes, count);
    if (written > 0 && fstat(file, &kind) == 0 && S_ISREG(kind.st_mode))
        unsynced += written;
    return written;
}

int fsync(int file) {
    int (*next)(int) = (int (*)(int))dlsym(RTLD_NEXT, "fsync");
    int status = next(file);
    if (status == 0)
        synced += atomic_exchange(&unsynced, 0);
    return status;
}

int rename(const char *from, const char *to) {
    int (*next)(const char *, const char *) = (int (*)(const char *, const char *))dlsym(RTLD_NEXT, "rename");
    int told = open(getenv("RENAMES"), O_WRONLY | O_APPEND | O_CREAT, 0600);
    dprintf(told, "%ld %ld\n", atomic_load(&synced), atomic_load(&unsynced));
    close(told);
    return next(from, to);
}
