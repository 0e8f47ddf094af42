// Loaded before the C library: chmod and link take as many milliseconds longer as DELAY_CHMOD and DELAY_LINK say.
#define _GNU_SOURCE
#include <dlfcn.h>
#include <stdlib.h>
#include <sys/types.h>
#include <unistd.h>

static void delay(const char *name) {
    const char *milliseconds = getenv(name);
    if (milliseconds)
        usleep(1000 * (useconds_t)atoi(milliseconds));
}

int chmod(const char *path, mode_t mode) {
    int (*next)(const char *, mode_t) = (int (*)(const char *, mode_t))dlsym(RTLD_NEXT, "chmod");
    delay("DELAY_CHMOD");
    return next(path, mode);
}

int link(const char *from, const char *to) {
    int (*next)(const char *, const char *) = (int (*)(const char *, const char *))dlsym(RTLD_NEXT, "link");
    delay("DELAY_LINK");
    return next(from, to);
}
