// Fails one allocation of the program that it is loaded into, in whichever thread that is: the one whose number, from
// 1, the variable FAIL gives. It says so on standard error when it does.
#define _GNU_SOURCE
#include <dlfcn.h>
#include <stdatomic.h>
#include <stdlib.h>
#include <unistd.h>

static atomic_llong left;

__attribute__((constructor)) static void count_from(void) {
    const char *number = getenv("FAIL");
    atomic_store(&left, number ? atoll(number) : 0);
}

static int fails(void) {
    return atomic_fetch_sub(&left, 1) == 1 && write(2, "failed\n", 7) == 7;
}

void *malloc(size_t size) {
    static _Atomic(void *) next;
    if (!next)
        next = dlsym(RTLD_NEXT, "malloc");
    return fails() ? NULL : ((void *(*)(size_t))next)(size);
}

void *realloc(void *block, size_t size) {
    static _Atomic(void *) next;
    if (!next)
        next = dlsym(RTLD_NEXT, "realloc");
    return fails() ? NULL : ((void *(*)(void *, size_t))next)(block, size);
}
