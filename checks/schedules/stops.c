// Points at the entries of the program's own functions, so that a thread may be left between two calls of the C library, with
// or without a lock. A file has their addresses. The first instruction of each is a push of a register: a breakpoint is put
// in its place, and what it does is done here.
#define _GNU_SOURCE
#include "schedule.h"
#include <signal.h>
#include <stdlib.h>
#include <sys/mman.h>
#include <ucontext.h>

enum { MOST_STOPS = 8192, BREAKPOINT = 0xcc, PUSH = 0x50, PAGE = 4096 };

struct stop {
    uintptr_t at;
    int reg;
};

static struct {
    struct stop all[MOST_STOPS];
    int count;
} stops;

static int by_address(const void *a, const void *b) {
    uintptr_t first = ((const struct stop *)a)->at, second = ((const struct stop *)b)->at;
    return (first > second) - (first < second);
}

// The general registers, by the numbers that instructions give them.
static greg_t *reg_of(ucontext_t *context, int number) {
    static const int places[] = {REG_RAX, REG_RCX, REG_RDX, REG_RBX, REG_RSP, REG_RBP, REG_RSI, REG_RDI};
    return &context->uc_mcontext.gregs[places[number]];
}

static void stop_there(int signal, siginfo_t *info, void *how) {
    ucontext_t *context = how;
    greg_t *top = &context->uc_mcontext.gregs[REG_RSP];
    struct stop here = {.at = (uintptr_t)context->uc_mcontext.gregs[REG_RIP] - 1};
    const struct stop *it = bsearch(&here, stops.all, (size_t)stops.count, sizeof here, by_address);
    (void)signal;
    (void)info;
    if (!it)
        abort(); // a breakpoint of somebody else
    *top -= 8;
    *(greg_t *)*top = *reg_of(context, it->reg);
    point("call");
}

static void put_stop(uintptr_t at) {
    uint8_t *code = (uint8_t *)at;
    if (at < world.code || at >= world.code_end || stops.count == MOST_STOPS || (*code & 0xf8) != PUSH || *code == PUSH + 4)
        return;
    void *page = (void *)(at & ~(uintptr_t)(PAGE - 1));
    if (mprotect(page, PAGE, PROT_READ | PROT_WRITE | PROT_EXEC))
        return;
    stops.all[stops.count++] = (struct stop){.at = at, .reg = *code & 7};
    *code = BREAKPOINT;
    mprotect(page, PAGE, PROT_READ | PROT_EXEC);
}

void put_stops(const char *path) {
    char line[64];
    FILE *file = fopen(path, "r");
    struct sigaction action = {.sa_sigaction = stop_there, .sa_flags = SA_SIGINFO | SA_NODEFER | SA_RESTART};
    if (!file)
        return;
    sigaction(SIGTRAP, &action, NULL);
    while (fgets(line, sizeof line, file))
        put_stop(world.base + strtoul(line, NULL, 16));
    fclose(file);
    qsort(stops.all, (size_t)stops.count, sizeof *stops.all, by_address);
}
