// A plain switch interpreter of the private instructions, for comparison: it reads the same job as `benchmarks private_run`,
// one line on standard input without blanks, runs the first procedure up to its first shared instruction, and prints how
// many instructions it executed and the first register.
#include <inttypes.h>
#include <stdint.h>
#include <stdio.h>
#include <stdlib.h>
#include <string.h>

enum operation { SET, ADD, SUB, MUL, DIV, LT, JZ, JMP, SLOT, WIDTH, SHARED };

static const char *const names[] = {"set", "add", "sub", "mul", "div", "lt", "jz", "jmp", "slot", "width"};

struct instr {
    uint8_t operation, a, b, c;
    int64_t number;
};

struct frame {
    uint8_t place;
    int64_t registers[8];
};

static struct instr procedure[256];

static enum operation named(const char *name, size_t length) {
    for (int it = SET; it < SHARED; it++)
        if (strlen(names[it]) == length && strncmp(names[it], name, length) == 0)
            return (enum operation)it;
    return SHARED;
}

// Reads an instruction, such as `["add",1,1,2]`, and gives the place behind it.
static char *read_instr(char *at, struct instr *instr) {
    int64_t operands[8] = {0};
    char *name = at + 2, *end = strchr(name, '"');
    instr->operation = (uint8_t)named(name, (size_t)(end - name));
    at = end + 1;
    for (int it = 0; it < 8 && *at == ','; it++)
        operands[it] = strtoll(at + 1, &at, 10);
    instr->a = (uint8_t)operands[0];
    instr->b = (uint8_t)operands[1];
    instr->c = (uint8_t)operands[2];
    instr->number = operands[1];
    return at + 1;
}

// Reads the first procedure of a job, and gives the job's first argument.
static int64_t read_job(void) {
    static char text[65536];
    if (!fgets(text, sizeof text, stdin))
        exit(1);
    char *args = strstr(text, "\"args\":["), *at = strstr(text, "\"procs\":[[");
    if (!args || !at)
        exit(1);
    at += 10;
    for (int it = 0; it < 256 && *at == '['; it++) {
        at = read_instr(at, &procedure[it]);
        at += *at == ',';
    }
    return strtoll(args + 8, NULL, 10);
}

// At most 1,000 instructions of a frame; it says how many, and whether the next one is shared.
// It stays a function by itself, so that its instructions can be counted.
__attribute__((noinline, noclone)) static uint32_t run(const struct instr *instrs, struct frame *frame, int64_t slot,
                                                       int64_t width, int *shared) {
    int64_t *r = frame->registers;
    uint8_t place = frame->place;
    uint32_t count = 0;
    *shared = 0;
    for (; count < 1000; count++) {
        const struct instr *i = &instrs[place];
        switch (i->operation) {
        case SET: r[i->a] = i->number; place++; break;
        case ADD: r[i->a] = (int64_t)((uint64_t)r[i->b] + (uint64_t)r[i->c]); place++; break;
        case SUB: r[i->a] = (int64_t)((uint64_t)r[i->b] - (uint64_t)r[i->c]); place++; break;
        case MUL: r[i->a] = (int64_t)((uint64_t)r[i->b] * (uint64_t)r[i->c]); place++; break;
        case DIV:
            if (r[i->c] == 0) { frame->place = place; return count + 1; }
            r[i->a] = r[i->b] == INT64_MIN && r[i->c] == -1 ? INT64_MIN : r[i->b] / r[i->c];
            place++;
            break;
        case LT: r[i->a] = r[i->b] < r[i->c]; place++; break;
        case JZ: place = r[i->a] == 0 ? i->b : place + 1; break;
        case JMP: place = i->a; break;
        case SLOT: r[i->a] = slot; place++; break;
        case WIDTH: r[i->a] = width; place++; break;
        default: *shared = 1; frame->place = place; return count;
        }
    }
    frame->place = place;
    return count;
}

int main(void) {
    struct frame frame = {0, {read_job()}};
    uint64_t executed = 0;
    int shared = 0;
    while (!shared)
        executed += run(procedure, &frame, 0, 1, &shared);
    printf("%" PRIu64 " %" PRId64 "\n", executed, frame.registers[0]);
    return 0;
}
