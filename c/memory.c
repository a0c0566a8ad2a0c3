/* memory.c: each allocation is refused in turn, while a slot is opened, opened again, a line written, a bit of another one turned, a
 * line read and the log ended. Each call that is refused is to answer 254; the same call again, with memory, is to go on; the line
 * that is read is to be the one that was written; and nothing is to be left behind. Linked with --wrap=malloc, --wrap=realloc and --wrap=free. */
#include "ddr_c.h"
#include <stdio.h>
#include <stdlib.h>
#include <string.h>

void *__real_malloc(size_t size);
void *__real_realloc(void *block, size_t size);
void __real_free(void *block);

static bool counts;          /* the calls are counted, and refused */
static long before_refused;  /* so many are made before the one that is refused */
static long live;            /* blocks that were taken and not given back */

static bool is_refused(void) { return counts && before_refused-- == 0; }

void *__wrap_malloc(size_t size) {
    if (is_refused()) return NULL;
    live += counts;
    return __real_malloc(size);
}

void *__wrap_realloc(void *block, size_t size) {
    if (is_refused()) return NULL;
    live += counts && !block;
    return __real_realloc(block, size);
}

void __wrap_free(void *block) {
    live -= counts && block;
    __real_free(block);
}

static const char header[] =
    "format = 1\nbin = \"tiny\"\nrows = 16\nath = 5\neth = 3\nraaimt = 8\nraammt = 16\nrefresh = \"all\"\necs_every = 0\n";

/* The register writes, ACT, WR, RD and PREpb of line 0. */
static const struct command {
    uint64_t clock;
    uint16_t first, second;
    bool has_second;
} commands[] = {
    {0, 0x0805, 0x000f, true},  {4, 0x0825, 0x0000, true},  {8, 0x0845, 0x0005, true},  {12, 0x0865, 0x0003, true},
    {16, 0x0885, 0x0000, true}, {20, 0x08a5, 0x0008, true}, {24, 0x08c5, 0x0010, true}, {28, 0x08e5, 0x0000, true},
    {32, 0x0000, 0x0000, true}, {35, 0x002d, 0x0c00, true}, {51, 0x003d, 0x0400, true}, {54, 0x001b, 0x0000, false},
};
enum { COMMANDS = sizeof commands / sizeof *commands, OPENINGS = 2, FLIP = 12, STEPS = OPENINGS + COMMANDS + 2 };

static ddr_slot slot;
static ddr_line line;

/* The first steps open the slot, the last one ends the log, FLIP turns a bit, and the others are the commands. */
static int step(int number) {
    if (number < OPENINGS) return ddr_open(&slot, (const uint8_t *)header, sizeof header - 1, 4, 8);
    if (number == FLIP) return ddr_flip(&slot, 5, 3, 135);
    if (number == STEPS - 1) return ddr_end(&slot, 60);
    const struct command *it = &commands[number - OPENINGS - (number > FLIP)];
    return ddr_step(&slot, it->clock, it->first, it->second, it->has_second, &line);
}

/* Whether the slot is as a refused step has to leave it: a first opening leaves nothing, a second one what there was; a bit that is
 * not turned leaves the log open; and a WR waits, so that no end is taken. */
static bool is_as_before(int number) {
    if (number < OPENINGS) return ddr_lines(&slot) == (number == 0 ? 0 : 32768);
    return number == FLIP || ddr_end(&slot, 60) == DDR_NO_MEMORY;
}

/* All steps, where this allocation is refused. Answers whether one was, and -1 where something is wrong. */
static int try(long refused_at) {
    bool refused = false;
    memset(&slot, 0, sizeof slot);
    memset(&line, 7, sizeof line.bytes);
    before_refused = refused_at;
    counts = true;
    for (int number = 0; number < STEPS; number++) {
        int answer = step(number);
        if (answer == DDR_NO_MEMORY && !refused) {
            refused = true;
            if (!is_as_before(number)) return printf("step %d: what was refused changed the slot\n", number), -1;
            answer = step(number);
        }
        if (answer != 0) return printf("step %d is answered with %d\n", number, answer), -1;
        for (int i = 0; i < 64; i++)
            if (line.bytes[i] != 7) return printf("step %d: byte %d is %d\n", number, i, line.bytes[i]), -1;
    }
    ddr_close(&slot);
    counts = false;
    if (live != 0) return printf("%ld blocks are left\n", live), -1;
    return refused;
}

int main(void) {
    long refused = 0;
    for (int was = 1; was; refused += was) {
        was = try(refused);
        if (was < 0) return printf("where allocation %ld is refused\n", refused), 1;
    }
    printf("%ld allocations refused in turn\n", refused);
    return 0;
}
