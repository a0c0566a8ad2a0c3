/* answers.c: gives bad arguments to each function of ddr_c.h, and compares each answer with the table that stands there. What a call
 * was given to write is to be as it was where the answer is not 0, and the slot is to go on as if there had been no such call. Linked
 * with --wrap=malloc and --wrap=realloc, so that memory can be refused. */
#include "ddr_c.h"
#include <stdio.h>
#include <stdlib.h>
#include <string.h>

_Static_assert(sizeof(ddr_slot) == 16 && sizeof(ddr_line) == 67 && sizeof(ddr_totals) == 32, "the structs of crates/ddr_c");

void *__real_malloc(size_t size);
void *__real_realloc(void *block, size_t size);

static bool is_memory_refused;

void *__wrap_malloc(size_t size) { return is_memory_refused ? NULL : __real_malloc(size); }
void *__wrap_realloc(void *block, size_t size) { return is_memory_refused ? NULL : __real_realloc(block, size); }

static unsigned asked, wrong;

static void expect(const char *what, uint64_t answer, uint64_t wanted) {
    asked++;
    if (answer == wanted) return;
    wrong++;
    printf("%s: %llu, and not %llu\n", what, (unsigned long long)answer, (unsigned long long)wanted);
}

/* ---- Calls */

static const uint64_t TOO_LATE = (uint64_t)1 << 48;
static const char plain[] =
    "format = 1\nbin = \"tiny\"\nrows = 16\nath = 5\neth = 3\nraaimt = 8\nraammt = 16\nrefresh = \"all\"\necs_every = 0\n";

static ddr_slot slot;
static ddr_line line, line_before;
static ddr_totals totals, totals_before;

/* A command whose answer is wanted to be this one. Where it is not 0, the line has to be as it was. */
static void command(const char *what, uint64_t clock, uint16_t first, uint16_t second, bool has_second, int wanted) {
    line_before = line;
    expect(what, ddr_step(&slot, clock, first, second, has_second, &line), (uint64_t)wanted);
    if (wanted != 0) expect("the line is another one", memcmp(&line, &line_before, sizeof line) != 0, false);
}

static void one(const char *what, uint64_t clock, uint16_t word, int wanted) { command(what, clock, word, 0, false, wanted); }

static void two(const char *what, uint64_t clock, uint16_t first, uint16_t second, int wanted) {
    command(what, clock, first, second, true, wanted);
}

static void counts(const char *what, int wanted) {
    totals_before = totals;
    expect(what, ddr_counts(&slot, &totals), (uint64_t)wanted);
    if (wanted != 0) expect("the totals are others", memcmp(&totals, &totals_before, sizeof totals) != 0, false);
}

static void open_plain(uint8_t groups) {
    expect("open", ddr_open(&slot, (const uint8_t *)plain, sizeof plain - 1, 4, groups), 0);
    expect("lines", ddr_lines(&slot), groups * 4096u);
}

/* The register writes, with bytes of the line that no call writes. */
static void write_registers(void) {
    static const uint16_t words[8][2] = {{0x0805, 0x000f}, {0x0825, 0}, {0x0845, 5}, {0x0865, 3}, {0x0885, 0}, {0x08a5, 8}, {0x08c5, 0x10}, {0x08e5, 0}};
    for (unsigned i = 0; i < 8; i++) two("a register write", 4 * i, words[i][0], words[i][1], 0);
}

/* ---- Headers */

/* The plain header with new in place of old, or with new at its end. */
static const struct header {
    const char *what, *old, *new;
    uint32_t cycle;
    uint8_t groups, answer;
} headers[] = {
    {"no TOML", "rows = 16", "rows = ", 4, 8, 11},
    {"a key that is unknown", "", "colour = 1\n", 4, 8, 12},
    {"a key that is missing", "eth = 3\n", "", 4, 8, 12},
    {"a timing number that is none", "", "[timing]\nnNone = 1\n", 4, 8, 12},
    {"a value of another kind", "rows = 16", "rows = \"16\"", 4, 8, 13},
    {"a timing that is no table", "", "timing = 1\n", 4, 8, 13},
    {"no row", "rows = 16", "rows = 0", 4, 8, 14},
    {"a row too many", "rows = 16", "rows = 65537", 4, 8, 14},
    {"no such bin", "tiny", "fast", 4, 8, 15},
    {"check 1", "", "[timing]\nnRC = 3\n", 4, 8, 21},
    {"check 2", "", "[timing]\nnABO = 34\n", 4, 8, 22},
    {"check 2, by the cycle", "", "", 3, 8, 22},
    {"check 3", "ath = 5", "ath = 4", 4, 8, 23},
    {"check 3, by the cycle", "", "", 5, 8, 23},
    {"check 4", "raaimt = 8", "raaimt = 7", 4, 8, 24},
    {"check 5", "", "[timing]\nnREFI = 642\n", 4, 8, 25},
    {"check 6", "", "[timing]\nnRFCsb = 300\nnREFI = 2440\n", 4, 8, 26},
    {"check 7", "", "[timing]\nnCL = 7\n", 4, 8, 27},
    {"check 8", "", "[timing]\nnCCD_S = 7\n", 4, 8, 28},
    {"a cycle of 1", "", "", 1, 8, 105},
    {"a cycle of 6", "", "", 6, 8, 105},
    {"the greatest cycle", "", "", UINT32_MAX, 8, 105},
    {"no group", "", "", 4, 0, 105},
    {"six groups", "", "", 4, 6, 105},
    {"the most groups", "", "", 4, 255, 105},
    {"a cycle of 6 before no TOML", "rows = 16", "rows = ", 6, 8, 105},
};

static void refuse_headers(void) {
    for (size_t i = 0; i < sizeof headers / sizeof *headers; i++) {
        const struct header *it = &headers[i];
        char text[512];
        const char *at = it->old[0] ? strstr(plain, it->old) : plain + sizeof plain - 1;
        snprintf(text, sizeof text, "%.*s%s%s", (int)(at - plain), plain, it->new, at + strlen(it->old));
        expect(it->what, ddr_open(&slot, (const uint8_t *)text, strlen(text), it->cycle, it->groups), it->answer);
    }
    expect("no text", ddr_open(&slot, (const uint8_t *)plain, 0, 4, 8), 12);
    expect("a zero byte", ddr_open(&slot, (const uint8_t *)plain, sizeof plain, 4, 8), 11);
}

/* ---- Slots */

static void ask_an_empty_slot(void) {
    one("a command, empty", 0, 0x001f, 255);
    one("no command, empty", TOO_LATE, 0x4001, 255);
    expect("a bit, empty", ddr_flip(&slot, 0, 0, 0), 255);
    expect("no bit, empty", ddr_flip(&slot, UINT32_MAX, 255, 255), 255);
    expect("the end, empty", ddr_end(&slot, 60), 255);
    counts("counts, empty", 255);
    expect("lines, empty", ddr_lines(&slot), 0);
}

/* Calls that are refused whatever the slot was given before. */
static void refuse_numbers(void) {
    two("words of no kind", 40, 0x0001, 0, 131);
    one("a word of no kind", 40, 0x0003, 131);
    one("an ACT of one word", 40, 0x0000, 132);
    two("a PREab of two words", 40, 0x000b, 0, 133);
    one("a fixed bit", 40, 0x100b, 134);
    one("a word of 15 bits", 40, 0x400b, 135);
    two("a second word of 15 bits", 40, 0x0000, 0x4000, 135);
    two("a row that there is not", 40, 0x0000, 0x0001, 105);
    two("that, at a clock too early", 0, 0x0000, 0x0001, 105);
    one("a clock too large", TOO_LATE, 0x001f, 105);
    one("the largest clock", UINT64_MAX, 0x001f, 105);
    one("that, and no kind", UINT64_MAX, 0x0003, 131);
    expect("a line that there is not", ddr_flip(&slot, 32768, 0, 0), 105);
    expect("a device that there is not", ddr_flip(&slot, 0, 4, 0), 105);
    expect("a bit that there is not", ddr_flip(&slot, 0, 0, 136), 105);
    expect("the largest bit", ddr_flip(&slot, UINT32_MAX, 255, 255), 105);
    expect("an end too late", ddr_end(&slot, TOO_LATE), 105);
    expect("the latest end", ddr_end(&slot, UINT64_MAX), 105);
}

/* A line is written and read, with refused calls between. */
static void go_on(void) {
    open_plain(8);
    write_registers();
    two("ACT", 32, 0x0000, 0x0000, 0);
    memset(line.bytes, 7, sizeof line.bytes);
    two("WR", 35, 0x002d, 0x0c00, 0);
    memset(line.bytes, 9, sizeof line.bytes);
    refuse_headers();
    refuse_numbers();
    command("a second word that does not count: NOP", 50, 0x001f, 0xffff, false, 0);
    two("RD", 51, 0x003d, 0x0400, 0);
    expect("a line was read", line.has_line, true);
    for (int i = 0; i < 64; i++) expect("its bytes", line.bytes[i], 7);
    one("PREpb", 54, 0x001b, 0);
    counts("counts", 0);
    expect("peak", totals.peak, 1);
    expect("the end", ddr_end(&slot, 60), 0);
    ask_an_empty_slot();
}

/* After a broken rule it is the answer to all that is in order. */
static void break_a_rule(void) {
    open_plain(8);
    write_registers();
    two("ACT", 32, 0x0000, 0x0000, 0);
    two("RD too soon", 34, 0x003d, 0x0400, 2);
    for (int times = 0; times < 2; times++) {
        two("RD in time", 35, 0x003d, 0x0400, 2);
        refuse_numbers();
        refuse_headers();
        expect("a bit", ddr_flip(&slot, 0, 0, 0), 2);
        counts("counts", 2);
        expect("the end", ddr_end(&slot, 60), 2);
        expect("lines", ddr_lines(&slot), 32768);
    }
    ddr_close(&slot);
    ask_an_empty_slot();
}

/* An end that breaks a rule is no end. */
static void break_the_end(void) {
    open_plain(8);
    write_registers();
    two("ACT", 32, 0x0000, 0x0000, 0);
    expect("the end, with an open bank", ddr_end(&slot, 60), 14);
    expect("the end again", ddr_end(&slot, 61), 14);
    one("PREpb", 62, 0x001b, 14);
    ddr_close(&slot);
}

/* A slot that is open is opened again, and closed twice. */
static void open_again(void) {
    open_plain(8);
    write_registers();
    open_plain(4);
    two("a group that there is not", 42, 0x0400, 0x0000, 105);
    two("ACT before the register writes", 42, 0x0000, 0x0000, 14);
    open_plain(8);
    write_registers();
    ddr_close(&slot);
    ddr_close(&slot);
    ask_an_empty_slot();
}

/* Where a WR waits for memory, only that WR goes on. */
static void refuse_the_bytes_of_a_write(void) {
    is_memory_refused = true;
    two("WR, no memory", 35, 0x002d, 0x0c00, 254);
    two("that again, no memory", 35, 0x002d, 0x0c00, 254);
    is_memory_refused = false;
    two("that at another clock", 36, 0x002d, 0x0c00, 254);
    two("another WR", 35, 0x002d, 0x0c04, 254);
    one("NOP", 50, 0x001f, 254);
    expect("a bit", ddr_flip(&slot, 0, 0, 0), 254);
    expect("the end", ddr_end(&slot, 60), 254);
    refuse_numbers();
    counts("counts", 0);
    two("WR, with memory", 35, 0x002d, 0x0c00, 0);
}

static void refuse_memory(void) {
    is_memory_refused = true;
    expect("open, no memory", ddr_open(&slot, (const uint8_t *)plain, sizeof plain - 1, 4, 8), 254);
    is_memory_refused = false;
    ask_an_empty_slot();
    open_plain(8);
    write_registers();
    is_memory_refused = true;
    expect("open again, no memory", ddr_open(&slot, (const uint8_t *)plain, sizeof plain - 1, 4, 4), 254);
    is_memory_refused = false;
    expect("lines", ddr_lines(&slot), 32768);
    is_memory_refused = true;
    expect("the first bit, no memory", ddr_flip(&slot, 5, 3, 135), 254);
    is_memory_refused = false;
    expect("the first bit", ddr_flip(&slot, 5, 3, 135), 0);
    open_plain(8);
    write_registers();
    two("ACT", 32, 0x0000, 0x0000, 0);
    refuse_the_bytes_of_a_write();
    one("PREpb", 54, 0x001b, 0);
    expect("the end", ddr_end(&slot, 60), 0);
}

int main(void) {
    memset(&line, 7, sizeof line.bytes);
    memset(&totals, 7, sizeof totals);
    ddr_close(&slot);
    ask_an_empty_slot();
    refuse_headers();
    ask_an_empty_slot();
    go_on();
    break_a_rule();
    break_the_end();
    open_again();
    refuse_memory();
    printf("%u answers, %u of them wrong\n", asked, wrong);
    return wrong != 0;
}
