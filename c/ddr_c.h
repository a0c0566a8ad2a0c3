/* ddr_c.h: a proved auditor of a DDR5 command bus, and a proved device behind it (libddr_c.a).
 *
 * A slot is one of both: it judges each command by the fourteen rules of docs/RULES.md, and gives it to a device where no rule is
 * broken. Who wants an auditor alone calls ddr_take; who wants the device too calls ddr_step.
 *
 *     ddr_slot slot = {0};
 *     if (ddr_open(&slot, header, length, 4, 8) != 0) ...
 *     answer = ddr_take(&slot, clock, 0x0194, 0x0000, true);      // ACT g1 b2 r5
 *     ...
 *     answer = ddr_end(&slot, clock);
 *     ddr_close(&slot);
 *
 * What the caller owes, since no proof speaks of C:
 *   - a slot begins as zeroes, and only these functions write it. It may be moved while no call runs, but not copied and used twice;
 *   - pointers lead to what they say, which is the caller's alone during the call; header and line are never null (where length is 0
 *     too);
 *   - a slot is given to one call at a time, and stays on the thread that opened it; other slots may be used at the same time;
 *   - malloc, realloc and free are those of one allocator.
 *
 * What each function answers:
 *     0             all is well
 *     1 to 14       this rule of docs/RULES.md is broken. It is the answer to every command and to the end from then on
 *     105           a number is out of range: a clock above 2^48 - 1, a row or a bank group that the header does not have, a bit that
 *                   there is not; at ddr_open another cycle or another number of groups
 *     131 to 135    the words spell no command: 131 none begins so, 132 the second word is missing, 133 there is one too many,
 *                   134 a fixed bit has another value, 135 a word has more than 14 bits
 *     11 to 15      the header is refused: 11 no TOML, 12 a key is unknown or missing, 13 a value has another kind, 14 a value is
 *                   out of range, 15 no such bin (ddr_open alone)
 *     21 to 28      the header is refused: a check of docs/RULES.md fails, 21 the first and 28 the last (ddr_open alone)
 *     254           there is not enough memory
 *     255           the slot is empty
 * A call that is answered with 105, 131 to 135, 11 to 15, 21 to 28 or 255 changes nothing; nor does one that is answered with a rule
 * that was broken before, nor 254 but for one case: a WR for whose bytes there is no memory was judged, and waits. The same call
 * again (same clock, same words) gives it its bytes; any other command, end or bit is answered with 254 until then.
 * The words are looked at first, then the ranges, then a broken rule. */
#ifndef DDR_C_H
#define DDR_C_H
#include <stdbool.h>
#include <stddef.h>
#include <stdint.h>
#ifdef __cplusplus
extern "C" {
#endif

enum { DDR_FINE = 0, DDR_OUT_OF_RANGE = 105, DDR_NO_MEMORY = 254, DDR_EMPTY = 255 };

/* 16 bytes; what is in them is no one's business but that of these functions. */
typedef struct ddr_slot {
    bool has;
    struct {
        void *ptr;
    } kept;
} ddr_slot;

/* What goes to the device with a command, and what comes back. */
typedef struct ddr_line {
    uint8_t bytes[64]; /* of a WR before the call, and of an RD after it */
    bool has_line;     /* after the call: the command was an RD, and bytes is what it found */
    uint8_t state;     /* of an RD: 0 no fault, 1 corrected, 2 a codeword is lost; else 0 */
    bool alert;        /* ALERT is raised after the command */
} ddr_line;

/* What is counted so far. */
typedef struct ddr_totals {
    uint64_t found; /* codewords that the scrub (ECS) corrected */
    uint64_t lost;  /* codewords that it found lost */
    uint64_t worst; /* the most of both in one visit of a row number */
    uint32_t peak;  /* the greatest number of activations of a row since its last mitigation, an open row's included */
} ddr_totals;

/* Opens a slot under a header: the lines of docs/FORMATS.md, "The header", as text of this length (no zero byte is looked for).
 * cycle and groups are what the separator of a report states: 4 and 8 for a plain `---`, A and G for `--- 2 A G`. Where the slot has
 * a session and the answer is 0, that session is closed, as ddr_close does; memory for the new one is taken before. Where the answer
 * is not 0, the slot has what it had. */
uint8_t ddr_open(ddr_slot *slot, const uint8_t *header, size_t length, uint32_t cycle, uint8_t groups);

/* Takes a command, by its one or two words (CA[13:0], docs/FORMATS.md, "Words of a command"), at the clock of its first word. The
 * bytes of a WR are in line. Where the answer is 0, line tells what the device answers; and else it is as it was. */
uint8_t ddr_step(ddr_slot *slot, uint64_t clock, uint16_t first, uint16_t second, bool has_second, ddr_line *line);

/* Turns a stored bit: of a line (its number, docs/FORMATS.md, "Places of a line"), a device 0 to 3 and a bit 0 to 135 of its
 * codeword. It belongs between two commands. */
uint8_t ddr_flip(ddr_slot *slot, uint32_t line, uint8_t device, uint8_t bit);

/* Takes the end of the log, at a clock after that of the last command. Where the answer is 0, the slot is empty then. */
uint8_t ddr_end(ddr_slot *slot, uint64_t clock);

/* Tells what is counted so far. Where the answer is not 0 (a broken rule, an empty slot), totals is as it was. */
uint8_t ddr_counts(ddr_slot *slot, ddr_totals *totals);

/* How many lines of 64 bytes there are, and 0 for an empty slot. */
uint32_t ddr_lines(ddr_slot *slot);

/* Lets go what is in the slot, with its memory. It may be called on any slot, and again. */
void ddr_close(ddr_slot *slot);

/* For who wants an auditor alone: the bytes of a WR are zeroes. The device keeps each line that is written. */
static inline uint8_t ddr_take(ddr_slot *slot, uint64_t clock, uint16_t first, uint16_t second, bool has_second) {
    ddr_line line = {{0}, false, 0, false};
    return ddr_step(slot, clock, first, second, has_second, &line);
}

#ifdef __cplusplus
}
#endif
#endif
