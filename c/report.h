/* report.h: the lines of reports and scripts, by docs/FORMATS.md, for audit.c and exec.c. */
#ifndef REPORT_H
#define REPORT_H
#include "ddr_c.h"
#include <stdio.h>
#include <stdlib.h>
#include <string.h>

enum reason {
    WELL = 0, EMPTY_LINE = 1, LETTER = 2, FIELDS = 3, NUMBER = 4, RANGE = 5, HEX = 6, TOO_LONG = 7, UNENDED = 8, TOO_MANY_LINES = 9,
    NO_SEPARATOR = 16, HEADER_TOO_LONG = 17, OUT_OF_PLACE = 18, NO_END = 19, FAULTY_SEPARATOR = 29, OUT_OF_MEMORY = 254
};
enum { MOST_FIELDS = 6, LONGEST = 511, HEADER_BYTES = 65536 };

static const uint64_t CLOCKS = (uint64_t)1 << 48;

/* Some bytes, which no zero byte ends. */
typedef struct text {
    const uint8_t *at;
    size_t length;
} text;

static bool is(text field, const char *word) { return field.length == strlen(word) && memcmp(field.at, word, field.length) == 0; }

/* The fields of a line, which single spaces part. Answers how many there are; no more than MOST_FIELDS are kept. */
static size_t split(text line, text *fields) {
    size_t count = 0, start = 0;
    for (size_t i = 0; i <= line.length; i++) {
        if (i < line.length && line.at[i] != ' ') continue;
        if (count < MOST_FIELDS) fields[count] = (text){line.at + start, i - start};
        count++;
        start = i + 1;
    }
    return count;
}

/* Decimal digits without a leading zero, at most 2^64 - 1. */
static bool number(text field, uint64_t *value) {
    if (field.length == 0 || (field.length > 1 && field.at[0] == '0')) return false;
    *value = 0;
    for (size_t i = 0; i < field.length; i++) {
        if (field.at[i] < '0' || field.at[i] > '9') return false;
        uint64_t digit = field.at[i] - '0';
        if (*value > (UINT64_MAX - digit) / 10) return false;
        *value = 10 * *value + digit;
    }
    return true;
}

/* So many lower-case hexadecimal digits; value is that of the last sixteen. */
static bool hex(text field, size_t digits, uint64_t *value) {
    if (field.length != digits) return false;
    *value = 0;
    for (size_t i = 0; i < digits; i++) {
        uint8_t c = field.at[i];
        if ((c < '0' || c > '9') && (c < 'a' || c > 'f')) return false;
        *value = *value << 4 | (uint64_t)(c <= '9' ? c - '0' : c - 'a' + 10);
    }
    return true;
}

/* What a line before the trace is: 0 one of the header, 1 the separator, with its figures, -1 a faulty one. */
static int separates(text line, uint32_t *cycle, uint8_t *groups) {
    text fields[MOST_FIELDS];
    uint64_t a, g;
    size_t count = split(line, fields);
    if (!is(fields[0], "---")) return 0;
    *cycle = 4;
    *groups = 8;
    if (count == 1) return 1;
    if (count != 4 || !is(fields[1], "2") || !number(fields[2], &a) || !number(fields[3], &g)) return -1;
    if (a < 2 || a > 5 || (g != 4 && g != 8)) return -1;
    *cycle = (uint32_t)a;
    *groups = (uint8_t)g;
    return 1;
}

/* Opens the slot under the header of a report. rest is what stands after the separator, which states this many bank groups. */
static enum reason open_report(ddr_slot *slot, text bytes, text *rest, uint8_t *groups) {
    uint32_t cycle;
    for (size_t before = 0;;) {
        text left = {bytes.at + before, bytes.length - before};
        const uint8_t *feed = left.length ? memchr(left.at, '\n', left.length) : NULL;
        size_t length = feed ? (size_t)(feed - left.at) : left.length;
        if (length > LONGEST) return HEADER_TOO_LONG;
        if (!feed) return NO_SEPARATOR;
        int role = separates((text){left.at, length}, &cycle, groups);
        if (role == 1) {
            *rest = (text){feed + 1, left.length - length - 1};
            return (enum reason)ddr_open(slot, bytes.at, before, cycle, *groups);
        }
        before += length + 1;
        if (before > HEADER_BYTES) return HEADER_TOO_LONG;
        if (role < 0) return FAULTY_SEPARATOR;
    }
}

/* All of standard input; at is null where there is no memory, or a read failed. */
static text read_all(void) {
    size_t room = 1 << 16, length = 0, got;
    uint8_t *bytes = malloc(room);
    while (bytes && (got = fread(bytes + length, 1, room - length, stdin)) > 0) {
        length += got;
        if (length < room) continue;
        uint8_t *more = realloc(bytes, room *= 2);
        if (!more) free(bytes);
        bytes = more;
    }
    return (text){bytes, length};
}

#endif
