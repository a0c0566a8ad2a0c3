/* audit.c: reads a report from standard input and says what `ddr audit` says of it, with its statuses. The lines are read here,
 * by docs/FORMATS.md; the header, the words of commands and the rules are judged through ddr_c.h. */
#include "report.h"

enum stage { BODY, COUNTS, ENDED, REFUSED };

static const uint64_t MOST_LINES = 4294967295u;

typedef struct report {
    ddr_slot slot;
    uint64_t lines;            /* of the subchannel */
    enum stage stage;
    uint64_t end_line, end;    /* the number of the E line, and its clock */
    uint64_t broken_line;      /* the first C line at which a rule fails, */
    int rule;                  /* and the rule, or 0 */
} report;

/* Whether the field is one of the words, of which the last is null. */
static bool is_among(text field, const char *const *words) {
    while (*words && !is(field, *words)) words++;
    return *words != NULL;
}

static enum reason c_line(report *it, uint64_t line, text *fields, size_t count) {
    uint64_t clock, first, second = 0;
    if (count != 3 && count != 4) return FIELDS;
    if (!number(fields[1], &clock)) return NUMBER;
    if (clock >= CLOCKS) return RANGE;
    if (!hex(fields[2], 4, &first) || (count == 4 && !hex(fields[3], 4, &second))) return HEX;
    int answer = ddr_take(&it->slot, clock, (uint16_t)first, (uint16_t)second, count == 4);
    if (answer == DDR_NO_MEMORY) return OUT_OF_MEMORY;
    if (answer > 14) return (enum reason)(answer - 100);
    if (answer != 0 && it->rule == 0) {
        it->rule = answer;
        it->broken_line = line;
    }
    return WELL;
}

static enum reason d_line(const report *it, text *fields, size_t count) {
    static const char *const states[] = {"ok", "fixed", "lost", NULL};
    uint64_t answered, line, bytes;
    if (count != 5 || !is_among(fields[4], states)) return FIELDS;
    if (!number(fields[1], &answered) || !number(fields[2], &line)) return NUMBER;
    if (line >= it->lines) return RANGE;
    return hex(fields[3], 128, &bytes) ? WELL : HEX;
}

static enum reason f_line(const report *it, text *fields, size_t count) {
    uint64_t clock, line, device, bit;
    if (count != 5) return FIELDS;
    if (!number(fields[1], &clock) || !number(fields[2], &line) || !number(fields[3], &device) || !number(fields[4], &bit)) return NUMBER;
    return clock < CLOCKS && line < it->lines && device < 4 && bit < 136 ? WELL : RANGE;
}

static enum reason s_line(text *fields, size_t count) {
    static const char *const names[] = {"act", "rd", "wr", "pre", "refab", "refsb", "rfmab", "rfmsb", "ecs", "alert", "peak", "found", "lost", "worst", NULL};
    uint64_t counted;
    if (count != 3 || !is_among(fields[1], names)) return FIELDS;
    return number(fields[2], &counted) ? WELL : NUMBER;
}

static enum reason e_line(text *fields, size_t count, uint64_t *clock) {
    if (count != 2) return FIELDS;
    if (!number(fields[1], clock)) return NUMBER;
    return *clock < CLOCKS ? WELL : RANGE;
}

static enum reason x_line(text *fields, size_t count) {
    uint64_t line, reason;
    if (count != 3) return FIELDS;
    if (!number(fields[1], &line) || !number(fields[2], &reason)) return NUMBER;
    return reason < 256 ? WELL : RANGE;
}

/* C, D and F lines come first, then S lines, then one E line, and at most one X line. */
static enum reason placed(report *it, uint8_t letter) {
    enum stage stage = letter == 'S' ? COUNTS : letter == 'E' ? ENDED : letter == 'X' ? REFUSED : BODY;
    bool fits = stage == BODY ? it->stage == BODY : stage == REFUSED ? it->stage == ENDED : it->stage <= COUNTS;
    it->stage = stage;
    return fits ? WELL : OUT_OF_PLACE;
}

/* Judges the line with this number. */
static enum reason judge(report *it, uint64_t line, text bytes) {
    text fields[MOST_FIELDS];
    uint64_t clock = 0;
    if (bytes.length > LONGEST) return TOO_LONG;
    if (bytes.length == 0) return EMPTY_LINE;
    size_t count = split(bytes, fields);
    uint8_t letter = fields[0].length == 1 ? fields[0].at[0] : 0;
    enum reason reason;
    switch (letter) {
    case 'C': reason = c_line(it, line, fields, count); break;
    case 'D': reason = d_line(it, fields, count); break;
    case 'F': reason = f_line(it, fields, count); break;
    case 'S': reason = s_line(fields, count); break;
    case 'E': reason = e_line(fields, count, &clock); break;
    case 'X': reason = x_line(fields, count); break;
    default: return LETTER;
    }
    if (reason == WELL) reason = placed(it, letter);
    if (reason == WELL && letter == 'E') {
        it->end_line = line;
        it->end = clock;
    }
    return reason;
}

/* Judges the lines after the separator; number is that of the line at which it ends. */
static enum reason judge_lines(report *it, text rest, uint64_t *line) {
    for (*line = 1;; ++*line) {
        if (rest.length == 0) return it->stage >= ENDED ? WELL : NO_END;
        if (*line > MOST_LINES) return TOO_MANY_LINES;
        const uint8_t *feed = memchr(rest.at, '\n', rest.length);
        if (!feed) return rest.length > LONGEST ? TOO_LONG : UNENDED;
        text own = {rest.at, (size_t)(feed - rest.at)};
        enum reason reason = judge(it, *line, own);
        if (reason != WELL) return reason;
        rest = (text){feed + 1, rest.length - own.length - 1};
    }
}

/* Says what was found; answers the status of it. */
static int say(report *it, uint64_t line, enum reason reason) {
    if (reason == OUT_OF_MEMORY) return fputs("out of memory\n", stderr), 5;
    if (reason != WELL) return printf("X %llu %d\n", (unsigned long long)line, reason), 1;
    if (it->rule == 0) {
        it->rule = ddr_end(&it->slot, it->end);
        it->broken_line = it->end_line;
    }
    if (it->rule == 0) return puts("A ok"), 0;
    return printf("A broken %llu %d\n", (unsigned long long)it->broken_line, it->rule), 6;
}

int main(void) {
    report it = {.stage = BODY};
    uint64_t line = 0;
    uint8_t groups;
    text rest, bytes = read_all();
    if (!bytes.at) return fputs("out of memory\n", stderr), 5;
    if (ferror(stdin)) return free((void *)bytes.at), fputs("read fault\n", stderr), 3;
    enum reason reason = open_report(&it.slot, bytes, &rest, &groups);
    it.lines = ddr_lines(&it.slot);
    if (reason == WELL) reason = judge_lines(&it, rest, &line);
    int status = say(&it, line, reason);
    ddr_close(&it.slot);
    free((void *)bytes.at);
    return status;
}
