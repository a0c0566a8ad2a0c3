/* exec.c: reads a script from standard input and writes what `ddr exec` writes, with its statuses, by the C interface. It is for
 * scripts whose lines are in the grammar and in their places; at any other line it ends with status 2. */
#include "report.h"

typedef struct script {
    ddr_slot slot;
    ddr_line line;
    uint8_t groups;
    uint32_t rows[32];                     /* that each bank had opened last */
    uint64_t last;                         /* the clock of the last command */
    text waiting;                          /* the line of the WR whose bytes come next, and its number */
    uint64_t number;
    bool has_ended;
} script;

/* A command, in its words. */
typedef struct command {
    uint64_t clock, first, second;
    bool has_second;
} command;

enum status { FINE = 0, OTHER = 2, NO_MEMORY = 5, BROKEN = 6 };

static bool read_command(text line, command *it) {
    text fields[MOST_FIELDS];
    size_t count = split(line, fields);
    it->second = 0;
    it->has_second = count == 4;
    return (count == 3 || count == 4) && number(fields[1], &it->clock) && hex(fields[2], 4, &it->first)
        && (count == 3 || hex(fields[3], 4, &it->second));
}

static unsigned bank_of(const command *it) { return it->first >> 6 & 31; } /* bank address in the low two bits */

static bool has_kind(const command *it, unsigned low_five) { return (it->first & 31) == low_five; }

/* The number of the line that an RD or WR is of. */
static uint64_t line_of(const script *it, const command *command) {
    uint64_t row = it->rows[bank_of(command)], column = command->second >> 2 & 63;
    return ((row * 64 + column) * 4 + (bank_of(command) & 3)) * it->groups + (bank_of(command) >> 2);
}

static void put_data(const script *it, const command *command, uint64_t number) {
    static const char *const states[] = {"ok", "fixed", "lost"};
    printf("D %llu %llu ", (unsigned long long)number, (unsigned long long)line_of(it, command));
    for (int i = 0; i < 64; i++) printf("%02x", it->line.bytes[i]);
    printf(" %s\n", states[it->line.state]);
}

/* Says how a call was answered that is not fine. */
static enum status stopped(uint64_t number, int answer) {
    if (answer == DDR_NO_MEMORY) return NO_MEMORY;
    if (answer > 14) return OTHER;
    printf("A broken %llu %d\n", (unsigned long long)number, answer);
    return BROKEN;
}

/* Gives a command of this line to the slot, and writes what is executed of it. */
static enum status issue(script *it, text line, uint64_t number) {
    command command;
    if (!read_command(line, &command)) return OTHER;
    int answer = ddr_step(&it->slot, command.clock, (uint16_t)command.first, (uint16_t)command.second, command.has_second, &it->line);
    if (answer != 0) return stopped(number, answer);
    if ((command.first & 3) == 0) it->rows[bank_of(&command)] = (uint32_t)(command.first >> 2 & 15) | (uint32_t)command.second << 4;
    it->last = command.clock;
    printf("%.*s\n", (int)line.length, (const char *)line.at);
    if (it->line.has_line) put_data(it, &command, number);
    return FINE;
}

/* The bytes of the WR that waits. */
static enum status write(script *it, const text *fields, size_t count) {
    if (!it->waiting.at || count != 2 || fields[1].length != 128) return OTHER;
    for (size_t i = 0; i < 64; i++) {
        uint64_t byte;
        if (!hex((text){fields[1].at + 2 * i, 2}, 2, &byte)) return OTHER;
        it->line.bytes[i] = (uint8_t)byte;
    }
    text line = it->waiting;
    it->waiting.at = NULL;
    return issue(it, line, it->number);
}

static enum status flip(script *it, const text *fields, size_t count, uint64_t number_of_line) {
    uint64_t line, device, bit;
    if (count != 4 || !number(fields[1], &line) || !number(fields[2], &device) || !number(fields[3], &bit)) return OTHER;
    if (line > UINT32_MAX || device > 3 || bit > 135) return OTHER;
    int answer = ddr_flip(&it->slot, (uint32_t)line, (uint8_t)device, (uint8_t)bit);
    if (answer != 0) return stopped(number_of_line, answer);
    printf("F %llu %llu %llu %llu\n", (unsigned long long)it->last, (unsigned long long)line, (unsigned long long)device, (unsigned long long)bit);
    return FINE;
}

static enum status end(script *it, const text *fields, size_t count, uint64_t number_of_line) {
    uint64_t clock;
    ddr_totals totals;
    if (count != 2 || !number(fields[1], &clock)) return OTHER;
    int answer = ddr_counts(&it->slot, &totals);
    if (answer == 0) answer = ddr_end(&it->slot, clock);
    if (answer != 0) return stopped(number_of_line, answer);
    it->has_ended = true;
    printf("S peak %lu\nS found %llu\nS lost %llu\nS worst %llu\nE %llu\n", (unsigned long)totals.peak, (unsigned long long)totals.found,
           (unsigned long long)totals.lost, (unsigned long long)totals.worst, (unsigned long long)clock);
    return FINE;
}

/* Carries out the line with this number. A WR waits for the next one. */
static enum status act(script *it, text line, uint64_t number) {
    text fields[MOST_FIELDS];
    size_t count = split(line, fields);
    command command;
    if (it->waiting.at) return is(fields[0], "B") ? write(it, fields, count) : OTHER;
    if (is(fields[0], "F")) return flip(it, fields, count, number);
    if (is(fields[0], "E")) return end(it, fields, count, number);
    if (!is(fields[0], "C") || !read_command(line, &command)) return OTHER;
    if (!has_kind(&command, 0x0d)) return issue(it, line, number);
    it->waiting = line;
    it->number = number;
    return FINE;
}

static enum status run(script *it, text rest) {
    for (uint64_t number = 1; rest.length > 0; number++) {
        const uint8_t *feed = memchr(rest.at, '\n', rest.length);
        if (!feed) return OTHER;
        text line = {rest.at, (size_t)(feed - rest.at)};
        enum status status = act(it, line, number);
        if (status != FINE) return status;
        rest = (text){feed + 1, rest.length - line.length - 1};
    }
    return it->has_ended ? FINE : OTHER;
}

int main(void) {
    script it;
    memset(&it, 0, sizeof it);
    text rest, bytes = read_all();
    if (!bytes.at) return NO_MEMORY;
    enum status status = OTHER;
    if (open_report(&it.slot, bytes, &rest, &it.groups) == WELL) {
        fwrite(bytes.at, 1, (size_t)(rest.at - bytes.at), stdout);
        status = run(&it, rest);
    }
    ddr_close(&it.slot);
    free((void *)bytes.at);
    return status;
}
