/* ddr_dpi.c: what SystemVerilog calls by DPI-C (ddr_dpi.sv). It passes on to ddr_c.h: a chandle in place of a slot, and the texts of
 * rules. No proof speaks of it. */
#include "ddr_c.h"
#include <stdlib.h>
#include <string.h>

/* A new slot under this header; null where it is refused, and then why is the answer of ddr_open. */
void *ddr_sv_open(const char *header, unsigned cycle, unsigned char groups, int *why) {
    ddr_slot *slot = calloc(1, sizeof *slot);
    *why = slot ? ddr_open(slot, (const uint8_t *)header, strlen(header), cycle, groups) : DDR_NO_MEMORY;
    if (slot && *why) {
        free(slot);
        slot = NULL;
    }
    return slot;
}

/* A command, for an auditor alone. */
int ddr_sv_take(void *slot, unsigned long long clock, unsigned short first, unsigned short second, unsigned char has_second) {
    return ddr_take(slot, clock, first, second, has_second != 0);
}

/* A command, with the bytes of a WR, and what the device answers. */
int ddr_sv_step(void *slot, unsigned long long clock, unsigned short first, unsigned short second, unsigned char has_second,
                unsigned char *bytes, unsigned char *has_line, unsigned char *state, unsigned char *alert) {
    ddr_line line = {{0}, false, 0, *alert != 0};
    memcpy(line.bytes, bytes, sizeof line.bytes);
    int answer = ddr_step(slot, clock, first, second, has_second != 0, &line);
    memcpy(bytes, line.bytes, sizeof line.bytes);
    *has_line = line.has_line;
    *state = line.state;
    *alert = line.alert;
    return answer;
}

int ddr_sv_flip(void *slot, unsigned line, unsigned char device, unsigned char bit) { return ddr_flip(slot, line, device, bit); }

/* The end; the slot is gone after it. A null one, of a header that was refused, is answered as an empty one. */
int ddr_sv_end(void *slot, unsigned long long clock) {
    if (!slot) return DDR_EMPTY;
    int answer = ddr_end(slot, clock);
    ddr_close(slot);
    free(slot);
    return answer;
}

/* An answer in words. */
const char *ddr_sv_text(int answer) {
    static const char *const rules[] = {
        "all is well",
        "a command is no later than the one before it",
        "a command comes too soon after another",
        "five activations come within nFAW",
        "ACT of an open bank, or RD or WR of a closed one",
        "REF, RFM, ECS or MRW while a bank that it covers is open",
        "more than four refreshes are owed, or ahead",
        "the refreshes of two bank addresses differ by more than one",
        "ECS out of step with the refreshes",
        "ACT of a bank whose rolling count is RAAMMT",
        "RFMsb where no rolling count is RAAIMT",
        "RFMab where no rolling count is RAAIMT and no alert is raised",
        "ACT behind the window of the alert",
        "an alert is not served in time",
        "the register writes are not first, or the end has an open bank or a raised alert",
    };
    if (answer >= 0 && answer <= 14) return rules[answer];
    if (answer == DDR_OUT_OF_RANGE) return "the header has no such row or bank group, or the clock is too large";
    if (answer == DDR_NO_MEMORY) return "out of memory";
    return answer >= 131 && answer <= 135 ? "the words spell no command" : "the header is refused, or nothing is open";
}
