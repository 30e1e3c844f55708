/* Examines the majority gate of three inputs, and prints the clauses of the question that it meets. */
#include "kegbirun.h"

#include <stdio.h>

int main(void) {
    /* Table e8 within level 1 and fan-out 1, and the network 2.4.6:8 of one gate. */
    const uint8_t inputs = 3, depth = 1, fan_out = 1;
    const uint32_t table = 0xe8;
    const uint8_t network[] = {1, 2, 4, 6, 8};

    uint8_t level = 0, greatest_fan_out = 0;
    uint32_t refusal = kegbirun_examine(inputs, table, depth, fan_out, network, sizeof network, &level, &greatest_fan_out);
    if (refusal != KEGBIRUN_DONE) {
        fprintf(stderr, "examine: refused %u\n", (unsigned)refusal);
        return 1;
    }
    fprintf(stderr, "examine: level %d fan-out %d\n", level, greatest_fan_out);

    static uint8_t text[1 << 16];
    size_t length = 0;
    refusal = kegbirun_clause_text(inputs, table, depth, fan_out, network[0], text, sizeof text, &length);
    if (refusal != KEGBIRUN_DONE) {
        fprintf(stderr, "clause text: refused %u\n", (unsigned)refusal);
        return 1;
    }
    return fwrite(text, 1, length, stdout) == length ? 0 : 1;
}
