/* Majority networks of up to seven gates over up to four inputs: whether one meets a question, and the clauses of a question.
 *
 * docs/REWRITER.md says what is meant, and how to link the library.
 *
 * A question is a number of inputs, a table and two limits, the first four parameters of both functions.
 *
 * A network is 3k + 2 bytes: the number of gates k, the three fan-in codes of each gate, gate by gate, and the code of the
 * output. A code is twice a node, plus 1 if complemented: node 0 is the constant 0, nodes 1 to n are the inputs, and the gates
 * follow in their order.
 *
 * Each function returns 0, or the number of a refusal: the first in the order that stands at the function. It then alters
 * nothing behind the pointers.
 *
 * Every pointer is valid and not null, also that of a slice of no bytes, and what it points to is initialised. What a pointer
 * that is not const points to overlaps with nothing else that is passed, and nothing else reads or writes it during the call;
 * nothing writes what a const pointer points to during the call. The functions keep no pointer, allocate nothing, and may be
 * called by several threads at a time. */
#ifndef KEGBIRUN_H
#define KEGBIRUN_H

#include <stddef.h>
#include <stdint.h>

#ifdef __cplusplus
extern "C" {
#endif

/* What a call returns. */
enum kegbirun_answer {
    KEGBIRUN_DONE = 0,
    KEGBIRUN_INPUTS_ABOVE_FOUR = 1,
    KEGBIRUN_TABLE_BIT_BEYOND_ROWS = 2,
    KEGBIRUN_DEPTH_LIMIT_ABOVE_SEVEN = 3,
    KEGBIRUN_FAN_OUT_LIMIT_OUT_OF_RANGE = 4,
    KEGBIRUN_GATES_ABOVE_SEVEN = 5,
    KEGBIRUN_MALFORMED_NETWORK = 9,
    KEGBIRUN_WRONG_TABLE = 10,
    KEGBIRUN_LEVEL_ABOVE_LIMIT = 11,
    KEGBIRUN_FAN_OUT_ABOVE_LIMIT = 12,
    KEGBIRUN_BUFFER_TOO_SHORT = 14
};

/* Whether a network meets a question.
 * Returns 0 exactly if the question is within bounds and the bytes are those of a well-formed network of at most seven gates
 * that computes the table within both limits; else 1, 2, 3, 4, 9, 10, 11 or 12, the first of them that applies. */
uint32_t kegbirun_examine(
    uint8_t inputs,             /* the number of inputs n, 0 to 4 */
    uint32_t table,             /* bit t is the value in row t, where input i is bit i - 1 of t; bits from 2^n on are 0 */
    uint8_t depth,              /* the greatest level that the output may have, 0 to 7 */
    uint8_t fan_out,            /* the greatest fan-out that a gate may have, 1 to 19 */
    const uint8_t *network,     /* the bytes of the network; read */
    size_t network_length,      /* how many bytes those are; any number but 3k + 2 is refused with 9 */
    uint8_t *level,             /* one byte; on 0 it becomes the level of the network, else it stays */
    uint8_t *greatest_fan_out   /* one byte; on 0 it becomes the greatest fan-out of a gate (0 without gates), else it stays */
);

/* The clauses of a question and a number of gates, as text in the DIMACS form: they can be satisfied exactly if a network of at
 * most that many gates meets the question.
 * Returns 0, or 1, 2, 3, 4, 5 or 14, the first of them that applies. */
uint32_t kegbirun_clause_text(
    uint8_t inputs,             /* as above */
    uint32_t table,             /* as above */
    uint8_t depth,              /* as above */
    uint8_t fan_out,            /* as above */
    uint8_t gates,              /* the number of gates, 0 to 7 */
    uint8_t *buffer,            /* on 0 its first bytes become the text, with no 0 byte behind it; all others stay */
    size_t buffer_length,       /* how many bytes the buffer has; 14 if they are fewer than the text's */
    size_t *text_length         /* one number; on 0 it becomes the number of bytes of the text, else it stays */
);

#ifdef __cplusplus
}
#endif

#endif
