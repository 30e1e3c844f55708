/* Random calls of the static library: rewriter SEED CALLS COMMANDS ANSWERS.
 *
 * Each call is written to COMMANDS as a command of the program, and what the library answered to ANSWERS, as the program words
 * it up to the number of a refusal; tests/rewriter.sh compares. What no command shows is checked here: a refused call alters
 * nothing, an accepted one nothing but what it says, a buffer of exactly the text's length is enough, and one byte fewer is
 * refused. Networks and buffers lie in blocks of exactly their length, so that valgrind sees an access beside them. */
#include "../c/kegbirun.h"

#include <inttypes.h>
#include <stdbool.h>
#include <stdio.h>
#include <stdlib.h>
#include <string.h>

enum { MOST_BYTES = 40, ROOM = 1 << 18, MARK = 0xa5 };

struct question {
    uint8_t inputs;
    uint32_t table;
    uint8_t depth, fan_out;
};

struct network {
    uint8_t bytes[MOST_BYTES];
    size_t length;
};

static FILE *commands, *answers;

static void require(bool holds, const char *what) {
    if (!holds) {
        fprintf(stderr, "rewriter: %s\n", what);
        exit(1);
    }
}

/* A random number below a limit (xorshift). */
static uint64_t state;

static uint32_t below(uint32_t limit) {
    state ^= state << 13;
    state ^= state >> 7;
    state ^= state << 17;
    return (uint32_t)(state >> 33) % limit;
}

static bool one_in(uint32_t n) { return below(n) == 0; }

/* A block of so many bytes, each MARK; of one byte that counts as none for length 0, since no pointer may be null. */
static uint8_t *block(size_t length) {
    uint8_t *bytes = malloc(length ? length : 1);
    require(bytes, "no memory");
    memset(bytes, MARK, length ? length : 1);
    return bytes;
}

static bool all_marks(const uint8_t *bytes, size_t length) {
    for (size_t i = 0; i < length; i++)
        if (bytes[i] != MARK) return false;
    return true;
}

/* A well-formed network of so many gates over n inputs. */
static struct network random_network(int n, int gates) {
    struct network net = {{(uint8_t)gates}, 3 * (size_t)gates + 2};
    for (int i = 0; i < 3 * gates; i++) net.bytes[1 + i] = (uint8_t)below(2 * (uint32_t)(n + 1 + i / 3));
    net.bytes[net.length - 1] = (uint8_t)below(2 * (uint32_t)(n + 1 + gates));
    return net;
}

/* The table of a well-formed network: a bit for each row. */
static uint32_t table_of(int n, const struct network *net) {
    uint32_t values[16] = {0}, rows = 1u << n, table = 0;
    for (uint32_t row = 0; row < rows; row++) {
        for (int node = 1; node <= n + net->bytes[0]; node++) {
            const uint8_t *codes = net->bytes + 1 + 3 * (node - n - 1);
            uint32_t ones = 0;
            for (int i = 0; node > n && i < 3; i++) ones += values[codes[i] / 2] ^ (codes[i] & 1);
            values[node] = node > n ? ones >= 2 : row >> (node - 1) & 1;
        }
        uint8_t output = net->bytes[net->length - 1];
        table |= (values[output / 2] ^ (output & 1)) << row;
    }
    return table;
}

/* A question that the network may meet, with rare bad numbers. */
static struct question random_question(int n, const struct network *net) {
    struct question q = {(uint8_t)n, table_of(n, net), (uint8_t)below(8), (uint8_t)(1 + below(6))};
    if (one_in(8)) q.table ^= 1u << below(1u << n);
    if (one_in(20)) q.table |= 1u << (below(32 - 16) + 16);
    if (one_in(20)) q.inputs = (uint8_t)(5 + below(251));
    if (one_in(20)) q.depth = (uint8_t)(8 + below(248));
    if (one_in(10)) q.fan_out = (uint8_t)(7 + below(13));
    if (one_in(20)) q.fan_out = (uint8_t)(one_in(2) ? 0 : 20 + below(236));
    return q;
}

/* Damages the bytes of a network in one of many ways. */
static void damage(int n, struct network *net) {
    switch (below(8)) {
        case 0: net->length--; break;
        case 1: net->bytes[net->length++] = (uint8_t)below(256); break;
        case 2: net->length = 0; break;
        case 3: net->bytes[0]++; break;
        case 4: net->bytes[0]--; break;
        case 5: *net = random_network(n, 8); break;
        case 6: net->bytes[1 + below((uint32_t)net->length - 1)] = (uint8_t)below(2 * (uint32_t)(n + 2 + net->bytes[0])); break;
        default: net->bytes[below((uint32_t)net->length)] = (uint8_t)below(256);
    }
}

/* The network in the program's words. Bytes of another length than 3k + 2 are no network: there stands one that is refused as
 * they are, whose output names no node. */
static void write_network(const struct network *net) {
    size_t gates = net->length ? net->bytes[0] : 0;
    if (net->length != 3 * gates + 2) {
        fprintf(commands, ":255");
        return;
    }
    for (size_t i = 0; i < 3 * gates; i++) fprintf(commands, "%s%d", i == 0 ? "" : i % 3 ? "." : ",", net->bytes[1 + i]);
    fprintf(commands, ":%d", net->bytes[net->length - 1]);
}

static void write_question(const char *name, const struct question *q) {
    fprintf(commands, "%s %d %" PRIx32 " %d %d ", name, q->inputs, q->table, q->depth, q->fan_out);
}

static uint32_t examine_call(const struct question *q, const struct network *net) {
    uint8_t *bytes = block(net->length), level = MARK, fan_out = MARK;
    memcpy(bytes, net->bytes, net->length);
    uint32_t number = kegbirun_examine(q->inputs, q->table, q->depth, q->fan_out, bytes, net->length, &level, &fan_out);
    require(memcmp(bytes, net->bytes, net->length) == 0, "examine: the network is altered");
    require(number == KEGBIRUN_DONE || (level == MARK && fan_out == MARK), "examine: a refusal alters a number");
    free(bytes);
    write_question("examine", q);
    write_network(net);
    fprintf(commands, "\n");
    if (number == KEGBIRUN_DONE)
        fprintf(answers, "examine: level %d fan-out %d\n", level, fan_out);
    else
        fprintf(answers, "examine: refused %" PRIu32 "\n", number);
    return number;
}

static uint32_t text_call(const struct question *q, uint8_t gates, uint8_t *buffer, size_t room, size_t *length) {
    *length = MARK;
    uint32_t number = kegbirun_clause_text(q->inputs, q->table, q->depth, q->fan_out, gates, buffer, room, length);
    if (number == KEGBIRUN_DONE)
        require(*length <= room && all_marks(buffer + *length, room - *length), "clause text: bytes behind it are altered");
    else
        require(*length == MARK && all_marks(buffer, room), "clause text: a refusal alters something");
    return number;
}

/* The text in a buffer with room to spare, in one of exactly its length, and in one that is a byte too short. */
static uint32_t clause_text_calls(const struct question *q, uint8_t gates) {
    size_t length, again;
    uint8_t *text = block(ROOM), *none = block(0);
    uint32_t number = text_call(q, gates, text, ROOM, &length);
    uint32_t wanted = number == KEGBIRUN_DONE ? KEGBIRUN_BUFFER_TOO_SHORT : number;
    require(text_call(q, gates, none, 0, &again) == wanted, "clause text: another answer without a buffer");
    write_question("clauses", q);
    fprintf(commands, "%d\n", gates);
    if (number == KEGBIRUN_DONE) {
        uint8_t *exact = block(length), *shorter = block(length - 1);
        require(text_call(q, gates, exact, length, &again) == KEGBIRUN_DONE, "clause text: a buffer of its length is refused");
        require(again == length && memcmp(text, exact, length) == 0, "clause text: another text in a buffer of its length");
        require(text_call(q, gates, shorter, length - 1, &again) == KEGBIRUN_BUFFER_TOO_SHORT, "clause text: a short one passes");
        require(fwrite(text, 1, length, answers) == length, "answers cannot be written");
        free(exact);
        free(shorter);
    } else {
        fprintf(answers, "clauses: refused %" PRIu32 "\n", number);
    }
    free(text);
    free(none);
    return number;
}

/* The networks of docs/NETWORKS.md, whose answers are known. */
static void known_calls(void) {
    const struct network majority = {{1, 2, 4, 6, 8}, 5}, parity = {{3, 2, 4, 6, 2, 4, 7, 9, 10, 6, 12}, 11};
    const struct question gate = {3, 0xe8, 1, 1}, deep = {3, 0x96, 2, 1}, flat = {3, 0x96, 1, 1};
    require(examine_call(&gate, &majority) == KEGBIRUN_DONE, "the majority gate is refused");
    require(examine_call(&deep, &parity) == KEGBIRUN_DONE, "the parity of three inputs is refused");
    require(examine_call(&flat, &parity) == KEGBIRUN_LEVEL_ABOVE_LIMIT, "the parity of three inputs passes within level 1");
    require(examine_call(&gate, &parity) == KEGBIRUN_WRONG_TABLE, "the parity of three inputs passes for the majority");
    require(clause_text_calls(&gate, 1) == KEGBIRUN_DONE, "the clauses of the majority gate are refused");
}

int main(int argc, char **argv) {
    require(argc == 5, "usage: rewriter SEED CALLS COMMANDS ANSWERS");
    state = strtoull(argv[1], NULL, 10) * 2 + 1;
    long calls = strtol(argv[2], NULL, 10);
    commands = fopen(argv[3], "w");
    answers = fopen(argv[4], "w");
    require(commands && answers, "a file cannot be opened");
    known_calls();
    for (long i = 0; i < calls; i++) {
        int n = (int)below(5);
        struct network net = random_network(n, (int)below(8));
        struct question q = random_question(n, &net);
        if (i % 10 == 0) {
            clause_text_calls(&q, (uint8_t)(one_in(10) ? 8 + below(248) : below(8)));
            continue;
        }
        if (one_in(3)) damage(n, &net);
        examine_call(&q, &net);
    }
    require(fclose(commands) == 0 && fclose(answers) == 0, "a file cannot be written");
    return 0;
}
