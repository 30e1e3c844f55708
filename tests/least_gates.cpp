// The fewest majority gates, up to four, for every table over N inputs under every pair of limits: least_gates N.
//
// Writes a byte for each table, each depth limit 0 to 7 and each fan-out limit 1 to 19, the fan-out limit varying fastest:
// the least number of gates of a network within the limits, or 5 where four gates do not suffice. Networks are tried one by
// one. Left out are only
// - the order of a gate's fan-ins;
// - gates with more than one complemented fan-in: flipping all three and every code that names the gate changes nothing else;
// - complemented outputs: a table and its complement need the same number of gates;
// - outputs at another gate than the last: the gates behind the output can be taken out;
// - four gates of which the last does not name the third: nothing names the third, and it can be taken out.
#include <algorithm>
#include <array>
#include <cstdio>
#include <cstdlib>
#include <vector>

static const int MOST = 4, MORE = 5;

static int inputs;
static unsigned full;

// The nodes so far: how often gates name each, its table, its level.
static int nodes;
static int named[16];
static unsigned tables[16];
static int levels[16];

// least[table][level][greatest fan-out]
static std::vector<std::array<std::array<unsigned char, 10>, MOST + 1>> least;

// Notes the network of the gates so far, with its newest node as the output, which is one use of it.
static void note() {
    int gates = std::max(0, nodes - inputs - 1), greatest = gates > 0;
    for (int node = inputs + 1; node < nodes; node++) greatest = std::max(greatest, named[node]);
    unsigned char &best = least[tables[nodes - 1]][levels[nodes - 1]][greatest];
    best = std::min<int>(best, gates);
}

static unsigned value(int node, bool complemented) { return complemented ? full - tables[node] : tables[node]; }

static void extend();

// Takes a gate on three nodes, of which the one at a place is complemented (or none, at place 3), and goes on.
static void take(int a, int b, int c, int place) {
    unsigned x = value(a, place == 0), y = value(b, place == 1), z = value(c, place == 2);
    tables[nodes] = (x & y) | (x & z) | (y & z);
    levels[nodes] = 1 + std::max({levels[a], levels[b], levels[c]});
    named[nodes] = 0;
    named[a]++, named[b]++, named[c]++, nodes++;
    note();
    extend();
    named[a]--, named[b]--, named[c]--, nodes--;
}

// Tries every gate behind the gates so far.
static void extend() {
    int before = nodes - inputs - 1;
    if (before == MOST) return;
    int lowest = before == MOST - 1 ? nodes - 1 : 0;
    for (int a = 0; a < nodes; a++)
        for (int b = a; b < nodes; b++)
            for (int c = std::max(b, lowest); c < nodes; c++) {
                take(a, b, c, 3);
                take(a, b, c, 0);
                if (b != a) take(a, b, c, 1);
                if (c != b) take(a, b, c, 2);
            }
}

// The least number for a table and limits.
static int fewest(unsigned table, int depth, int limit) {
    int best = MORE;
    for (int level = 0; level <= std::min(depth, MOST); level++)
        for (int uses = 0; uses <= std::min(limit, 9); uses++)
            best = std::min<int>(best, std::min(least[table][level][uses], least[full - table][level][uses]));
    return best;
}

int main(int words, char **word) {
    if (words != 2) return 1;
    inputs = atoi(word[1]);
    int rows = 1 << inputs;
    full = (1u << rows) - 1;
    least.resize(full + 1);
    for (auto &of_table : least)
        for (auto &of_level : of_table) of_level.fill(MORE);
    for (nodes = 0; nodes <= inputs;) {
        unsigned table = 0;
        for (int row = 0; row < rows && nodes > 0; row++) table |= (row >> (nodes - 1) & 1u) << row;
        tables[nodes++] = table;
        note();
    }
    extend();
    for (unsigned table = 0; table <= full; table++)
        for (int depth = 0; depth <= 7; depth++)
            for (int limit = 1; limit <= 19; limit++) putchar(fewest(table, depth, limit));
}
