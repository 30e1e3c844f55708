// The fewest majority gates for each table over three inputs, by trying every network of at most three gates.
//
// Prints a line for each depth limit 0 to 3 and each fan-out limit 1, 2 and 19: 256 digits, one for each table from 00 to
// ff, the least number of gates of a network within the limits, or 4 where three gates do not suffice. Nothing is left out
// but the order of a gate's fan-ins: repeated nodes, any complements, unused gates and any output are all tried.
#include <algorithm>
#include <array>
#include <cstdio>
#include <vector>

static const int INPUTS = 3, MOST = 3, MORE = 4;

struct Gate {
    int codes[3];
};

// least[table][level][fan-out]
static int least[256][4][20];

static std::vector<Gate> gates;
static std::vector<int> tables = {0x00, 0xaa, 0xcc, 0xf0};
static std::vector<int> levels = {0, 0, 0, 0};

static int value(int code) { return code % 2 ? 255 - tables[code / 2] : tables[code / 2]; }

static int fan_out(int output) {
    int greatest = 0;
    for (int node = INPUTS + 1; node < (int)tables.size(); node++) {
        int uses = output / 2 == node;
        for (const Gate &gate : gates)
            for (int code : gate.codes) uses += code / 2 == node;
        greatest = std::max(greatest, uses);
    }
    return greatest;
}

static void note_outputs() {
    for (int output = 0; output < 2 * (int)tables.size(); output++) {
        int &best = least[value(output)][levels[output / 2]][fan_out(output)];
        best = std::min(best, (int)gates.size());
    }
}

static void extend() {
    note_outputs();
    if ((int)gates.size() == MOST) return;
    int codes = 2 * tables.size();
    for (int a = 0; a < codes; a++)
        for (int b = a; b < codes; b++)
            for (int c = b; c < codes; c++) {
                int x = value(a), y = value(b), z = value(c);
                gates.push_back({{a, b, c}});
                tables.push_back((x & y) | (x & z) | (y & z));
                levels.push_back(1 + std::max({levels[a / 2], levels[b / 2], levels[c / 2]}));
                extend();
                gates.pop_back();
                tables.pop_back();
                levels.pop_back();
            }
}

int main() {
    std::fill(&least[0][0][0], &least[0][0][0] + 256 * 4 * 20, MORE);
    extend();
    for (int depth = 0; depth <= 3; depth++)
        for (int limit : {1, 2, 19}) {
            for (int table = 0; table < 256; table++) {
                int best = MORE;
                for (int level = 0; level <= depth; level++)
                    for (int uses = 0; uses <= limit; uses++) best = std::min(best, least[table][level][uses]);
                std::putchar('0' + best);
            }
            std::putchar('\n');
        }
}
