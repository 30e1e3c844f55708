// The representatives of all 65,536 tables over four inputs, by going through the 768 ways one by one.
#include <algorithm>
#include <array>
#include <cstdint>
#include <cstdio>

static uint16_t carried(uint16_t table, const std::array<int, 4> &order, unsigned mask) {
    uint16_t out = 0;
    for (unsigned row = 0; row < 16; row++) {
        unsigned old = 0;
        for (int input = 0; input < 4; input++)
            old |= ((row >> order[input] & 1) ^ (mask >> input & 1)) << input;
        out |= (table >> old & 1) << row;
    }
    return out;
}

int main() {
    for (unsigned table = 0; table < 65536; table++) {
        uint16_t best = 0xffff;
        std::array<int, 4> order = {0, 1, 2, 3};
        do {
            for (unsigned mask = 0; mask < 16; mask++) {
                uint16_t there = carried(table, order, mask);
                best = std::min({best, there, uint16_t(~there)});
            }
        } while (std::next_permutation(order.begin(), order.end()));
        std::printf("representative: %04x\n", best);
    }
}
