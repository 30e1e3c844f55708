// Writes the plain clauses of a question and a number of gates as DIMACS text: clauses N TABLE D F R, TABLE hexadecimal.
// They are satisfiable exactly if a majority network of at most R gates meets the question.
// clauses N TABLE D F R exact writes the symmetry clauses behind them: they are then of canonical networks of exactly R gates.
#include <cstdio>
#include <cstdlib>
#include <cstring>
#include <vector>

typedef std::vector<int> Clause;

static int inputs, depth, fan_out, gates;
static long table;
static int variables = 0;
static std::vector<Clause> clauses;

static void add(Clause clause) { clauses.push_back(clause); }

static int first_gate() { return inputs + 1; }
static int nodes() { return inputs + 1 + gates; }
static int rows() { return 1 << inputs; }
static int input_value(int node, int row) { return node == 0 ? 0 : row >> (node - 1) & 1; }

// select[i][c][j], complement[i][c], fan_in[i][c][t], value[i][t], output[j], flipped, deeper[i][d], count[j][k][q]
static std::vector<std::vector<std::vector<int>>> select_, fan_in, count_;
static std::vector<std::vector<int>> complement_, value_, deeper;
static std::vector<int> output_;
static int flipped;

static std::vector<int> uses(int gate) {
    std::vector<int> all;
    for (int i = gate + 1; i < nodes(); i++)
        for (int c = 0; c < 3; c++) all.push_back(select_[i][c][gate]);
    all.push_back(output_[gate]);
    return all;
}

static bool limited(int gate) { return (int)uses(gate).size() > fan_out; }

static void number() {
    select_.resize(nodes());
    complement_.resize(nodes());
    fan_in.resize(nodes());
    value_.resize(nodes());
    deeper.resize(nodes());
    count_.resize(nodes());
    for (int i = first_gate(); i < nodes(); i++) {
        select_[i].resize(3);
        for (int c = 0; c < 3; c++)
            for (int j = 0; j < i; j++) select_[i][c].push_back(++variables);
    }
    for (int i = first_gate(); i < nodes(); i++)
        for (int c = 0; c < 3; c++) complement_[i].push_back(++variables);
    for (int i = first_gate(); i < nodes(); i++) {
        fan_in[i].resize(3);
        for (int c = 0; c < 3; c++)
            for (int t = 0; t < rows(); t++) fan_in[i][c].push_back(++variables);
    }
    for (int i = first_gate(); i < nodes(); i++)
        for (int t = 0; t < rows(); t++) value_[i].push_back(++variables);
    for (int j = 0; j < nodes(); j++) output_.push_back(++variables);
    flipped = ++variables;
    for (int i = first_gate(); i < nodes(); i++)
        for (int d = 0; d <= depth; d++) deeper[i].push_back(++variables);
    for (int j = first_gate(); j < nodes(); j++) {
        if (!limited(j)) continue;
        count_[j].resize(uses(j).size());
        for (auto &row : count_[j])
            for (int q = 0; q < fan_out; q++) row.push_back(++variables);
    }
}

static void exactly_one(const std::vector<int> &choices) {
    add(choices);
    for (size_t a = 0; a < choices.size(); a++)
        for (size_t b = a + 1; b < choices.size(); b++) add({-choices[a], -choices[b]});
}

static void choices_and_values() {
    for (int i = first_gate(); i < nodes(); i++)
        for (int c = 0; c < 3; c++) exactly_one(select_[i][c]);
    for (int i = first_gate(); i < nodes(); i++)
        for (int c = 0; c < 3; c++)
            for (int j = 0; j < i; j++)
                for (int t = 0; t < rows(); t++) {
                    int s = select_[i][c][j], n = complement_[i][c], a = fan_in[i][c][t];
                    if (j > inputs) {
                        int b = value_[j][t];
                        add({-s, -a, b, n}), add({-s, a, -b, n}), add({-s, a, b, -n}), add({-s, -a, -b, -n});
                    } else if (input_value(j, t)) {
                        add({-s, a, n}), add({-s, -a, -n});
                    } else {
                        add({-s, -a, n}), add({-s, a, -n});
                    }
                }
    for (int i = first_gate(); i < nodes(); i++)
        for (int t = 0; t < rows(); t++)
            for (int c = 0; c < 3; c++)
                for (int e = c + 1; e < 3; e++) {
                    int a = fan_in[i][c][t], other = fan_in[i][e][t], b = value_[i][t];
                    add({-a, -other, b}), add({a, other, -b});
                }
}

static void output_clauses() {
    exactly_one(output_);
    for (int j = 0; j < nodes(); j++)
        for (int t = 0; t < rows(); t++) {
            int o = output_[j], f = table >> t & 1;
            if (j <= inputs) {
                add({-o, input_value(j, t) != f ? flipped : -flipped});
                continue;
            }
            int b = value_[j][t];
            if (f)
                add({-o, b, flipped}), add({-o, -b, -flipped});
            else
                add({-o, -b, flipped}), add({-o, b, -flipped});
        }
}

static void limit_clauses() {
    for (int i = first_gate(); i < nodes(); i++) {
        add({deeper[i][0]});
        for (int c = 0; c < 3; c++)
            for (int j = first_gate(); j < i; j++)
                for (int d = 0; d < depth; d++) add({-select_[i][c][j], -deeper[j][d], deeper[i][d + 1]});
    }
    for (int j = first_gate(); j < nodes(); j++) add({-output_[j], -deeper[j][depth]});
    for (int j = first_gate(); j < nodes(); j++) {
        if (!limited(j)) continue;
        std::vector<int> all = uses(j);
        for (size_t k = 0; k < all.size(); k++) {
            add({-all[k], count_[j][k][0]});
            if (k == 0) continue;
            for (int q = 0; q < fan_out; q++) add({-count_[j][k - 1][q], count_[j][k][q]});
            for (int q = 0; q + 1 < fan_out; q++) add({-all[k], -count_[j][k - 1][q], count_[j][k][q + 1]});
            add({-all[k], -count_[j][k - 1][fan_out - 1]});
        }
    }
}

// Groups a to c: of the fan-ins of a gate at most one is complemented; their nodes rise, or the first two are the constant and its
// complement; and a gate with such a pair copies a gate.
static void fan_in_order() {
    for (int i = first_gate(); i < nodes(); i++)
        for (int c = 0; c < 3; c++)
            for (int e = c + 1; e < 3; e++) add({-complement_[i][c], -complement_[i][e]});
    for (int i = first_gate(); i < nodes(); i++)
        for (int j = 0; j < i; j++)
            for (int k = 0; k <= j; k++) {
                add({-select_[i][0][j], -select_[i][1][k]});
                if (j == 0) clauses.back().push_back(complement_[i][1]);
                add({-select_[i][1][j], -select_[i][2][k]});
            }
    for (int i = first_gate(); i < nodes(); i++)
        for (int j = 0; j <= inputs; j++) add({-select_[i][0][0], -select_[i][1][0], -select_[i][2][j]});
}

// Groups d to g: the output is the last gate; each other gate is named by a later one; each gate is 0 in row 0; the third fan-in of a
// gate is not behind that of the next gate, unless that is the gate itself.
static void gate_order() {
    int last = nodes() - 1;
    if (gates > 0) add({output_[last]});
    for (int j = first_gate(); j < last; j++) {
        std::vector<int> named = uses(j);
        named.pop_back();
        add(named);
    }
    for (int i = first_gate(); i < nodes(); i++) add({-value_[i][0]});
    for (int i = first_gate(); i < last; i++)
        for (int j = 0; j < i; j++)
            for (int k = 0; k < j; k++) add({-select_[i][2][j], -select_[i + 1][2][k]});
}

// Whether the table is the same with the inputs a and b exchanged.
static bool symmetric_in(int a, int b) {
    for (int row = 0; row < rows(); row++) {
        int differ = (row >> (a - 1) ^ row >> (b - 1)) & 1;
        int exchanged = row ^ (differ << (a - 1) | differ << (b - 1));
        if ((table >> row & 1) != (table >> exchanged & 1)) return false;
    }
    return true;
}

// Group h: of two inputs in which the table is symmetric, the first is named by no later gate than the second.
static void input_order() {
    for (int a = 1; a <= inputs; a++)
        for (int b = a + 1; b <= inputs; b++) {
            if (!symmetric_in(a, b)) continue;
            for (int i = first_gate(); i < nodes(); i++)
                for (int c = 0; c < 3; c++) {
                    Clause clause = {-select_[i][c][b]};
                    for (int j = first_gate(); j <= i; j++)
                        for (int d = 0; d < 3; d++) clause.push_back(select_[j][d][a]);
                    add(clause);
                }
        }
}

int main(int words, char **word) {
    bool exact = words == 7 && !strcmp(word[6], "exact");
    if (words != 6 && !exact) return 1;
    inputs = atoi(word[1]), table = strtol(word[2], 0, 16), depth = atoi(word[3]), fan_out = atoi(word[4]), gates = atoi(word[5]);
    number();
    choices_and_values();
    output_clauses();
    limit_clauses();
    if (exact) fan_in_order(), gate_order(), input_order();
    printf("p cnf %d %zu\n", variables, clauses.size());
    for (const Clause &clause : clauses) {
        for (int literal : clause) printf("%d ", literal);
        puts("0");
    }
}
