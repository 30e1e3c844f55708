#!/usr/bin/env python3
"""An independent model of the clauses of a question, and comparisons with it.

  clause_model.py --text N TABLE D F R    prints the model's text
  clause_model.py --longest               the longest text and the most variables of any question
  clause_model.py --write                 writes the stored commands on clauses of crates/kegbirun and their answers, behind all others
  clause_model.py --check                 compares these stored answers with the model's
  clause_model.py --random N SEED         runs the built program on N random commands on clauses and compares each answer
  clause_model.py --cadical N SEED        N random questions with up to three inputs and three gates: cadical's verdict on the
                                          program's text is that of `ask`, and cadical's model, handed back through `network`,
                                          is accepted by `examine`, and so is the network that `ask` gives
  clause_model.py --cadical N SEED I R    the same with up to I inputs and R gates; left out where cadical takes more than 20 s

The model is written from the rules in docs/ alone. It first lists the variables by what they say, in their order, and numbers
them by counting; the clauses are lists of such variables. It writes and reads assignments by the same list.
"""
import itertools
import os
import random
import subprocess
import sys

from command_model import CLAUSES, PROGRAM, Refused, STORED, WORDS, check_form, check_question, code_bit, examine
from command_model import network_word, node_bit, node_level, read

WORDS = dict(WORDS)
WORDS.update({14: "buffer too short", 18: "not one byte of 0 or 1 for each variable", 19: "a clause fails"})


def uses(n, r, j):
    """The uses of gate j: as a fan-in of each later gate, then as the output."""
    return [("S", i, c, j) for i in range(j + 1, n + r + 1) for c in (1, 2, 3)] + [("O", j)]


def variables(n, depth, fan_out, r):
    gates, rows = range(n + 1, n + r + 1), range(2**n)
    listed = [("S", i, c, j) for i in gates for c in (1, 2, 3) for j in range(i)]
    listed += [("N", i, c) for i in gates for c in (1, 2, 3)]
    listed += [("A", i, c, t) for i in gates for c in (1, 2, 3) for t in rows]
    listed += [("B", i, t) for i in gates for t in rows]
    listed += [("O", j) for j in range(n + r + 1)]
    listed += [("Q",)]
    listed += [("H", i, d) for i in gates for d in range(depth + 1)]
    for j in gates:
        count = len(uses(n, r, j))
        if count > fan_out:
            listed += [("K", j, k, q) for k in range(1, count + 1) for q in range(1, fan_out + 1)]
    return listed


def no(variable):
    return ("-", variable)


def exactly_one(choices):
    yield list(choices)
    for pair in itertools.combinations(choices, 2):
        yield [no(variable) for variable in pair]


def clauses(n, table, depth, fan_out, r):
    gates, rows = range(n + 1, n + r + 1), range(2**n)

    def given(node, row):
        return node_bit(n, [], node, row)

    for i in gates:
        for c in (1, 2, 3):
            yield from exactly_one([("S", i, c, j) for j in range(i)])
    for i, c in itertools.product(gates, (1, 2, 3)):
        for j, t in itertools.product(range(i), rows):
            s, a, comp, b = no(("S", i, c, j)), ("A", i, c, t), ("N", i, c), ("B", j, t)
            if j > n:
                yield [s, no(a), b, comp]
                yield [s, a, no(b), comp]
                yield [s, a, b, no(comp)]
                yield [s, no(a), no(b), no(comp)]
            elif given(j, t):
                yield [s, a, comp]
                yield [s, no(a), no(comp)]
            else:
                yield [s, no(a), comp]
                yield [s, a, no(comp)]
    for i, t in itertools.product(gates, rows):
        for x, y in ((1, 2), (1, 3), (2, 3)):
            a, a2, b = ("A", i, x, t), ("A", i, y, t), ("B", i, t)
            yield [no(a), no(a2), b]
            yield [a, a2, no(b)]
    yield from exactly_one([("O", j) for j in range(n + r + 1)])
    for j, t in itertools.product(range(n + r + 1), rows):
        o, q, b, wanted = no(("O", j)), ("Q",), ("B", j, t), table >> t & 1
        if j <= n:
            yield [o, q] if given(j, t) != wanted else [o, no(q)]
        elif wanted:
            yield [o, b, q]
            yield [o, no(b), no(q)]
        else:
            yield [o, no(b), q]
            yield [o, b, no(q)]
    for i in gates:
        yield [("H", i, 0)]
        for c in (1, 2, 3):
            for j, d in itertools.product(range(n + 1, i), range(depth)):
                yield [no(("S", i, c, j)), no(("H", j, d)), ("H", i, d + 1)]
    for j in gates:
        yield [no(("O", j)), no(("H", j, depth))]
    for j in gates:
        used = uses(n, r, j)
        if len(used) <= fan_out:
            continue
        for k, u in enumerate(used, 1):
            yield [no(u), ("K", j, k, 1)]
            if k > 1:
                for q in range(1, fan_out + 1):
                    yield [no(("K", j, k - 1, q)), ("K", j, k, q)]
                for q in range(1, fan_out):
                    yield [no(u), no(("K", j, k - 1, q)), ("K", j, k, q + 1)]
                yield [no(u), no(("K", j, k - 1, fan_out))]


def numbered(n, table, depth, fan_out, r):
    """How many variables there are, and the clauses by number."""
    number = {variable: i for i, variable in enumerate(variables(n, depth, fan_out, r), 1)}
    return len(number), [
        [-number[x[1]] if x[0] == "-" else number[x] for x in clause] for clause in clauses(n, table, depth, fan_out, r)]


def text(n, table, depth, fan_out, r):
    count, listed = numbered(n, table, depth, fan_out, r)
    lines = [f"p cnf {count} {len(listed)}"] + [" ".join(map(str, clause + [0])) for clause in listed]
    return "".join(line + "\n" for line in lines)


def check(n, table, depth, fan_out, r):
    check_question(n, table, depth, fan_out)
    if r > 7:
        raise Refused(5)


def value(n, gates, output, r, variable):
    kind, *at = variable
    if kind == "S":
        return gates[at[0] - n - 1][at[1] - 1] // 2 == at[2]
    if kind == "N":
        return gates[at[0] - n - 1][at[1] - 1] % 2
    if kind == "A":
        return code_bit(n, gates, gates[at[0] - n - 1][at[1] - 1], at[2])
    if kind == "B":
        return node_bit(n, gates, at[0], at[1])
    if kind == "O":
        return output // 2 == at[0]
    if kind == "Q":
        return output % 2
    if kind == "H":
        return node_level(n, gates, at[0]) > at[1]
    j, k, q = at
    return sum(bool(value(n, gates, output, r, u)) for u in uses(n, r, j)[:k]) >= q


def write_assignment(n, table, depth, fan_out, r, gates, output):
    """The digits of the network's assignment."""
    examine(n, table, depth, fan_out, gates, output)
    if r > 7 or len(gates) > r:
        raise Refused(5)
    padded = [list(gate) for gate in gates] + [[0, 0, 0]] * (r - len(gates))
    return "".join("1" if value(n, padded, output, r, v) else "0" for v in variables(n, depth, fan_out, r))


def read_assignment(n, table, depth, fan_out, r, digits):
    """The network that digits tell."""
    check(n, table, depth, fan_out, r)
    listed = variables(n, depth, fan_out, r)
    if len(digits) != len(listed) or set(digits) - {"0", "1"}:
        raise Refused(18)
    holds = {variable: digit == "1" for variable, digit in zip(listed, digits)}
    for clause in clauses(n, table, depth, fan_out, r):
        if not any(not holds[x[1]] if x[0] == "-" else holds[x] for x in clause):
            raise Refused(19)

    def code(choices, complement):
        return 2 * next(j for j, choice in enumerate(choices) if holds[choice]) + holds[complement]

    gates = [[code([("S", i, c, j) for j in range(i)], ("N", i, c)) for c in (1, 2, 3)] for i in range(n + 1, n + r + 1)]
    return network_word(gates, code([("O", j) for j in range(n + r + 1)], ("Q",)))


def answer(name, function, *words):
    try:
        given = function(*words)
    except Refused as refused:
        number = refused.args[0]
        return f"{name}: refused {number} {WORDS[number]}\n"
    return given if name == "clauses" else f"{name}: {given}\n"


def checked_text(*words):
    check(*words)
    return text(*words)


BORDERS = """\
clauses 0 1 0 1 0
clauses 0 0 1 1 1
clauses 0 1 0 1 2
clauses 1 2 1 2 1
clauses 2 8 1 3 1
clauses 5 1 0 1 0
clauses 0 2 0 1 0
clauses 0 1 8 1 0
clauses 0 1 0 0 0
clauses 0 1 0 20 0
clauses 0 1 0 1 8
clauses 5 2 8 0 8
assignment 0 1 0 1 0 :1
assignment 0 0 1 1 1 :0
assignment 3 e8 7 19 1 2.4.6:8
assignment 3 e8 1 1 2 2.4.6:8
assignment 3 96 2 1 3 2.4.6,2.4.7,9.10.6:12
assignment 3 96 1 1 3 2.4.6,2.4.7,9.10.6:12
assignment 3 e8 1 1 0 2.4.6:8
assignment 3 e8 1 1 8 2.4.6:8
assignment 3 e9 1 1 8 2.4.6:8
assignment 3 e8 1 1 1 2.4.8:8
assignment 2 8 2 1 2 0.2.4,6.6.6:8
network 0 1 0 1 0 11
network 0 1 0 1 0 10
network 0 1 0 1 0 01
network 0 1 0 1 0 00
network 0 1 0 1 0 1
network 0 1 0 1 0 110
network 0 1 0 1 0 12
network 0 1 0 1 8 11
network 5 1 0 1 0 11
network 0 0 1 1 1 111000000010010
network 0 0 1 1 1 111000000010011
"""

# commands, and what the program says of them
OTHERS = [
    ("clauses 0 1 0 1", "line {}: too few words for this command"),
    ("clauses 0 1 0 1 0 a b", "line {}: too many words for this command"),
    ("clauses 0 1 0 1 0 written", "clauses: 21 bytes"),
    ("clauses 0 1 0 1 8 written", "clauses: refused 5 more gates than the search reaches"),
    ("clauses 0 1 0 1 0 no/such/folder", "clauses: cannot write no/such/folder"),
    ("assignment 0 1 0 1 0", "line {}: too few words for this command"),
    ("assignment 0 1 0 1 0 1", "line {}: not a network"),
    ("network 0 1 0 1 0", "line {}: too few words for this command"),
    ("network 0 1 0 1 0 1x", "line {}: not a row of digits"),
    ("network 0 1 0 1 0 " + "1" * 300, "network: refused 18 not one byte of 0 or 1 for each variable"),
]


def modelled(line):
    """The model's answer to a command on clauses that can be read."""
    name, *words = line.split()
    question = (int(words[0]), int(words[1], 16), *map(int, words[2:5]))
    if name == "clauses":
        return answer(name, checked_text, *question)
    if name == "network":
        return answer(name, read_assignment, *question, words[5])
    gates, output = words[5].split(":")
    gates = [[int(code) for code in gate.split(".")] for gate in gates.split(",") if gate]
    return answer(name, write_assignment, *question, gates, int(output))


def stored(before):
    """The stored commands on clauses, which begin behind so many lines, and their answers."""
    rng = random.Random(30)
    pairs = [(line, modelled(line)) for line in BORDERS.splitlines()]
    while len(pairs) < 120:
        command, wanted = random_command(rng)
        if len(wanted) < 1500 and len(command) < 1500:
            pairs.append((command.strip(), wanted))
    number = before + len(pairs)
    for i, (line, wanted) in enumerate(OTHERS, 1):
        pairs.append((line, wanted.format(number + i) + "\n"))
    return "\n".join(line for line, _ in pairs), "".join(wanted for _, wanted in pairs)


def stored_parts():
    """What stands in the stored files before the commands on clauses, and these; the same of the answers."""
    commands, _, behind = read("stdin").partition(CLAUSES)
    lines, answers = stored(commands.count(b"\n") + 2)
    return commands, behind, lines.encode(), answers.encode()


def write_stored():
    commands, behind, lines, answers = stored_parts()
    others = read("stdout")
    if behind:
        others = others[: len(others) - len(answers)]
    for name, content in (("stdin", commands + CLAUSES + lines), ("stdout", others + answers)):
        with open(os.path.join(STORED, name), "wb") as file:
            file.write(content)
    return 0


def check_stored():
    _, behind, lines, answers = stored_parts()
    if behind != lines or not read("stdout").endswith(answers):
        print("the stored commands on clauses or their answers are not the model's")
        return 1
    print("the stored answers are the model's")
    return 0


def run_program(commands):
    return subprocess.run([PROGRAM], input="".join(commands), capture_output=True, text=True, check=True).stdout


def random_network(rng, n, k):
    """A network whose codes name earlier nodes, but for a rare one."""
    gates = [[rng.randrange(2 * (n + 1 + i) + (rng.random() < 0.02)) for _ in range(3)] for i in range(k)]
    return gates, rng.randrange(2 * (n + 1 + k) + (rng.random() < 0.02))


def random_limits(rng):
    depth = rng.choice((0, 1, 2, 3, 7, 7, 7, 8 if rng.random() < 0.3 else 7))
    fan_out = rng.choice((1, 2, 3, 4, 7, 10, 18, 19, 19, rng.choice((0, 20, 19, 19))))
    return depth, fan_out


def random_command(rng):
    """A command, and its answer."""
    n = rng.choice((0, 1, 2, 3, 3, 4, 5 if rng.random() < 0.2 else 4))
    r = rng.choice((0, 1, 2, 3, 3, 4, 7, 8 if rng.random() < 0.3 else 2))
    depth, fan_out = random_limits(rng)
    k = min(rng.randrange(r + 2), 7) if rng.random() < 0.9 else rng.randrange(9)
    gates, output = random_network(rng, min(n, 4), k)
    try:
        check_form(min(n, 4), gates, output)
        table = sum(code_bit(min(n, 4), gates, output, row) << row for row in range(2**min(n, 4)))
    except Refused:
        table = 0
    if rng.random() < 0.2:
        table ^= 1 << rng.randrange(2**min(n, 4) + 1)
    question = (n, table, depth, fan_out, r)
    words = f"{n} {table:x} {depth} {fan_out} {r}"
    kind = rng.random()
    if kind < 0.2:
        return f"clauses {words}\n", answer("clauses", checked_text, *question)
    if kind < 0.6:
        word = network_word(gates, output)
        return f"assignment {words} {word}\n", answer("assignment", write_assignment, *question, gates, output)
    digits = random_digits(rng, question, gates, output)
    return f"network {words} {digits}\n", answer("network", read_assignment, *question, digits)


def random_digits(rng, question, gates, output):
    """The digits of the network's assignment, sometimes damaged; random ones where it has none."""
    try:
        digits = write_assignment(*question, gates, output)
    except Refused:
        digits = "".join(rng.choice("01") for _ in range(rng.randrange(1, 60)))
    damage = rng.random()
    at = rng.randrange(len(digits))
    if damage < 0.15:
        return digits[:at] + rng.choice("012") + digits[at + 1:]
    if damage < 0.2:
        return digits + "0"
    if damage < 0.25:
        return digits[:-1] or "0"
    return digits


def compare_random(count, seed):
    rng = random.Random(seed)
    pairs = [random_command(rng) for _ in range(count)]
    got = run_program([command for command, _ in pairs])
    place = 0
    for command, wanted in pairs:
        if got[place:place + len(wanted)] != wanted:
            print(f"{command.strip()}\n  wanted {wanted[:200]!r}\n  got    {got[place:place + 200]!r}")
            return 1
        place += len(wanted)
    kinds = sum("refused" not in wanted for _, wanted in pairs)
    print(f"{count} commands, {kinds} of them not refused, no difference")
    return 0 if place == len(got) else 1


class Stopped(Exception):
    """cadical was stopped."""


def solve(clauses_text):
    """cadical's model as digits, None if there is none; Stopped if it takes more than 20 seconds."""
    done = subprocess.run(["cadical", "-q", "-t", "20"], input=clauses_text, capture_output=True, text=True)
    if done.returncode == 0:
        raise Stopped
    if done.returncode == 20:
        return None
    assert done.returncode == 10, done
    literals = [int(word) for line in done.stdout.splitlines() if line[:1] == "v" for word in line.split()[1:]]
    return "".join("1" if literal > 0 else "0" for literal in literals if literal)


def compare_cadical(count, seed, inputs=3, most=3):
    rng = random.Random(seed)
    found = stopped = 0
    for i in range(count):
        n, r = rng.randrange(inputs + 1), rng.randrange(most + 1)
        depth, fan_out = rng.choice((0, 1, 2, 3, 7)), rng.choice((1, 2, 3, 5, 19))
        table = rng.randrange(2**2**n)
        if rng.random() < 0.4:
            k = rng.randrange(r + 1)
            gates = [[rng.randrange(2 * (n + 1 + i)) for _ in range(3)] for i in range(k)]
            output = rng.randrange(2 * (n + 1 + k))
            table = sum(code_bit(n, gates, output, row) << row for row in range(2**n))
        words = f"{n} {table:x} {depth} {fan_out} {r}"
        written = run_program([f"clauses {words}\n"])
        asked = run_program([f"ask {words}\n"])
        try:
            digits = solve(written)
        except Stopped:
            stopped += 1
            continue
        if (digits is None) != (asked == "ask: none\n"):
            print(f"{words}: {asked.strip()}, cadical {'none' if digits is None else 'found'}")
            return 1
        if digits is None:
            continue
        for answer in (run_program([f"network {words} {digits}\n"]), asked):
            network = answer.split()[-1]
            examined = run_program([f"examine {n} {table:x} {depth} {fan_out} {network}\n"])
            if not examined.startswith("examine: level") or network.count(".") > 2 * r:
                print(f"{words}: {network} is {examined.strip()}")
                return 1
        found += 1
    print(f"{count} questions, {found} of them found, cadical stopped on {stopped}; else cadical agrees with ask, and examine accepts each of their networks")
    return 0


def longest():
    texts = {(n, r, d, f): (len(text(n, 0, d, f, r)), len(variables(n, d, f, r)))
             for n in (4,) for r in (7,) for d in (7,) for f in range(1, 20)}
    limits, most = max(texts.items(), key=lambda item: item[1][0])
    print(f"longest text: {most[0]} bytes, n r D F {limits}; most variables: {max(count for _, count in texts.values())}")
    return 0


def main(words):
    if words[:1] == ["--text"] and len(words) == 6:
        n, table, depth, fan_out, r = words[1:]
        sys.stdout.write(text(int(n), int(table, 16), int(depth), int(fan_out), int(r)))
        return 0
    if words == ["--longest"]:
        return longest()
    if words == ["--write"]:
        return write_stored()
    if words == ["--check"]:
        return check_stored()
    if words[:1] == ["--random"] and len(words) == 3:
        return compare_random(int(words[1]), int(words[2]))
    if words[:1] == ["--cadical"] and len(words) in (3, 5):
        return compare_cadical(*map(int, words[1:]))
    print(__doc__)
    return 2


if __name__ == "__main__":
    sys.exit(main(sys.argv[1:]))
