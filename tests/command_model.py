#!/usr/bin/env python3
"""An independent model of the program's commands, and comparisons with it.

  command_model.py --write          writes the stored commands and answers of crates/kegbirun from the model, without those of the
                                    collection and on clauses, which stand behind them
  command_model.py --check          compares the stored answers with the model's, up to those of the collection and on clauses,
                                    which collection_model.py and clause_model.py check
  command_model.py --random N SEED  runs the built program on N random commands and compares each answer
  command_model.py --asked N SEED   the same for the listed questions and N random ones that are asked

The model is written from the rules in docs/ alone: it evaluates a network by recursion, one row at a time, and
counts uses over the flat list of codes. The representative of a table is the least over all permutations of the inputs,
all complemented inputs and both outputs, each carried row by row. Whether a network of at most two gates meets a question is
found by trying every network; which network the program gives is left open, so it is examined.
"""
import collections
import functools
import itertools
import os
import random
import re
import subprocess
import sys

ROOT = os.path.dirname(os.path.dirname(os.path.abspath(__file__)))
STORED = os.path.join(ROOT, "crates", "kegbirun")
PROGRAM = os.path.join(STORED, "out", "kegbirun")
# what begins the stored commands on clauses, which stand behind all others
CLAUSES = b"\n# clauses\n"

WORDS = {
    1: "more than four inputs",
    2: "a table bit behind the last row",
    3: "depth limit above 7",
    4: "fan-out limit 0 or above 19",
    5: "more gates than the search reaches",
    7: "collection full",
    8: "key not kept",
    9: "malformed network",
    10: "does not compute the table",
    11: "level above the depth limit",
    12: "a gate's fan-out above the fan-out limit",
    13: "no fewer gates than the kept network",
}


class Refused(Exception):
    """A command refused by a rule; holds the rule's number."""


class Unreadable(Exception):
    """A line that is no command; holds what is wrong."""


def node_bit(n, gates, node, row):
    """The value of a node in a row."""
    if node == 0:
        return 0
    if node <= n:
        return row >> (node - 1) & 1
    ones = sum(code_bit(n, gates, code, row) for code in gates[node - n - 1])
    return 1 if ones >= 2 else 0


def code_bit(n, gates, code, row):
    return node_bit(n, gates, code // 2, row) ^ (code % 2)


def node_level(n, gates, node):
    if node <= n:
        return 0
    return 1 + max(node_level(n, gates, code // 2) for code in gates[node - n - 1])


def table_of(n, gates, output):
    return sum(code_bit(n, gates, output, row) << row for row in range(2**n))


def fan_outs(n, gates, output):
    named = [code // 2 for gate in gates for code in gate] + [output // 2]
    return [named.count(n + 1 + i) for i in range(len(gates))]


def check_form(n, gates, output):
    """Refusal 9."""
    if len(gates) > 7:
        raise Refused(9)
    for i, gate in enumerate(gates):
        if any(code // 2 >= n + 1 + i for code in gate):
            raise Refused(9)
    if output // 2 >= n + 1 + len(gates):
        raise Refused(9)


def check_question(n, table, depth, fan_out):
    """Refusals 1 to 4."""
    check_table(n, table)
    if depth > 7:
        raise Refused(3)
    if not 1 <= fan_out <= 19:
        raise Refused(4)


def examine(n, table, depth, fan_out, gates, output):
    check_question(n, table, depth, fan_out)
    check_form(n, gates, output)
    if table_of(n, gates, output) != table:
        raise Refused(10)
    level = node_level(n, gates, output // 2)
    if level > depth:
        raise Refused(11)
    greatest = max(fan_outs(n, gates, output), default=0)
    if greatest > fan_out:
        raise Refused(12)
    return f"level {level} fan-out {greatest}"


def normalise(n, gates, output):
    if n > 4:
        raise Refused(1)
    check_form(n, gates, output)
    codes = [list(gate) for gate in gates]
    for i in range(len(codes)):
        if sum(code % 2 for code in codes[i]) >= 2:
            codes[i] = [code ^ 1 for code in codes[i]]
            node = n + 1 + i
            for gate in codes[i + 1:]:
                gate[:] = [code ^ 1 if code // 2 == node else code for code in gate]
            if output // 2 == node:
                output ^= 1
    return network_word(codes, output)


def check_table(n, table):
    """Refusals 1 and 2."""
    if n > 4:
        raise Refused(1)
    if any(table >> bit & 1 for bit in range(2**n, max(2**n, table.bit_length()))):
        raise Refused(2)


@functools.lru_cache(maxsize=None)
def row_maps():
    """For each permutation and each set of complemented inputs, the row that each row is read at."""
    maps = []
    for order in itertools.permutations(range(4)):
        for mask in range(16):
            maps.append([sum(((row >> order[i] & 1) ^ (mask >> i & 1)) << i for i in range(4)) for row in range(16)])
    return maps


def representative(n, table):
    check_table(n, table)
    rows = [table >> (row % 2**n) & 1 for row in range(16)]
    carried = [sum(rows[old] << row for row, old in enumerate(rows_read)) for rows_read in row_maps()]
    return f"{min(min(carried), 0xffff - max(carried)):04x}"


REACH = 7
TRIED = 2


@functools.lru_cache(maxsize=None)
def all_networks(n):
    """For every table, level and greatest fan-out of a network of at most TRIED gates: the fewest gates."""
    least = {}

    def note(values, levels, gates):
        named = collections.Counter(code // 2 for gate in gates for code in gate)
        greatest = max([named[n + 1 + i] for i in range(len(gates))], default=0)
        for output in range(2 * len(values)):
            node = output // 2
            fan_out = max(greatest, named[node] + 1) if node > n else greatest
            key = (values[node] ^ (full if output % 2 else 0), levels[node], fan_out)
            least[key] = min(least.get(key, len(gates)), len(gates))

    def extend(values, levels, gates):
        note(values, levels, gates)
        if len(gates) == TRIED:
            return
        for gate in itertools.combinations_with_replacement(range(2 * len(values)), 3):
            a, b, c = (values[code // 2] ^ (full if code % 2 else 0) for code in gate)
            level = 1 + max(levels[code // 2] for code in gate)
            extend(values + [a & b | a & c | b & c], levels + [level], gates + [gate])

    full = 2 ** 2**n - 1
    inputs = [sum((row >> i & 1) << row for row in range(2**n)) for i in range(n)]
    extend([0] + inputs, [0] * (n + 1), [])
    return least


class Found:
    """The answer to `ask` where a network exists: any network of at most r gates that meets the question."""

    def __init__(self, question, r):
        self.question, self.r = question, r

    def __eq__(self, line):
        word = re.fullmatch(r"ask: found (\S+)", line)
        if not word:
            return False
        gates, output = read_network(word[1])
        try:
            examine(*self.question, gates, output)
        except Refused:
            return False
        return len(gates) <= self.r


def ask(n, table, depth, fan_out, r):
    check_question(n, table, depth, fan_out)
    if r > REACH:
        raise Refused(5)
    for (computed, level, uses), size in all_networks(n).items():
        if computed == table and level <= depth and uses <= fan_out and size <= r:
            return Found((n, table, depth, fan_out), r)
    if r > TRIED:
        raise ValueError("the model does not try so many gates")
    return "ask: none"


def network_word(gates, output):
    return ",".join(".".join(str(code) for code in gate) for gate in gates) + f":{output}"


def read_number(word):
    if not re.fullmatch(r"[0-9]+", word):
        raise Unreadable("not a decimal number")
    return int(word)


def read_table(word):
    if not re.fullmatch(r"[0-9a-fA-F]+", word):
        raise Unreadable("not a hexadecimal table")
    return int(word, 16)


def read_network(word):
    number = "[0-9]+"
    gate = rf"{number}\.{number}\.{number}"
    if not re.fullmatch(rf"(?:{gate}(?:,{gate})*)?:{number}", word):
        raise Unreadable("not a network")
    rows, output = word.split(":")
    gates = [[int(code) for code in row.split(".")] for row in rows.split(",")] if rows else []
    return gates, int(output)


READERS = {
    "examine": [read_number, read_table, read_number, read_number, read_network],
    "normalise": [read_number, read_network],
    "representative": [read_number, read_table],
    "ask": [read_number, read_table, read_number, read_number, read_number],
}


def read_command(line, readers):
    """The name of the command on a line of bytes and the values of its words; None where the line has no words."""
    text = line.decode("utf-8", "replace").split("#")[0]
    words = re.split(r"[ \t\n\f\r]+", text.strip(" \t\n\f\r"))
    if words == [""]:
        return None
    if words[0] not in readers:
        raise Unreadable("unknown command")
    values = []
    for place, read_word in enumerate(readers[words[0]], 1):
        if place >= len(words):
            raise Unreadable("too few words for this command")
        values.append(read_word(words[place]))
    if len(words) > len(readers[words[0]]) + 1:
        raise Unreadable("too many words for this command")
    return words[0], values


def answer(line, number):
    """What the program prints for a line of bytes, what it has to equal, or None."""
    try:
        command = read_command(line, READERS)
    except Unreadable as why:
        return f"line {number}: {why}"
    if command is None:
        return None
    name, values = command
    try:
        if name == "examine":
            n, table, depth, fan_out, (gates, output) = values
            return "examine: " + examine(n, table, depth, fan_out, gates, output)
        if name == "representative":
            return "representative: " + representative(*values)
        if name == "ask":
            return ask(*values)
        n, (gates, output) = values
        return "normalise: " + normalise(n, gates, output)
    except Refused as refusal:
        return f"{name}: refused {refusal} {WORDS[refusal.args[0]]}"


def answers(data):
    lines = data.split(b"\n")
    if lines[-1] == b"":
        lines.pop()
    found = [answer(line, number) for number, line in enumerate(lines, 1)]
    return [line for line in found if line is not None]


def answers_text(data):
    return "".join(line + "\n" for line in answers(data)).encode()


def run_program(data):
    """What the program writes, parted at the ends of lines; behind the last one nothing stands."""
    return subprocess.run([PROGRAM], input=data, capture_output=True, check=True).stdout.decode("utf-8", "replace").split("\n")


def differences(wanted, got):
    """The places at which the program's lines are not the model's."""
    places = [i for i, pair in enumerate(zip(wanted, got), 1) if pair[0] != pair[1]]
    return places or ([] if len(wanted) == len(got) else [min(len(wanted), len(got)) + 1])


def random_gates(rng, n, k):
    """A network that is mostly well-formed."""
    shift = 2 if rng.random() < 0.1 else 0
    gates = [[rng.randrange(2 * (n + 1 + i) + shift) for _ in range(3)] for i in range(k)]
    return gates, rng.randrange(2 * (n + 1 + k) + shift)


def random_ask(rng):
    """A question that two gates often answer, and limits that often bind."""
    n = rng.choice([0, 1, 2, 3, 3, 4, 4, 4, 5]) if rng.random() < 0.1 else rng.randrange(5)
    gates, output = random_gates(rng, n, rng.randrange(4))
    try:
        check_form(n, gates, output)
        table = table_of(n, gates, output) if n <= 4 else 0
    except Refused:
        table = rng.randrange(2 ** (2 ** min(n, 4)) + 1)
    depth, fan_out = rng.choice([0, 1, 2, 2, 3, 7, 8]), rng.choice([0, 1, 1, 2, 3, 19, 20])
    return f"ask {n} {table:x} {depth} {fan_out} {rng.choice([0, 1, 2, 2, 2, 8, 9])}"


def random_command(rng):
    n = rng.choice([0, 1, 2, 3, 3, 4, 4, 4, 5]) if rng.random() < 0.1 else rng.randrange(5)
    k = rng.choice([0, 1, 2, 3, 4, 5, 6, 7, 7, 8])
    gates, output = random_gates(rng, n, k)
    if rng.random() < 0.1:
        return f"representative {n} {rng.randrange(2 ** 2 ** min(n, 4) + 1):x}"
    if rng.random() < 0.3:
        return f"normalise {n} {network_word(gates, output)}"
    try:
        check_form(n, gates, output)
        table = table_of(min(n, 4), gates, output) if n <= 4 else 0
        depth = node_level(n, gates, output // 2) + rng.choice([-1, 0, 0, 0, 1])
        fan_out = max(fan_outs(n, gates, output), default=0) + rng.choice([-1, 0, 0, 0, 1])
    except Refused:
        table, depth, fan_out = rng.randrange(2 ** (2 ** min(n, 4))), 7, 19
    if rng.random() < 0.15:
        table ^= 1 << rng.randrange(2 ** min(n, 4) + 1)
    if rng.random() < 0.05:
        depth, fan_out = rng.randrange(10), rng.randrange(22)
    return f"examine {n} {table:x} {max(depth, 0)} {max(fan_out, 0)} {network_word(gates, output)}"


BORDERS = """\
# inputs 4 and 5
examine 4 ff00 0 1 :8
examine 5 0 0 1 :0
normalise 4 :9
normalise 5 :9
normalise 300 :9
# table bits at the last row and behind it
examine 0 1 0 1 :1
examine 0 2 0 1 :1
examine 1 3 0 1 :1
examine 1 4 0 1 :1
examine 4 ffff 0 1 :1
examine 4 10000 0 1 :1
examine 4 123456789abcdef0123456789 0 1 :1
# depth limits 7 and 8
examine 1 2 7 1 :2
examine 1 2 8 1 :2
# fan-out limits 1, 19, 0 and 20
examine 1 2 0 1 :2
examine 1 2 0 19 :2
examine 1 2 0 0 :2
examine 1 2 0 20 :2
# seven gates and eight
examine 1 2 7 1 0.1.2,0.1.4,0.1.6,0.1.8,0.1.10,0.1.12,0.1.14:16
examine 1 2 7 1 0.1.2,0.1.4,0.1.6,0.1.8,0.1.10,0.1.12,0.1.14,0.1.16:18
normalise 1 0.1.2,0.1.4,0.1.6,0.1.8,0.1.10,0.1.12,0.1.14:17
normalise 1 0.1.2,0.1.4,0.1.6,0.1.8,0.1.10,0.1.12,0.1.14,0.1.16:17
# codes at the edge: the last node that may be named, and the first that may not
normalise 3 7.7.7:9
normalise 3 8.6.6:8
normalise 3 9.6.6:8
normalise 3 6.6.8:8
normalise 3 2.4.6,8.9.9:11
normalise 3 2.4.6,10.2.2:8
normalise 3 2.4.6:9
normalise 3 2.4.6:10
normalise 0 :1
normalise 0 :2
normalise 0 :255
normalise 0 :256
normalise 4 2.4.6,2.4.99999999999999999999999:8
# levels and fan-outs at their limits
examine 3 96 2 1 2.4.6,2.4.7,9.10.6:12
examine 3 96 1 1 2.4.6,2.4.7,9.10.6:12
examine 1 2 2 3 0.1.2,4.4.4:6
examine 1 2 2 2 0.1.2,4.4.4:6
examine 1 2 1 4 0.1.2,4.4.4:4
examine 1 2 1 3 0.1.2,4.4.4:4
examine 1 2 0 1 0.1.2:2
# the first refusal is given
examine 5 fffff 8 0 9.9.9:99
examine 4 fffff 8 0 9.9.9:99
examine 4 ff 8 0 9.9.9:99
examine 4 ff 7 0 9.9.9:99
examine 4 ff 7 1 9.9.99:99
examine 4 ff 0 1 0.1.2,10.10.10:12
examine 4 aaaa 0 1 0.1.2,10.10.10:12
examine 4 aaaa 2 1 0.1.2,10.10.10:12
# representatives: constants, inputs, the majority and the parity of three inputs, and tables at the edge
representative 0 0
representative 0 1
representative 0 2
representative 1 2
representative 2 a
representative 4 ff00
representative 3 e8
representative 4 E8E8
representative 3 96
representative 3 100
representative 4 ffff
representative 4 10000
representative 5 0
# lines that cannot be read
representative 3
representative 3 e8 e8
representative 3 x
exam 3 e8 1 1 2.4.6:8
Examine 3 e8 1 1 2.4.6:8
examine
examine 3
examine 3 e8 1 1
examine 3 e8 1 1 2.4.6:8 9
examine three e8 1 1 2.4.6:8
examine 3 g8 1 1 2.4.6:8
examine 3 #e8 1 1 2.4.6:8
examine -3 e8 1 1 2.4.6:8
examine 3 e8 1 +1 2.4.6:8
examine 3 e8 1 1 2.4.6
examine 3 e8 1 1 2.4:8
examine 3 e8 1 1 2.4.6.8:8
examine 3 e8 1 1 2.4.6,:8
examine 3 e8 1 1 ,2.4.6:8
examine 3 e8 1 1 2.4.6:
examine 3 e8 1 1 2..6:8
examine 3 e8 1 1 2.4.6:8:8
normalise 3
normalise 3 :
normalise 3 3.5.6:8 # a comment behind a command
 normalise\t3   3.5.6:8\r
   # a comment behind blanks

examine 3 E8 1 1 2.4.6:8
examine 003 00e8 01 1 02.4.006:08
"""


# questions that are asked, with answers that are the model's
ASKED = """\
# asked: no gates, one, two, and the limits at which a network is refused
ask 0 0 0 1 0
ask 0 1 0 1 0
ask 1 2 0 1 0
ask 1 1 0 1 0
ask 2 8 1 1 0
ask 2 8 0 1 1
ask 2 8 1 1 1
ask 3 e8 7 19 1
ask 3 80 7 19 1
ask 3 80 7 19 2
ask 3 80 1 19 2
ask 3 80 2 1 4
ask 4 8000 7 19 1
ask 4 6996 7 19 2
ask 5 0 7 19 4
ask 3 100 7 19 4
ask 3 80 8 19 4
ask 3 80 7 0 4
ask 3 80 7 20 4
ask 3 80 7 19 7
ask 3 80 7 19 8
ask 3 80 8 20 8
ask 3 80 7 19 300
# lines that cannot be read
ask 3 80 7 19
ask 3 80 7 19 2 2
ask 3 80 7 19 two
"""


def stored_input():
    rng = random.Random(20)
    lines = BORDERS.encode().replace(b"\\t", b"\t").replace(b"\\r", b"\r")
    lines += b"\xff\xfe normalise 3 :2\nnormalise 3 :2\xc3\nnorm\x00alise 3 :2\n\x00\n"
    lines += b"".join(random_command(rng).encode() + b"\n" for _ in range(600))
    return lines + b"normalise 3 3.5.6:8"


def read(name):
    with open(os.path.join(STORED, name), "rb") as file:
        return file.read()


def main(words):
    if words == ["--write"]:
        data = stored_input()
        for name, content in (("stdin", data), ("stdout", answers_text(data))):
            with open(os.path.join(STORED, name), "wb") as file:
                file.write(content)
    elif words == ["--check"]:
        if not (read("stdin").startswith(stored_input()) and read("stdout").startswith(answers_text(stored_input()))):
            sys.exit("the stored commands or answers are not the model's")
        print("the stored answers are the model's")
    elif len(words) == 3 and words[0] in ("--random", "--asked"):
        rng = random.Random(int(words[2]))
        lines = [(random_ask if words[0] == "--asked" else random_command)(rng) for _ in range(int(words[1]))]
        data = (ASKED if words[0] == "--asked" else "").encode() + "".join(line + "\n" for line in lines).encode()
        places = differences(answers(data) + [""], run_program(data))
        if places:
            sys.exit(f"{len(places)} differences, the first at command {places[0]}")
        print(f"{words[1]} commands, 0 differences")
    else:
        sys.exit(__doc__)


if __name__ == "__main__":
    main(sys.argv[1:])
