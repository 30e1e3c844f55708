#!/usr/bin/env python3
"""Comparisons of the solver's program, crates/dimacs, with minisat on formulas as DIMACS text.

  cnf_model.py --texts          the listed texts: what the built program answers of each
  cnf_model.py --random N SEED  N random formulas: the built program's verdict is that of minisat, and each of its models makes every
                                clause true and has each variable once

Of the random formulas, half have clauses of three literals near the ratio at which about half of them are satisfiable, with 100 to 250
variables; some have clauses of one to six literals, which may repeat one or have it with both signs; some put pigeons into holes, as
many or one more, with variables, signs and clauses in a random order. Clauses go over lines at random, and comments stand between them.
"""
import itertools
import os
import random
import subprocess
import sys

ROOT = os.path.dirname(os.path.dirname(os.path.abspath(__file__)))
PROGRAM = os.path.join(ROOT, "crates", "dimacs", "out", "dimacs")
VERDICTS = {10: "s SATISFIABLE", 20: "s UNSATISFIABLE", 0: "s UNKNOWN"}
HEADER = "c not one line p cnf VARIABLES CLAUSES, before the clauses"
COUNT = "c not as many clauses as the line p says"
ROOM = "c too few words"

# texts, the arguments, and the first two lines of the answer; the second is left open where it is None
TEXTS = [
    ("", "", "s UNKNOWN", HEADER),
    ("1 0\n", "", "s UNKNOWN", HEADER),
    ("p dnf 1 0\n", "", "s UNKNOWN", HEADER),
    ("p cnf -1 0\n", "", "s UNKNOWN", HEADER),
    ("p cnf 1 0 0\n", "", "s UNKNOWN", HEADER),
    ("p cnf 1\n", "", "s UNKNOWN", "c not a number"),
    ("p cnf 1 1\n1.5 0\n", "", "s UNKNOWN", "c not a number"),
    ("p cnf 1 1\np cnf 1 1\n1 0\n", "", "s UNKNOWN", "c not a number"),
    ("p cnf 1 1\n99999999999 0\n", "", "s UNKNOWN", "c not a number"),
    ("p cnf 1 1\n-2 0\n", "", "s UNKNOWN", "c a variable above the number of variables"),
    ("p cnf 1 2\n1 0\n", "", "s UNKNOWN", COUNT),
    ("p cnf 1 0\n1 0\n", "", "s UNKNOWN", COUNT),
    ("p cnf 1 1\n1 0 -1\n", "", "s UNKNOWN", "c no 0 behind the last clause"),
    ("p cnf 32769 0\n", "", "s UNKNOWN", "c above 32768 variables"),
    ("p cnf 0 0\n", "1000 32768", "s UNKNOWN", "c too few words, or above 32767 clauses with the learnt ones"),
    ("p cnf 1 1\n1 0\n", "0", "s UNKNOWN", ROOM),
    ("p cnf 1 1\n1 0\n", "97 0", "s UNKNOWN", ROOM),
    ("p cnf 1 1\n1 0\n", "98 0", "s SATISFIABLE", "v 1 0"),
    ("p cnf 1 1\n1 0\n", "many", "s UNKNOWN", "c usage: dimacs [WORDS [LEARNT]]"),
    ("p cnf 1 1\n1 0\n", "1000 10 1", "s UNKNOWN", "c usage: dimacs [WORDS [LEARNT]]"),
    ("p cnf 0 0\n", "", "s SATISFIABLE", "v 0"),
    ("p cnf 0 1\n0\n", "", "s UNSATISFIABLE", None),
    ("c\n\np cnf 2 2\nc -1 0\n-1\n-1 0\r\n 1 2 -1 2 0\n", "", "s SATISFIABLE", None),
    ("p cnf 2 3\n1 2 0 -1\n\n0 -2 0", "", "s UNSATISFIABLE", None),
]


def run_program(text, words=()):
    """The lines that the program writes; its exit code is that of the verdict."""
    done = subprocess.run([PROGRAM, *words], input=text, capture_output=True, text=True)
    lines = done.stdout.splitlines()
    assert lines and VERDICTS[done.returncode] == lines[0], done
    return lines


def minisat(text):
    """minisat's verdict."""
    done = subprocess.run(["minisat", "-verb=0"], input=text, capture_output=True, text=True)
    return VERDICTS[done.returncode]


def is_model(line, variables, clauses):
    """Whether the line v has each variable once and makes every clause true."""
    mark, *literals, end = line.split()
    true = set(map(int, literals))
    return (
        (mark, end) == ("v", "0")
        and sorted(map(abs, map(int, literals))) == list(range(1, variables + 1))
        and all(true.intersection(clause) for clause in clauses)
    )


def three_literals(rng):
    """Clauses of three literals with different variables, near the ratio 4.26."""
    variables = rng.randrange(100, 251)
    count = round(variables * rng.uniform(4.1, 4.45))
    chosen = (rng.sample(range(1, variables + 1), 3) for _ in range(count))
    return variables, [[rng.choice((-1, 1)) * variable for variable in three] for three in chosen]


def mixed(rng):
    """Clauses of one to six literals, most of two to four."""
    variables = rng.randrange(1, 201)
    lengths = rng.choices(range(1, 7), (1, 20, 60, 20, 10, 10), k=round(variables * rng.uniform(1.5, 5)))
    return variables, [
        [rng.choice((-1, 1)) * rng.randrange(1, variables + 1) for _ in range(length)] for length in lengths
    ]


def pigeons(rng):
    """Pigeons in holes, at most one in each, as many or one more."""
    holes = rng.randrange(1, 7)
    count = holes + rng.randrange(2)
    names = rng.sample(range(1, holes * count + 1), holes * count)
    signs = [rng.choice((-1, 1)) for _ in names]
    inside = [[signs[i] * names[i] for i in range(p * holes, (p + 1) * holes)] for p in range(count)]
    clauses = [rng.sample(row, holes) for row in inside]
    clauses += [[-a[hole], -b[hole]] for a, b in itertools.combinations(inside, 2) for hole in range(holes)]
    rng.shuffle(clauses)
    return holes * count, clauses


def written(rng, variables, clauses):
    """The formula as text."""
    text = f"c a formula\np cnf {variables} {len(clauses)}\n"
    for clause in clauses:
        if rng.random() < 0.02:
            text += "c 1 0\n"
        text += "".join(f"{literal}{' ' if rng.random() < 0.95 else chr(10)}" for literal in clause)
        text += "0\n" if rng.random() < 0.9 else "\n 0\n"
    return text


def compare_texts():
    for text, words, *wanted in TEXTS:
        got = run_program(text, words.split())
        if any(want not in (None, line) for want, line in zip(wanted, got)):
            print(f"{text!r}\n  wanted {wanted}\n  got    {got}")
            return 1
    print(f"{len(TEXTS)} texts, no difference")
    return 0


def compare_random(count, seed):
    rng = random.Random(seed)
    satisfiable = 0
    for i in range(count):
        variables, clauses = rng.choice((three_literals, three_literals, mixed, pigeons))(rng)
        text = written(rng, variables, clauses)
        lines, wanted = run_program(text), minisat(text)
        fault = f"{lines[0]}, minisat {wanted}" if lines[0] != wanted else ""
        if lines[0] == "s SATISFIABLE" and not is_model(lines[1], variables, clauses):
            fault = "not a model: " + lines[1]
        if fault:
            print(f"{text}formula {i}, of which {i} before agreed: {fault}")
            return 1
        satisfiable += lines[0] == "s SATISFIABLE"
    print(f"{count} formulas, minisat agrees on all {count}; {satisfiable} satisfiable, and each of their models is one")
    return 0


def main(words):
    if words == ["--texts"]:
        return compare_texts()
    if words[:1] == ["--random"] and len(words) == 3:
        return compare_random(int(words[1]), int(words[2]))
    print(__doc__)
    return 2


if __name__ == "__main__":
    sys.exit(main(sys.argv[1:]))
