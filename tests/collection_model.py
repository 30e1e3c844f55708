#!/usr/bin/env python3
"""An independent model of the collection's commands, and comparisons with it.

  collection_model.py --random N SEED   runs the built program on N random commands, and compares each answer and each file
                                        that it exports
  collection_model.py --keys            the same for a collection that is filled, stays full and is emptied in part, for files
                                        with all faults of bytes and records, and for networks that name too many inputs
  collection_model.py --again SEED      exports, loads the file into an empty collection and exports again: the same bytes,
                                        but for the lower numbers; then loads damaged copies of the file
  collection_model.py --check [SCRIPT ANSWERS]
                                        compares stored answers with the model's, those of crates/kegbirun if none are named;
                                        files that the script loads stand in the folder data beside it; commands on clauses
                                        behind them are left to clause_model.py
  collection_model.py --minima          compares the least numbers of gates with those that other ways of counting give

  --program PATH   the program that is run, in place of crates/kegbirun/out/kegbirun
  --reach R        the reach of the collection's search, in place of 7
  --keep FOLDER    the folder for script, answers and files, in place of one that is removed

What has to be answered is in collection_rules.py.
"""
import argparse
import dataclasses
import itertools
import os
import random
import subprocess
import sys
import tempfile

from collection_rules import PLACES, STARTER, Collection, Network, Question, Unknown
from collection_rules import carried, classes, least, least_numbers, lifted, representative
from collection_rules import network_of, number_bytes, record, record_bytes
from command_model import CLAUSES, PROGRAM, ROOT, STORED

# ---------------------------------------------------------------------------------------------------------------------
# Scripts, runs and differences


class Script:
    """Lines of commands, with what has to be answered to them."""

    def __init__(self, options, folder):
        self.options, self.folder = options, folder
        self.model = Collection(options.reach, folder)
        self.lines = []
        self.wanted = []

    def add(self, line):
        """Adds a line, if the model knows its answer."""
        data = line if isinstance(line, bytes) else line.encode()
        try:
            answer = self.model.answer(data, len(self.lines) + 1)
        except Unknown:
            return
        self.lines.append(data)
        if answer is not None:
            self.wanted.append((len(self.lines), data, answer))

    def write(self, name, data):
        """Writes a file for the program to load, and gives its path."""
        path = os.path.join(self.folder, name)
        with open(path, "wb") as file:
            file.write(data)
        return path

    def differences(self, got):
        """Where lines of answers are not what they have to be."""
        found = []
        for (number, command, wanted), line in zip(self.wanted, got):
            fault = wanted.fault(line)
            if fault:
                text = command.decode("utf-8", "replace")
                found.append(f"line {number}: {text}\n  wanted {wanted}\n  got    {line}\n  {fault}")
        if len(got) != len(self.wanted):
            found.append(f"{len(got)} answers, wanted {len(self.wanted)}")
        return found

    def file_differences(self):
        """Where exported files are not what they have to be."""
        found = []
        for path, exported in self.model.exported.items():
            try:
                with open(os.path.join(self.folder, path), "rb") as file:
                    faults = exported.faults(file.read())
            except OSError as why:
                faults = [str(why)]
            found += [f"{path}: {fault}" for fault in faults]
        return found

    def run(self, name="script"):
        """Runs the program on the lines, and gives all differences."""
        path = self.write(name, b"".join(line + b"\n" for line in self.lines))
        done = subprocess.run([self.options.program, path], cwd=self.folder, capture_output=True)
        self.write(name + ".answers", done.stdout)
        got = done.stdout.decode("utf-8", "replace").split("\n")
        ends = [] if got.pop() == "" else ["the last answer has no end of line"]
        if done.returncode or done.stderr:
            ends.append(f"status {done.returncode}: {done.stderr.decode('utf-8', 'replace')}")
        return self.differences(got) + self.file_differences() + ends


# ---------------------------------------------------------------------------------------------------------------------
# Random commands


def random_network(rng, n, k):
    """A network whose gates mostly name something, and often an earlier gate."""
    gates = []
    for i in range(k):
        codes = [rng.randrange(2 * (n + 1 + i)) for _ in range(3)]
        if i and rng.random() < 0.7:
            codes[rng.randrange(3)] = 2 * (n + i) + rng.randrange(2)
        gates.append(tuple(codes))
    last = 2 * (n + k) + rng.randrange(2)
    return Network(tuple(gates), last if rng.random() < 0.9 else rng.randrange(2 * (n + 1 + k)))


def fewest_inputs(n, table):
    """How many of the first inputs tell a table's value."""
    return next(m for m in range(n + 1) if lifted(n, table) == lifted(m, table % 2 ** 2**m))


def with_gate(n, network, place, gate):
    """The network with one more gate, that nothing names."""

    def code(old):
        return old + 2 if old // 2 >= n + 1 + place else old

    shifted = network.renamed(code)
    return Network(shifted.gates[:place] + (gate,) + shifted.gates[place:], shifted.output)


# bytes that are no record
TAILS = [bytes.fromhex(text) for text in (
    "00", "01", "0a", "0000", "0100", "0200", "0a00", "0001", "010001", "020001", "020002", "00000100", "01000100", "01000200",
    "02000100", "02000200", "02000001", "03000100", "03000200", "0300010000", "0300020000", "0a000100", "0a00010004000007010000",
    "0a0001000400000701000000", "0a0002000400000701000000", "0a0001000400000701000100", "090001000400000701000000",
    "090002000400000701000000", "0b000100040000070100000000", "0a0001010400000701000000",
)]


class RandomScript(Script):
    """A script of random commands about a few tables and their classes."""

    def __init__(self, options, folder, seed):
        super().__init__(options, folder)
        self.rng = random.Random(seed)
        self.subjects = []
        self.fresh = self.rng.choice([0.03, 0.1, 0.3])
        self.files = 0

    def limits(self, n, network):
        level, greatest = network.level(n), network.greatest(n)
        depth = self.rng.choice([level, level, level, level + 1, 7, self.rng.randrange(8)])
        fan_out = self.rng.choice([greatest, greatest, greatest + 1, 19, self.rng.randrange(1, 20)])
        return min(depth, 7), min(max(fan_out, 1), 19)

    def new_subject(self):
        """Inputs, a network whose table mostly needs some gates, and limits."""
        wanted = self.rng.choice([0, 1, 2, 2, 3, 3, 4, 4, 5])
        for _ in range(30):
            n = self.rng.choice([0, 1, 2, 2, 3, 3, 3, 4, 4])
            network = random_network(self.rng, n, self.rng.choice([wanted, wanted, wanted + 1, 7]))
            if least(n, network.table(n), 7, 19) >= wanted:
                break
        if self.rng.random() < 0.3:
            n, network = 4, self.padded(4, network.moved(n, 4))
        return n, network, *self.limits(n, network)

    def subject(self):
        """One met before, or a new one."""
        if not self.subjects or self.rng.random() < self.fresh:
            self.subjects.append(self.new_subject())
        return self.rng.choice(self.subjects[-40:])

    def variant(self):
        """A question and a network, which mostly meets it: a subject over more or fewer inputs, carried by some way."""
        n, network, depth, fan_out = self.subject()
        m = self.rng.randrange(fewest_inputs(n, network.table(n)), 5)
        order = self.rng.sample(range(1, m + 1), m) + list(range(m + 1, 5))
        way = (order, self.rng.randrange(2**m), self.rng.randrange(2))
        network = carried(network.moved(n, 4).moved(4, m).moved(m, 4), way).moved(4, m)
        if self.rng.random() < 0.1:
            depth, fan_out = self.limits(m, network)
        return Question(m, network.table(m), depth, fan_out), network

    def padded(self, n, network):
        """The network with more gates that nothing names."""
        while len(network.gates) < 7 and self.rng.random() < 0.6:
            gate = tuple(self.rng.randrange(2 * n + 2) for _ in range(3))
            network = with_gate(n, network, self.rng.randrange(len(network.gates) + 1), gate)
        return network

    def wrong_question(self, question):
        """A question that is refused, or another one."""
        n, table, depth, fan_out = question.values()
        return self.rng.choice([
            Question(self.rng.choice([5, 6, 255, 256, 10**12]), table, depth, fan_out),
            Question(n, table | 1 << 2**n, depth, fan_out),
            Question(n, table ^ 1 << self.rng.randrange(2**n), depth, fan_out),
            Question(n, table, self.rng.choice([8, 9, 255, 256, 10**12]), fan_out),
            Question(n, table, depth, self.rng.choice([0, 20, 255, 257, 10**12])),
            Question(n, table, max(depth - 1, 0), fan_out),
            Question(n, table, depth, max(fan_out - 1, 1)),
        ])

    def wrong_network(self, question, network):
        """A network that is mostly malformed, or computes another table."""
        n, gates = question.inputs, [list(gate) for gate in network.gates]
        change = self.rng.randrange(4)
        if change == 0:
            more = self.rng.choice([8, 8, 9, 50, 255]) - len(gates)
            return Network(network.gates + ((0, 0, 0),) * more, network.output)
        if change == 1 or not gates:
            beyond = 2 * (n + 1 + len(gates)) + self.rng.randrange(2)
            return Network(network.gates, self.rng.choice([beyond, beyond, 255, 256 + 2 * n, 10**12]))
        place, fan_in = self.rng.randrange(len(gates)), self.rng.randrange(3)
        if change == 2:
            gates[place][fan_in] = 2 * (n + 1 + place) + self.rng.randrange(2)
        else:
            gates[place][fan_in] ^= 1
        return Network(tuple(map(tuple, gates)), network.output)

    def offer(self, wrong):
        """A question and a network to deposit: good, worse than others, and sometimes wrong."""
        question, network = self.variant()
        if self.rng.random() < 0.4:
            network = self.padded(question.inputs, network)
        good = question
        if self.rng.random() < wrong:
            question = self.wrong_question(good)
        if self.rng.random() < wrong:
            network = self.wrong_network(good, network)
        return question, network

    def asked_question(self):
        question, _ = self.variant()
        if self.rng.random() < 0.03:
            rows = 2**question.inputs
            question = dataclasses.replace(question, table=self.rng.randrange(2**rows))
        return self.wrong_question(question) if self.rng.random() < 0.06 else question

    def order(self):
        most = self.rng.choice([0, 1, 1, 2, 2, 2, 3, 3, 3, 4, 4, self.rng.randrange(9), 255])
        self.add(f"order {self.asked_question().words()} {most}")

    def deposit(self):
        question, network = self.offer(0.12)
        self.add(f"deposit {question.words()} {network.word()}")

    def look_up(self):
        self.add(f"look-up {self.asked_question().words()}")

    def strike(self):
        question = self.asked_question()
        if self.model.entries and self.rng.random() < 0.5:
            question = Question(4, *self.rng.choice(list(self.model.entries)))
        self.add(f"strike {question.words()}")

    def new_name(self):
        self.files += 1
        return os.path.join(self.folder, f"file{self.files}")

    def records(self):
        """The bytes of some records."""
        parts = []
        for _ in range(self.rng.choice([0, 1, 1, 2, 3, 5, 8])):
            question, network = self.offer(0.05)
            lower = self.rng.choice([0, len(network.gates), self.rng.randrange(256)])
            try:
                parts.append(record_bytes(question, lower, network))
            except (OverflowError, ValueError):
                pass  # a number that no record holds
        return parts

    def load(self):
        parts = self.records()
        if parts and self.rng.random() < 0.4:
            place = self.rng.randrange(len(parts))
            for _ in range(self.rng.choice([1, 1, 2])):
                parts[place] = damaged(self.rng, parts[place])
        data = b"".join(parts)
        if data and self.rng.random() < 0.1:
            data = data[: self.rng.randrange(len(data))]
        if self.rng.random() < 0.15:
            data += self.rng.choice(TAILS)
        self.add(f"load {self.write(self.new_name(), data)}")

    def load_exported(self):
        if self.model.exported:
            self.add(f"load {self.rng.choice(list(self.model.exported))}")

    def export(self):
        name = self.new_name()
        if self.rng.random() < 0.2:
            self.write(name, bytes(5000))
        self.add(f"export {name}")

    def open(self):
        self.add(self.rng.choice(["open empty", "open starter"]))

    def starter_question(self):
        """A look-up or an order of a table of the starter set."""
        table = f"3 {self.rng.choice(list(STARTER)):x} 7 19"
        self.add(self.rng.choice([f"look-up {table}", f"order {table} {self.rng.randrange(5)}"]))

    def other(self):
        """A line that is no command of the collection, or none that can be read."""
        question, network = self.variant()
        self.add(self.rng.choice([
            "",
            "# a comment",
            f"  look-up   {question.words()}\t# a comment",
            f"look-up 0{question.inputs} 00{question.table:X} 0{question.depth} 00{question.fan_out}",
            "open",
            "load",
            "export a b",
            "Export a",
            f"order {question.words()}",
            f"order {question.words()} 2 2",
            f"order {question.words()} two",
            f"deposit {question.words()} {network.word()} 1",
            f"deposit {question.words()} {network.word()[1:]}" if network.gates else "deposit",
            f"deposit 3 x {question.depth}",
            f"strike {question.inputs}",
            f"look-up {question.words()} 1",
            f"ask {question.words()} {self.rng.randrange(4)}",
            f"examine {question.words()} {network.word()}",
            f"normalise {question.inputs} {network.word()}",
            f"representative {question.inputs} {question.table:x}",
        ]))

    def fill(self, count):
        """Adds lines, until the script has so many."""
        while len(self.lines) < count:
            kinds = self.kinds()
            self.rng.choices(list(kinds), kinds.values())[0]()

    def kinds(self):
        """How often each kind of line is added: strikes more often while the collection is full."""
        return {
            self.order: 30,
            self.deposit: 25,
            self.look_up: 15,
            self.strike: 5 if len(self.model.entries) < PLACES else 20,
            self.load: 10,
            self.load_exported: 3,
            self.export: 3,
            self.starter_question: 2,
            self.other: 6,
            self.open: 0.5,
        }


def damaged(rng, data):
    """The bytes of a record with a fault of one of the first two layers, or with one byte changed."""
    length, rest = int.from_bytes(data[:2], "little"), data[2:]
    change = rng.randrange(8)
    if len(data) < 12:
        return data[:-1]
    if change == 0:
        return number_bytes(rng.choice([length + 1, length + 2, length + 3, 0xFF00, 0xFFFF]), 2) + rest
    if change == 1:
        return data[: rng.randrange(1, len(data))]
    if change == 2:
        return number_bytes(rng.choice([0, 1]), 2) + rest
    if change == 3:
        kind = rng.choice([0, 2, 3, 5, 0x100, 0x101, 0x8001])
        return data[:2] + number_bytes(kind, 2) + data[4:]
    if change == 4:
        return number_bytes(rng.randrange(2, 10), 2) + rest
    if change == 5:
        more = rng.choice([-3, -1, 1, 2, 3])
        size = max(length + more, 2)
        return number_bytes(size, 2) + (rest + b"\0\0\0")[:size]
    if change == 6:
        return data[:10] + bytes([rng.choice([min(data[10] + 1, 255), max(data[10] - 1, 0), 255])]) + data[11:]
    place = rng.randrange(len(data))
    return data[:place] + bytes([rng.randrange(256)]) + data[place + 1 :]


# ---------------------------------------------------------------------------------------------------------------------
# The modes


def random_run(options, folder):
    """Random commands."""
    count, seed = options.random
    script = RandomScript(options, folder, seed)
    script.fill(count)
    return f"{len(script.lines)} commands, {len(script.model.exported)} exported files", script.run()


MAJORITY = network_of("2.4.6:8")
PARITY = network_of("2.4.6,2.4.7,9.10.6:12")


def look_ups(script, questions):
    """Adds a look-up of each."""
    for question in questions:
        script.add(f"look-up {question.words()}")


def keys_run(options, folder):
    """Fills the collection, goes on while it is full, and takes entries out of it."""
    script, rng = Script(options, folder), random.Random(64)
    parts = itertools.product((0x80, 0xE8, 0x16, 0x96), (0, 2, 3, 7), (1, 2, 16, 19))
    questions = [Question(3, *values) for values in parts]
    rng.shuffle(questions)
    for question in questions:
        script.add(f"order {question.words()} 0")
    full_run(script, questions)
    for question in questions[:40]:
        script.add(f"order {question.words()} {rng.randrange(5)}")
    for question in questions[20:]:
        network = {0xE8: MAJORITY, 0x96: PARITY}.get(question.table)
        if network:
            script.add(f"deposit {question.words()} {with_gate(3, network, 0, (0, 3, 4)).word()}")
            script.add(f"deposit {question.words()} {network.word()}")
            look_ups(script, questions)
    full_run(script, questions)
    for place in (0, 1, 40, -2, -1):
        struck = Question(4, *sorted(script.model.entries)[place])
        script.add(f"strike {struck.words()}")
        script.add(f"strike {struck.words()}")
        look_ups(script, questions)
        more = Question(3, 0xE8, 4, 10 + place % 8)
        script.add(rng.choice([f"order {more.words()} 2", f"deposit {more.words()} {MAJORITY.word()}"]))
        full_run(script, questions)
    load_run(script, questions)
    tails_run(script)
    inputs_run(script, rng)
    return f"{len(script.lines)} commands, {len(script.model.exported)} exported files", script.run()


def full_run(script, questions):
    """Commands that need a 65th entry, and are refused, and what is kept after them."""
    kept = next(question for question in questions if question.table == 0xE8 and question.depth == 7)
    new = dataclasses.replace(kept, depth=5)
    new_bytes, kept_bytes = record_bytes(new, 0, MAJORITY), record_bytes(kept, 0, MAJORITY)
    number = len(script.lines)
    script.add(f"order {new.words()} 0")
    script.add(f"order {new.words()} {script.options.reach + 1}")
    script.add(f"deposit {new.words()} {MAJORITY.word()}")
    script.add(f"deposit {new.words()} {MAJORITY.word()[:-1]}9")
    script.add(f"look-up {new.words()}")
    script.add(f"strike {new.words()}")
    script.add(f"load {script.write(f'new{number}', new_bytes + kept_bytes)}")
    script.add(f"load {script.write(f'kept{number}', kept_bytes + kept_bytes + new_bytes)}")
    script.add(f"export full{number}")
    look_ups(script, questions)


def load_run(script, questions):
    """Fills the collection by loads, with and without the starter set in it."""
    limits = list(itertools.product((1, 2, 3, 7), range(1, 20)))
    records = [record_bytes(Question(3, 0xE8, *pair), 9, MAJORITY) for pair in limits]
    path = script.write("many", b"".join(records))
    script.add("open empty")
    script.add(f"load {script.write('fitting', b''.join(records[:PLACES]))}")
    for opening in ("open empty", "open starter"):
        script.add(opening)
        script.add(f"load {path}")
        script.add(f"load {path}")
        script.add(f"export after_{opening.replace(' ', '_')}")
        look_ups(script, questions)
        look_ups(script, [Question(3, 0xE8, *pair) for pair in limits])


def tails_run(script):
    """Loads two records, of which the second is passed over, and then bytes that are mostly no record."""
    good = record_bytes(Question(3, 0xE8, 1, 1), 3, MAJORITY)
    for i, tail in enumerate(TAILS):
        script.add("open empty")
        script.add(f"load {script.write(f'tail{i}', good + good + tail)}")
        script.add(f"load {script.write(f'alone{i}', tail)}")
        script.add("look-up 3 e8 1 1")


def inputs_run(script, rng):
    """Deposits networks that name inputs on which their tables do not depend, and looks them up over fewer inputs."""
    script.add("open empty")
    for depth, fan_out in itertools.product(range(2, 8), range(10, 20)):
        network = random_network(rng, 2, 2).moved(2, 4)
        for place in range(3):
            network = with_gate(4, network, place, tuple(rng.randrange(10) for _ in range(3)))
        table = network.table(4)
        script.add(f"deposit 4 {table:x} {depth} {fan_out} {network.word()}")
        look_ups(script, [Question(m, table % 2 ** 2**m, depth, fan_out) for m in range(fewest_inputs(4, table), 5)])


def again_run(options, folder):
    """Exports, loads, exports; and then loads damaged copies of the file."""
    seed = options.again
    script = RandomScript(options, folder, seed)
    script.fill(300)
    for line in ("export first", "open empty", "load first", "load first", "export second", "open empty", "load second"):
        script.add(line)
    script.add("export third")
    found = script.run()
    what = f"{len(script.lines)} commands"
    if found:
        return what, found
    data = [read_file(os.path.join(folder, name)) for name in ("first", "second", "third")]
    carried_otherwise = ": a representative's network was carried, which is left open"
    if without_lower(data[0]) != data[1]:
        found.append("the second export is not the first with lower numbers 0" + carried_otherwise)
    if data[1] != data[2]:
        found.append("the third export is not the second" + carried_otherwise)
    other = damaged_copies(options, folder, data[0])
    found += other.run("other")
    if not found and read_file(os.path.join(folder, "fourth")) != data[1]:
        found.append("an export of another run is not the second" + carried_otherwise)
    return f"{what}, then {len(other.lines)}, files of {len(data[0])} bytes", found


def damaged_copies(options, folder, data):
    """A script for another run: loads the file `first`, of these bytes, and exports; then the same for damaged copies."""
    rng, script = random.Random(options.again), Script(options, folder)
    script.add("load first")
    script.add("export fourth")
    for i in range(40 if data else 0):
        place = rng.randrange(len(data))
        changed = data[:place] + bytes([rng.randrange(256)]) + data[place + 1 :]
        copy = rng.choice([changed, data[:place], data + changed])
        for line in ("open empty", f"load {script.write(f'damaged{i}', copy)}", f"export taken{i}"):
            script.add(line)
    return script


def read_file(path):
    """The bytes of a file."""
    with open(path, "rb") as file:
        return file.read()


def without_lower(data):
    """The bytes of records with 0 for each lower number."""
    parts, place = [], 0
    while place < len(data):
        size = record(data[place:])[3]
        parts.append(data[place : place + 9] + b"\0" + data[place + 10 : place + size])
        place += size
    return b"".join(parts)


def check_run(options, _folder):
    """Compares stored answers with the model's."""
    names = options.check or [os.path.join(STORED, "stdin"), os.path.join(STORED, "stdout")]
    if len(names) != 2:
        sys.exit(__doc__)
    script = Script(options, os.path.join(os.path.dirname(names[0]), "data"))
    commands, _, behind = read_file(names[0]).partition(CLAUSES)
    lines = commands.split(b"\n")
    for line in lines if lines[-1] else lines[:-1]:
        script.add(line)
    got = read_file(names[1]).decode("utf-8", "replace").split("\n")
    ends = [] if got.pop() == "" else ["the last answer has no end of line"]
    got = got[: len(script.wanted)] if behind else got
    if len(script.lines) != len(lines) - (not lines[-1]):
        ends.append("the script has orders whose answers the model does not know")
    return f"{len(script.wanted)} stored answers", script.differences(got) + ends


def minima_run(_options, folder):
    """Compares the least numbers: over fewer inputs and over four, within classes, with other counts."""
    found = []
    for n in range(5):
        for table in range(2 ** 2**n):
            same = representative(n, table)
            if least_numbers(n)[152 * table : 152 * table + 152] != least_numbers(4)[152 * same : 152 * same + 152]:
                found.append(f"table {table:x} over {n} inputs and its representative have other least numbers")
    every = set(classes().values())
    for table, (depth, fan_out) in itertools.product(every, itertools.product(range(8), range(1, 20))):
        if least(4, table, depth, fan_out) < least(4, table, min(depth + 1, 7), min(fan_out + 1, 19)):
            found.append(f"table {table:x}: looser limits than {depth} and {fan_out} need more gates")
    counter = os.path.join(folder, "three")
    subprocess.run(["g++", "-O2", "-o", counter, os.path.join(ROOT, "tests", "three_input_minima.cpp")], check=True)
    plain = subprocess.run([counter], check=True, capture_output=True, text=True).stdout.split()
    for line, (depth, fan_out) in zip(plain, itertools.product(range(4), (1, 2, 19))):
        if line != "".join(str(min(least(3, table, depth, fan_out), 4)) for table in range(256)):
            found.append(f"three_input_minima.cpp has other numbers for limits {depth} and {fan_out}")
    counts = [sum(least(4, table, 7, 19) == k for table in every) for k in range(6)]
    if counts != [2, 2, 5, 18, 42, 153]:
        found.append(f"classes over four inputs by least number: {counts}")
    return f"classes over four inputs by least number: {counts}", found


def report(what, found):
    """Prints the first differences and their number, and gives the status."""
    for text in found[:10]:
        print(text)
    print(f"{what}, {len(found)} differences")
    return 1 if found else 0


def main():
    parser = argparse.ArgumentParser(usage=__doc__)
    modes = parser.add_mutually_exclusive_group(required=True)
    modes.add_argument("--random", nargs=2, type=int)
    modes.add_argument("--keys", action="store_true")
    modes.add_argument("--again", type=int)
    modes.add_argument("--check", nargs="*")
    modes.add_argument("--minima", action="store_true")
    parser.add_argument("--program", type=os.path.abspath, default=PROGRAM)
    parser.add_argument("--reach", type=int, default=7)
    parser.add_argument("--keep")
    options = parser.parse_args()
    runs = {"random": random_run, "keys": keys_run, "check": check_run, "minima": minima_run}
    run = next((run for name, run in runs.items() if getattr(options, name) not in (None, False)), again_run)
    with tempfile.TemporaryDirectory() as folder:
        if options.keep:
            os.makedirs(options.keep, exist_ok=True)
            folder = os.path.abspath(options.keep)
        sys.exit(report(*run(options, folder)))


if __name__ == "__main__":
    main()
