"""What has to be answered to the collection's commands, written from the rules in docs/ alone.

It keeps the lower number and the number of gates of each entry, and the least number of gates of each key, found by
least_gates.cpp, which tries networks one by one. So it tells every number that an answer has, and which answers have a
network. Which network a search finds and how a network is carried is left open: each network that is given is examined, has to
be normal, and has to be the entry's network carried by one of the 768 ways wherever that network is known.
"""
import dataclasses
import functools
import itertools
import os
import re
import subprocess
import tempfile

import command_model
from command_model import ROOT, WORDS, Refused, Unreadable, check_question, fan_outs, network_word
from command_model import node_level, read_network, read_number, read_table, row_maps, table_of

PLACES = 64
COUNTED = 4
MORE = 5
LAYERS = {15: 1, 16: 2, 17: 2}

# the tables over three inputs of the starter set, and how many gates their networks have
STARTER = {0x80: 2, 0x28: 3, 0xA8: 2, 0x16: 4, 0xE8: 1, 0x81: 4, 0x52: 4, 0xD8: 3, 0x6A: 4, 0x96: 3}


class Unknown(Exception):
    """An answer that needs a least number of gates above those that are counted."""


# ---------------------------------------------------------------------------------------------------------------------
# Tables, networks and least numbers of gates


@dataclasses.dataclass(frozen=True)
class Network:
    """Gates of three codes each, and the output's code."""

    gates: tuple
    output: int

    def word(self):
        return network_word(self.gates, self.output)

    def renamed(self, code):
        """The network with each code replaced, its gates first to last."""
        return Network(tuple(tuple(code(old) for old in gate) for gate in self.gates), code(self.output))

    def moved(self, n, m):
        """Over m inputs in place of n: gates are renumbered, and inputs above m become the constant."""

        def code(old):
            node = old // 2
            if node > n:
                return old + 2 * (m - n)
            return old if node <= m else old % 2

        return self.renamed(code)

    def normal(self, n):
        return network_of(command_model.normalise(n, self.gates, self.output))

    def is_normal(self):
        return all(sum(code % 2 for code in gate) <= 1 for gate in self.gates)

    def level(self, n):
        return node_level(n, self.gates, self.output // 2)

    def greatest(self, n):
        return max(fan_outs(n, self.gates, self.output), default=0)

    def table(self, n):
        return table_of(n, self.gates, self.output)


def network_of(word):
    gates, output = read_network(word)
    return Network(tuple(map(tuple, gates)), output)


@dataclasses.dataclass(frozen=True)
class Question:
    inputs: int
    table: int
    depth: int
    fan_out: int

    def values(self):
        return self.inputs, self.table, self.depth, self.fan_out

    def words(self):
        return f"{self.inputs} {self.table:x} {self.depth} {self.fan_out}"


@functools.lru_cache(maxsize=None)
def lifted(n, table):
    return sum((table >> row % 2**n & 1) << row for row in range(16))


@functools.lru_cache(maxsize=None)
def classes():
    """For each table over four inputs the smallest one of its class."""
    smallest = {}
    for table in range(2**16):
        if table not in smallest:
            for rows in row_maps():
                carried_table = sum((table >> old & 1) << row for row, old in enumerate(rows))
                smallest[carried_table] = smallest[0xFFFF - carried_table] = table
    return smallest


def representative(n, table):
    return classes()[lifted(n, table)]


@functools.lru_cache(maxsize=None)
def ways(table, target):
    """The ways that carry one table of sixteen rows to another: the input that takes each input's place, the complemented
    ones among them as a mask, and whether the output is complemented."""
    found = []
    parts = itertools.product(itertools.permutations(range(1, 5)), range(16))
    for (order, mask), rows in zip(parts, row_maps()):
        carried = sum((table >> old & 1) << row for row, old in enumerate(rows))
        found += [(order, mask, flip) for flip in (0, 1) if carried ^ 0xFFFF * flip == target]
    return found


def carried(network, way):
    """A network over four inputs, carried by a way."""
    order, mask, flip = way

    def code(old):
        node = old // 2
        return 2 * order[node - 1] + (old % 2 ^ mask >> node - 1 & 1) if 1 <= node <= 4 else old

    return Network(network.renamed(code).gates, code(network.output) ^ flip)


@functools.lru_cache(maxsize=4096)
def forms(n, network, inputs, table):
    """All that a network over n inputs can become that is carried to a table of its class."""
    raised = network.moved(n, 4)
    every = ways(lifted(n, network.table(n)), lifted(inputs, table))
    return {carried(raised, way).moved(4, inputs).normal(inputs) for way in every}


@functools.lru_cache(maxsize=None)
def least_numbers(n):
    """The output of least_gates.cpp, kept in the folder target."""
    source = os.path.join(ROOT, "tests", "least_gates.cpp")
    folder = os.path.join(ROOT, "target")
    path = os.path.join(folder, f"least_gates.{n}")
    if not os.path.exists(path) or os.path.getmtime(path) < os.path.getmtime(source):
        os.makedirs(folder, exist_ok=True)
        with tempfile.TemporaryDirectory() as built:
            counter = os.path.join(built, "least_gates")
            subprocess.run(["g++", "-O2", "-o", counter, source], check=True)
            numbers = subprocess.run([counter, str(n)], check=True, capture_output=True).stdout
        with open(path, "wb") as file:
            file.write(numbers)
    with open(path, "rb") as file:
        return file.read()


def least(n, table, depth, fan_out):
    """The least number of gates of a network for a question, or MORE."""
    return least_numbers(n)[(table * 8 + depth) * 19 + fan_out - 1]


# ---------------------------------------------------------------------------------------------------------------------
# What an answer has to be


class Kept:
    """A network that is kept: how many gates it has and, once known, one that it is carried from."""

    def __init__(self, gates, known=None):
        self.gates = gates
        self.known = known
        self.waiting = []

    def fault(self, question, network):
        """What is wrong with a network that is given for a question, or None."""
        if len(network.gates) != self.gates:
            return f"has {len(network.gates)} gates, not {self.gates}"
        try:
            command_model.examine(*question.values(), network.gates, network.output)
        except Refused as refusal:
            return WORDS[refusal.args[0]]
        if not network.is_normal():
            return "is not normal"
        return self.learn(question, network)

    def learn(self, question, network):
        """Compares with the network that is kept, or comes to know it: what was given over fewer than four inputs does not
        tell it, and waits."""
        if self.known is None and question.inputs < 4:
            self.waiting.append((question, network))
            return None
        self.known = self.known or (4, network)
        given = self.waiting + [(question, network)]
        self.waiting = []
        if any(one not in forms(*self.known, asked.inputs, asked.table) for asked, one in given):
            return "is not the network that is kept, however it is carried"
        return None


class Given:
    """An answer with a network."""

    def __init__(self, before, after, question, kept):
        self.before, self.after, self.question, self.kept = before, after, question, kept

    def __str__(self):
        return f"{self.before}NETWORK{self.after}"

    def fault(self, line):
        found = re.fullmatch(re.escape(self.before) + r"(\S+)" + re.escape(self.after), line)
        if not found:
            return "not of this form"
        try:
            network = network_of(found[1])
        except Unreadable as why:
            return str(why)
        if network.word() != found[1]:
            return "not written plainly"
        fault = self.kept.fault(self.question, network)
        return fault and f"the network {fault}"


class Plain:
    """An answer that the rules fix."""

    def __init__(self, text):
        self.text = text

    def __str__(self):
        return self.text

    def fault(self, line):
        return None if line == self.text else "not equal"


class Asked:
    """The answer to `ask` where a network exists."""

    def __init__(self, question, most):
        self.question, self.most = question, most

    def __str__(self):
        return f"ask: found NETWORK (at most {self.most} gates)"

    def fault(self, line):
        return None if command_model.Found(self.question.values(), self.most) == line else "not such an answer"


# ---------------------------------------------------------------------------------------------------------------------
# Records


def number_bytes(number, count):
    return number.to_bytes(count, "little")


def record_bytes(question, lower, network, kind=1, length=None):
    codes = [code for gate in network.gates for code in gate] + [network.output]
    body = bytes([question.inputs]) + number_bytes(question.table, 2)
    body += bytes([question.depth, question.fan_out, lower, len(network.gates)] + codes)
    body = number_bytes(kind, 2) + body
    return number_bytes(len(body) if length is None else length, 2) + body


def record(data):
    """The question, the lower number and the network of the record that begins the bytes, and its number of bytes."""
    length = int.from_bytes(data[:2], "little")
    if len(data) < 2 or len(data) < 2 + length:
        raise Refused(15)
    if length < 2:
        raise Refused(16)
    if int.from_bytes(data[2:4], "little") != 1:
        raise Refused(17)
    if length < 10 or length != 10 + 3 * data[10]:
        raise Refused(16)
    codes = data[11 : 2 + length]
    gates = tuple(tuple(codes[i : i + 3]) for i in range(0, 3 * data[10], 3))
    question = Question(data[4], int.from_bytes(data[5:7], "little"), data[7], data[8])
    return question, data[9], Network(gates, codes[-1]), 2 + length


class Exported:
    """What a file has to hold that was exported: key, lower number and network of each entry that has a network."""

    def __init__(self, entries):
        self.entries = entries

    def size(self):
        return sum(12 + 3 * kept.gates for _, _, kept in self.entries)

    def faults(self, data):
        """What is wrong with the bytes of the file."""
        place = 0
        for number, ((table, depth, fan_out), lower, kept) in enumerate(self.entries, 1):
            wanted = Question(4, table, depth, fan_out)
            try:
                question, written, network, size = record(data[place:])
            except Refused as refusal:
                return [f"record {number}: {WORDS.get(refusal.args[0], refusal)}"]
            if question != wanted:
                return [f"record {number}: {question.words()}, wanted {wanted.words()}"]
            if written != lower:
                return [f"record {number}: lower {written}, wanted {lower}"]
            fault = kept.fault(question, network)
            if fault:
                return [f"record {number}: the network {network.word()} {fault}"]
            place += size
        return ["bytes behind the last record"] if place != len(data) else []


# ---------------------------------------------------------------------------------------------------------------------
# The collection


class Entry:
    def __init__(self):
        self.lower = 0
        self.kept = None

    def settled(self):
        return self.kept is not None and self.kept.gates == self.lower


def key(question):
    return representative(question.inputs, question.table), question.depth, question.fan_out


class Collection:
    """The entries, and what the commands answer."""

    def __init__(self, reach=7, folder="."):
        self.reach, self.folder = reach, folder
        self.entries = {}
        self.exported = {}

    def entry(self, question):
        """The entry of a question's key, a new one if need be."""
        if key(question) not in self.entries:
            if len(self.entries) == PLACES:
                raise Refused(7)
            self.entries[key(question)] = Entry()
        return self.entries[key(question)]

    def kept_entry(self, question):
        check_question(*question.values())
        if key(question) not in self.entries:
            raise Refused(8)
        return self.entries[key(question)]

    def open(self, set_word):
        self.entries = {}
        if set_word == "starter":
            for table, gates in STARTER.items():
                self.entry(Question(3, table, 7, 19)).kept = Kept(gates)
        return Plain(f"open: {len(self.entries)} entries")

    def order(self, n, table, depth, fan_out, most):
        question = Question(n, table, depth, fan_out)
        check_question(*question.values())
        if most > self.reach:
            raise Refused(5)
        entry = self.entries.get(key(question)) or Entry()
        asked = 0
        if entry.lower <= most and not entry.settled():
            last = min(most, entry.kept.gates - 1) if entry.kept else most
            enough = least(4, *key(question))
            if enough == MORE and last > COUNTED:
                raise Unknown
            entry = self.entry(question)
            first, entry.lower = entry.lower, min(enough, last + 1)
            asked = min(enough, last) - first + 1
            if enough <= last:
                entry.kept = Kept(enough)
        end = f" lower {entry.lower} asked {asked}"
        if entry.lower > most or not entry.kept or entry.kept.gates > most:
            return Plain("order: none" + end)
        return Given("order: ", f" gates {entry.kept.gates}" + end, question, entry.kept)

    def take(self, question, kept):
        """A deposit of a network that meets the question."""
        entry = self.entries.get(key(question))
        if entry and entry.kept and entry.kept.gates <= kept.gates:
            raise Refused(13)
        self.entry(question).kept = kept

    def deposit(self, n, table, depth, fan_out, network):
        command_model.examine(n, table, depth, fan_out, network.gates, network.output)
        self.take(Question(n, table, depth, fan_out), Kept(len(network.gates), (n, network)))
        return Plain(f"deposit: {len(network.gates)} gates")

    def look_up(self, *values):
        question = Question(*values)
        entry = self.kept_entry(question)
        if entry.kept is None:
            return Plain(f"look-up: lower {entry.lower} no network")
        return Given(f"look-up: lower {entry.lower} upper {entry.kept.gates} ", "", question, entry.kept)

    def strike(self, *values):
        question = Question(*values)
        self.kept_entry(question)
        del self.entries[key(question)]
        return Plain("strike: 0")

    def steps(self, path):
        """For each record of a file its number of bytes and its deposit; that of a damaged one is a refusal."""

        def refuse(refusal):
            raise refusal

        if path in self.exported:
            for (table, depth, fan_out), _, kept in self.exported[path].entries:
                question = Question(4, table, depth, fan_out)
                yield 12 + 3 * kept.gates, functools.partial(self.take, question, kept)
            return
        with open(os.path.join(self.folder, path), "rb") as file:
            data = file.read()
        while data:
            try:
                question, _, network, size = record(data)
            except Refused as refusal:
                yield 0, functools.partial(refuse, refusal)
                return
            yield size, functools.partial(self.deposit, *question.values(), network)
            data = data[size:]

    def load(self, path):
        taken = passed = place = 0
        fault = 0
        try:
            for size, deposit in self.steps(path):
                try:
                    deposit()
                    taken += 1
                except Refused as refusal:
                    if refusal.args[0] != 13:
                        fault = refusal.args[0]
                        break
                    passed += 1
                place += size
        except OSError:
            return Plain(f"load: cannot read {path}")
        layer, place = (LAYERS.get(fault, 3), place) if fault else (0, 0)
        return Plain(f"load: taken {taken} passed {passed} fault {fault} layer {layer} place {place}")

    def export(self, path):
        entries = [(name, entry.lower, entry.kept) for name, entry in sorted(self.entries.items()) if entry.kept]
        self.exported[path] = Exported(entries)
        return Plain(f"export: {self.exported[path].size()} bytes")

    def ask(self, n, table, depth, fan_out, most):
        check_question(n, table, depth, fan_out)
        if most > self.reach:
            raise Refused(5)
        enough = least(n, table, depth, fan_out)
        if enough == MORE and most > COUNTED:
            raise Unknown
        return Asked(Question(n, table, depth, fan_out), most) if enough <= most else Plain("ask: none")

    def answer(self, line, number):
        """What has to be answered to a line of bytes, None if nothing has to."""
        try:
            command = command_model.read_command(line, READERS)
        except Unreadable as why:
            return Plain(f"line {number}: {why}")
        if command is None:
            return None
        name, values = command
        if name not in COMMANDS:
            return Plain(command_model.answer(line, number))
        try:
            return getattr(self, COMMANDS[name])(*values)
        except Refused as refusal:
            return Plain(f"{name}: refused {refusal} {WORDS[refusal.args[0]]}")


def read_set(word):
    if word not in ("empty", "starter"):
        raise Unreadable("neither empty nor starter")
    return word


QUESTION = [read_number, read_table, read_number, read_number]
READERS = command_model.READERS | {
    "open": [read_set],
    "order": QUESTION + [read_number],
    "deposit": QUESTION + [network_of],
    "look-up": QUESTION,
    "strike": QUESTION,
    "load": [str],
    "export": [str],
}
COMMANDS = {name: name.replace("-", "_") for name in READERS if name not in ("examine", "normalise", "representative")}
