#!/usr/bin/env python3
"""Brings the repository's own definitions, lemmas and fields to one spelling, and says where names fall together.

  spell_names.py          rewrites the files below crates/ and the names in back quotes in README.md and docs/
  spell_names.py --list   prints each old name with its new one, and changes nothing

Types and modules stay in upper camel case. Every other name of specs/ and proofs/ goes to snake case; in a lemma a dash stays
between two names of functions. Names of the Rust text and the names that the checker makes for its goals and steps are no names
of ours and stay. It is run once, after the toolchain's own script and before any edit by hand.
"""
import collections
import os
import re
import sys

ROOT = os.path.dirname(os.path.dirname(os.path.abspath(__file__)))
TOKEN = re.compile(r"[^\s(){}\[\];,.:`\"λ|@]+")
DECLARED = re.compile(r"^(\s*)((?:pub |abbrev |unfoldable )*)(record |data )?([^\s(){}\[\],;.:λ]+)\s*((?:\(.*|\{.*)?):(?:\s|$)")
BOUND = re.compile(r"(?:\blet |λ |[({])([a-z][\w'-]*-[\w'-]*|[a-z]+[A-Z][\w']*)(?= :| =|\.)")
# what the library calls functions, beside our own
LIBRARY = {"length", "map", "append", "get_or", "take", "drop", "replicate", "max", "min", "not", "cond", "sum"}
# a lemma that would have its function's name, and names that say more than the rule gives
CHOSEN = {
    "first-normalised": "first_normalised_lem",
    "greatest-fan-out": "greatest_fan_out_lem",
    "gate-levels": "gate_levels",
    "least-of": "least_of_lem",
    "row-bit": "bit_at_mod",
    "start-columns": "start_columns_lem",
    "getD-inputBits": "get_or-input_bits",
    "getD-mapped": "get_or-mapped",
    "getD-snoc": "get_or-snoc",
    "getD-zeros": "get_or-zeros",
}


def files(endings):
    for folder, dirs, names in os.walk(os.path.join(ROOT, "crates")):
        dirs[:] = sorted(d for d in dirs if d not in ("out", "must-fail"))
        for name in sorted(names):
            if name.endswith(endings):
                yield os.path.join(folder, name)


def snake(word):
    return re.sub(r"(?<=[a-z0-9])([A-Z])", lambda m: "_" + m[1].lower(), word)


def code(line):
    """The line without its comment."""
    return re.split(r"(?:^|\s)--(?:\s|$)", line, maxsplit=1)[0]


def declared():
    """Our names with a dash or in lower camel case; the functions and the fields among them; the labels of clauses."""
    names, functions, fields, labels = set(), set(LIBRARY), set(), set()
    for path in files(".antt"):
        lines = [code(line) for line in open(path, encoding="utf-8").read().split("\n")]
        for line, after in zip(lines, lines[1:] + [""]):
            if re.match(r"\s+:\s", after) and not re.search(r"\s:(\s|$)", line):
                line += " : "
            if re.match(r"\s*(use|mod|pub mod)\b", line):
                continue
            m = DECLARED.match(line)
            if m:
                made = re.search(r":\s+goal\." + re.escape(m[4]) + r"\b", line)
                if not made:
                    names.add(m[4])
                if "abbrev" in m[2] or "unfoldable" in m[2]:
                    functions.add(m[4])
                if m[1] and "pub" in m[2]:
                    fields.add(m[4])
            names.update(BOUND.findall(line))
    for path in files(".rt"):
        text = open(path, encoding="utf-8").read()
        labels.update(re.findall(r"\b(?:ensures|requires|ghost)\s+([a-z]\w*_\w*)\s*[:{]", text))
    names = {n for n in names if re.match(r"[a-z]", n) and ("-" in n or re.search(r"[a-z0-9][A-Z]", n))}
    return names, functions, fields, labels


def spelled(name, functions):
    if name in CHOSEN or name in CHOSEN.values():
        return CHOSEN.get(name, name)
    parts = name.split("-")
    out = snake(parts[0])
    for before, part in zip(parts, parts[1:]):
        both = before in functions and part in functions
        out += ("-" if both else "_") + snake(part)
    return out


def renamings():
    """The new name of each of our names, and of each field and label: these stand behind a dot."""
    names, functions, fields, labels = declared()
    new = {n: spelled(n, functions) for n in names}
    behind = {f: snake(f.replace("-", "_")) for f in fields} | {label.replace("_", "-"): label for label in labels}
    for name in behind:
        new.setdefault(name, behind[name])
    return {a: b for a, b in new.items() if a != b}, {a: b for a, b in behind.items() if a != b}


def aliases(text):
    """The names that a file gives to what it brings in."""
    return {a: snake(a) for a in re.findall(r" as ([a-z]+[A-Z]\w*)(?=[,}])", text)}


def turned_antt(text, new, behind):
    """A name behind a dot is a field, unless a module stands before the dot."""
    out, modules = [], set(re.findall(r"(?m)^use .* as ([a-z]\w*)$", text)) - {"goal"}
    for line in text.split("\n"):
        said = code(line)

        def other(m, said=said):
            word, of = m[0], re.search(r"([\w'-]*)\.$", said[:m.start()])
            if not of or of[1][:1].isupper() or of[1] in modules:
                return new.get(word, word)
            return behind.get(word, word)

        comment = line[len(said):]
        comment = re.sub(r"\b[a-z]+[A-Z]\w*", lambda m: new.get(m[0], m[0]), comment)
        out.append(TOKEN.sub(other, said) + comment)
    return "\n".join(out)


GHOST = re.compile(r"^\s*(ghost\b|requires\b|ensures\b|#\[tactic)")


def turned_rt(text, new):
    """Only clauses, ghost lines and tactics; a clause goes on to the brace that closes it."""
    out, depth = [], 0
    for line in text.split("\n"):
        ghost = depth > 0 or GHOST.match(line)
        if ghost and not line.lstrip().startswith("//"):
            line = TOKEN.sub(lambda m: new.get(m[0], m[0]), line)
            depth = max(0, depth + line.count("{") - line.count("}"))
        out.append(line)
    return "\n".join(out)


def clashes(new):
    """Names that fall together: two old names for one, or a new name that stood in a file that the old one stands in."""
    said = []
    back = collections.defaultdict(set)
    for a, b in new.items():
        back[b].add(a)
    said += [f"{b}: {', '.join(sorted(olds))}" for b, olds in sorted(back.items()) if len(olds) > 1]
    for path in files((".antt", ".rt")):
        lines = open(path, encoding="utf-8").read().split("\n")
        words = {w for l in lines for w in TOKEN.findall(code(l) if path.endswith(".antt") else l.split("//")[0])}
        for old in sorted(words & set(new)):
            if new[old] in words:
                said.append(f"{os.path.relpath(path, ROOT)}: {old} and {new[old]}")
    return said


def main(words):
    new, behind = renamings()
    if words == ["--list"]:
        print("\n".join(f"{a} {b}" for a, b in sorted(new.items())))
        print("\n".join("fall together: " + s for s in clashes(new)))
        return
    for path in files((".antt", ".rt")):
        text = open(path, encoding="utf-8").read()
        here = new | aliases(text)
        after = turned_antt(text, here, behind) if path.endswith(".antt") else turned_rt(text, here)
        if after != text:
            with open(path, "w", encoding="utf-8") as file:
                file.write(after)
    pages = [os.path.join(ROOT, "README.md")] + [os.path.join(ROOT, "docs", f) for f in sorted(os.listdir(os.path.join(ROOT, "docs"))) if f.endswith(".md")]
    for path in pages:
        text = open(path, encoding="utf-8").read()
        after = re.sub(r"`[^`\n]+`", lambda m: re.sub(r"[\w'-]+", lambda w: new.get(w[0], w[0]) if re.search(r"[a-z][A-Z]", w[0]) or w[0] == m[0][1:-1] else w[0], m[0]), text)
        if after != text:
            with open(path, "w", encoding="utf-8") as file:
                file.write(after)


main(sys.argv[1:])
