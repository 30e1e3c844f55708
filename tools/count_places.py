#!/usr/bin/env python3
"""Counts places in crates/*/src that today's forms might make plainer, point by point.

usage: tools/count_places.py [FOLDER]    FOLDER is a checkout, this one if none is given
"""
import collections
import difflib
import itertools
import pathlib
import re
import sys

PATTERNS = [
    ("1  enums of our own", r"^ *(pub(\(crate\))? )?enum "),
    ("1  a flag beside a place, a flag in a struct", r"&mut Network|found: bool"),
    ("1  numbers for kinds", r"(complemented|order): (u8|usize),$|third: usize,$|Ok\(9\)|::InputsAboveFour => 1,$"),
    ("3  loops over numbers, and other loops with a condition", r"\bwhile\b|\bloop\b|\bfor [a-z_]+ in [^{]*\.\."),
    ("3  an array read or written at a counted place", r"\b[a-z]+\[(i|t|code|place|count|[a-z.]+count)( as usize)?\]|\[usize::from\((network\.count|count|place|i|t)\)\]|get_mut\(usize::from\("),
    ("4  printing, comparing and converting by hand", r"fn (same|write_[a-z]*(gate|network|refusal)|refusal_words|digit|decimal|hexadecimal|parse|network|gate)\b|\{ 1 \} else \{ 0 \}|Some\([a-z]+\) => Some|\{ Some\([a-z]+\) \} else \{ None \}|=> 1,$|matches!\("),
    ("6  arrays of a fixed length", r"\[[^];]+; *[0-9]+\]"),
    ("7  closures, function pointers, dyn", r"\bdyn\b|\bFn(Mut|Once)?\(|: fn\("),
]


def sources(root):
    return sorted(root.glob("crates/*/src/**/*.rt"))


def lines_with(root, pattern):
    found = []
    for path in sources(root):
        for number, line in enumerate(path.read_text().splitlines(), 1):
            if re.search(pattern, line) and not line.lstrip().startswith(("//", "ghost ")):
                found.append(f"{path.relative_to(root / 'crates')}:{number}: {line.strip()}")
    return found


def required_facts(root):
    """The facts that the `requires` of three or more functions ask, and how many functions ask each."""
    facts = collections.Counter()
    head = re.compile(r"^ *(?:pub(?:\(crate\))? )?fn \w+.*?(?=^ *\{$|;$)", re.M | re.S)
    for path in sources(root):
        for function in head.finditer(path.read_text()):
            asked = set()
            for clause in re.finditer(r"requires(?: \w+)? \{ (.*) \}", function.group(0)):
                asked |= {part.strip("() ") for part in clause.group(1).split(" × ")}
            facts.update(asked)
    return [(count, fact) for fact, count in facts.most_common() if count >= 3]


KEYWORDS = {"if", "else", "for", "in", "while", "match", "return", "let", "mut", "true", "false", "Ok", "Err", "Some", "None"}


def shapes(root):
    """Each function's name and its body, with every other word and every number blanked out."""
    function = re.compile(r"^( *)(?:pub(?:\(crate\))? )?fn (\w+).*?^\1\{\n(.*?)^\1\}", re.M | re.S)
    for path in sources(root):
        for found in function.finditer(path.read_text()):
            body = re.sub(r"//.*", "", found.group(3))
            shape = [word if word in KEYWORDS or not word[0].isalnum() else "_" for word in re.findall(r"\w+|[^\w\s]", body)]
            yield f"{path.relative_to(root / 'crates')} {found.group(2)}", shape


def twins(root):
    """The pairs of functions of 12 words or more whose bodies have nearly the same shape."""
    long = [(name, shape) for name, shape in shapes(root) if len(shape) >= 12]
    for (one, a), (other, b) in itertools.combinations(long, 2):
        matcher = difflib.SequenceMatcher(None, a, b, autojunk=False)
        if matcher.real_quick_ratio() >= 0.85 and matcher.quick_ratio() >= 0.85 and matcher.ratio() >= 0.85:
            yield one, other


def main():
    root = pathlib.Path(sys.argv[1] if len(sys.argv) > 1 else pathlib.Path(__file__).resolve().parent.parent)
    for name, pattern in PATTERNS:
        found = lines_with(root, pattern)
        print(f"{name}: {len(found)}")
        for line in found:
            print(f"    {line}")
    pairs = list(twins(root))
    print(f"2  pairs of functions of nearly the same shape: {len(pairs)}")
    for one, other in pairs:
        print(f"    {one} / {other}")
    facts = required_facts(root)
    print(f"5  facts that three or more functions require: {len(facts)}")
    for count, fact in facts:
        print(f"    {count} functions: {fact}")


main()
