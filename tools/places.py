#!/usr/bin/env python3
"""Lists the places of crates/*/src that docs/DESIGN-PASS.md counts, a line each: POINT FILE:LINE WHAT.

python3 tools/places.py [POINT]    all, or those of one point; the last lines are the counts

It goes by text, so a line is a place to look at. Tests and comments are left out. Point 2 also wants a look at what `duplicates` finds, and point 8 at proofs/.
"""
import itertools
import re
import sys
from collections import Counter, defaultdict
from pathlib import Path

TOP = Path(__file__).resolve().parent.parent
FN = re.compile(r"(?:pub(?:\(\w+\))? )?(?:extern \"C\" )?fn (\w+)(<[^(]*>)?\(([^)]*)\)(?: -> ([^{;\n]+))?")

# point, what, pattern of a line
LINES = [
    (1, "a number for a kind", r"\bconst [A-Z_]+: u8 = \d"),
    (1, "a number for a kind", r"\b(?:kind|rule): u8\b"),
    (1, "a number for a refusal", r"Result<\w+, u8>|Option<\(u8, u8\)>|refused_mark.*Option<u8>|fn (?:count_refusal|refusal_word)\(|: \[u64; \d+\]"),
    (1, "a flag, and a value beside it", r"fn .*&mut .*-> (?:io::Result<bool>|bool)"),
    (1, "a number for no answer", r"fn \w+(?:<[^(]*>)?\(\) -> u8$"),
    (3, "an index counted by hand", r"^\s*for [a-z]\w* in .*\.\.|^\s*while |^\s*loop "),
    (3, "an index counted by hand", r"^\s*let mut (?:got|at|i|n|place) = (?!\[|vec!)"),
    (3, "a loop for what a method does", r"^\s*\w+ \|= "),
    (4, "a conversion by hand", r"fn (?:number|of_kind|operands|value|bits|written|packed|refusal_word|decode|digit|loaded|bytes_of|signs_of|bits_of|shown\w*)(?:<[^(]*>)?\(.*\).*->|fn decode\("),
    (4, "a conversion by hand", r"256 \* u32::from\("),
    (4, "an equality or an order by hand", r"fn is_exact|first == p && |self\.value <= other\.value|if (?:self|other)\.below\((?:self|other)\)"),
    (4, "printing by hand", r"fn (?:digit_of|two_\w+|three_\w+|four_\w+|state|notice_bytes|line_bytes|task|line_of|sides|head|show_\w+)(?:<[^(]*>)?\("),
    (6, "an array with a count beside it", r"&(?:'\w+ )?(?:mut )?\[\w+; \d+\]"),
    (6, "an array with a count beside it", r"^\s*(?:pub(?:\(\w+\))? )?\w+: \[[A-Za-z]\w*; \d+\],|^\s*let mut (?:bytes|frame|buffer|rows|lengths) = \["),
    (6, "a slice with a count beside it", r"\[\w+\], count: usize"),
    (6, "lists side by side", r"^\s*(?:pub )?(?:rows|lengths|below): Vec<"),
    (7, "a switch on which step to run", r"^\s*(?:pub(?:\(\w+\))? )?enum (?:Source|Fold|Ask|Form)\b|fn breaks\("),
]


def code(text):
    """The text with each test module and each comment blanked, line for line."""
    text = re.sub(r"#\[cfg\(test\)\]\nmod \w+ \{.*", lambda m: "\n" * m.group(0).count("\n"), text, flags=re.S)
    return re.sub(r"//[^\n]*", "", text)


def sources():
    for path in sorted(TOP.glob("crates/*/src/**/*.rt")):
        if path.name != "tests.rt":
            yield path.relative_to(TOP).as_posix(), code(path.read_text())


def by_line():
    for name, text in sources():
        for number, line in enumerate(text.split("\n"), 1):
            for point, what, pattern in LINES:
                if re.search(pattern, line):
                    yield point, f"{name}:{number}", what + ": " + line.strip()


def shape(body):
    """A body with each name, number and operator of it made the same."""
    return re.sub(r"\b\w+\b", "w", re.sub(r"\s+", "", body.replace(" ", "\0"))).replace("\0", "")


def twins():
    """Functions of one crate of the same shape, over three lines or more."""
    groups = defaultdict(list)
    for name, text in sources():
        for m in re.finditer(r"^( *)(?:pub(?:\(\w+\))? )?(?:extern \"C\" )?fn (\w+)[^{;]*?(?:\n(?: +(?:requires|ensures)[^\n]*)?)*?\{?\n(.*?)^\1\}", text, flags=re.S | re.M):
            body = m.group(3)
            if body.count("\n") >= 3:
                groups[name.split("/")[1], shape(body)].append((name, text[: m.start()].count("\n") + 1, m.group(2)))
    for (_crate, _), members in sorted(groups.items(), key=lambda x: x[1]):
        if len(members) > 1:
            first = members[0]
            yield 2, f"{first[0]}:{first[1]}", "of one shape: " + ", ".join(m[2] for m in members)


def clauses():
    """A `requires` that stands on three functions or more."""
    where = defaultdict(list)
    for name, text in sources():
        for m in re.finditer(r"^\s+requires(?: \w+)? \{(.*)\}$", text, flags=re.M):
            where[m.group(1).strip()].append((name, text[: m.start()].count("\n") + 2))
    for clause, at in sorted(where.items(), key=lambda x: x[1]):
        if len(at) > 2:
            yield 5, f"{at[0][0]}:{at[0][1]}", f"on {len(at)} functions: {clause}"


def travellers():
    """Three parameters or more that go together through three functions or more of a crate."""
    functions = defaultdict(list)
    for name, text in sources():
        for m in FN.finditer(re.sub(r"\n\s+", " ", text)):
            names = {p.split(":")[0].replace("mut ", "").strip() for p in m.group(3).split(",") if ":" in p}
            functions[name.split("/")[1]].append((m.group(1), frozenset(names)))
    for crate, all_of in sorted(functions.items()):
        sets = Counter()
        for (_, a), (_, b) in itertools.combinations(all_of, 2):
            if len(a & b) >= 3:
                sets[a & b] = sum(1 for _, names in all_of if a & b <= names)
        kept = [s for s in sets if sets[s] >= 3 and not any(s < t and sets[t] >= sets[s] for t in sets)]
        for group in sorted(kept, key=sorted):
            yield 5, f"crates/{crate}/src", f"together in {sets[group]} functions: " + ", ".join(sorted(group))


def main():
    wanted = int(sys.argv[1]) if len(sys.argv) > 1 else None
    places = [*by_line(), *twins(), *clauses(), *travellers()]
    counts = Counter()
    for point, at, what in sorted(places, key=lambda p: (p[0], p[1].split(":")[0], len(p[1]), p[1])):
        if wanted in (None, point):
            counts[point] += 1
            print(point, at, what)
    print(" ".join(f"{point}:{counts[point]}" for point in sorted(counts)))


main()
