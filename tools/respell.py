#!/usr/bin/env python3
"""Brings the repository's own ghost names to one spelling: types and facts in camel case, all other names in snake case.

    tools/respell.py           at the top of the repository: rewrites specs/, proofs/, clauses, edits of definitions, and names in backticks
    tools/respell.py --list    only prints the old and new names, and the new ones that would meet another name

A name is the repository's own if a file of specs/ or proofs/ defines it, as a definition, a field, a constructor or a lemma. The names
of goals, which Rattle makes of the code, and the names of Rattle's library stay. So do strings, and words outside backticks in comments.
"""
import collections
import glob
import re
import sys

LETTER = r"\w'\-≡≤<>+*/◌ℕℤ∷&|∙×¬→↔′₀-₉"
NAME = rf"[^\W\d][{LETTER}]*"
HEAD = re.compile(rf"^(\s*)((?:abbrev |unfoldable |pub |data |record )*)({NAME})\s+:\s(.*)$")
TYPE = re.compile(rf"^(\s*)((?:pub )?(?:data |record ))({NAME})(.*)$")
LOCAL = re.compile(rf"\blet ({NAME})")
BINDER = re.compile(rf"λ ((?:{NAME} ?|\([^)]*\) ?)+)\.")


def ours():
    return sorted(p for kind in ("specs", "proofs") for p in glob.glob(f"crates/*/{kind}/**/*.antt", recursive=True))


def new_name(name):
    if name[0].isupper():
        head, *rest = name.split("-")
        return head + "".join(part[:1].upper() + part[1:] for part in rest)
    return name.replace("-", "_").replace("′", "'")


def definitions():
    """The names that the repository defines, the fields among them, and where each is defined."""
    names, fields = collections.defaultdict(set), set()
    for path in ours():
        inside = None
        for line in open(path, encoding="utf-8"):
            if line.lstrip().startswith("--"):
                continue
            m = TYPE.match(line.rstrip("\n")) or HEAD.match(line.rstrip("\n"))
            if not m:
                continue
            indent, marks, name, kind = m.groups()
            if name in ("let", "use", "in", "module", "unfolding"):
                continue
            if inside is not None and len(indent) <= inside:
                inside = None
            if kind.startswith(("goal.", "need.")):
                continue
            if inside is not None:
                fields.add(name)
            if "record" in marks or "data" in marks:
                inside = len(indent)
            names[name].add(path)
    return names, fields


def locals_of(text):
    found = set(LOCAL.findall(text)) | set(re.findall(rf" as ({NAME})", text))
    for group in BINDER.findall(text):
        found.update(re.findall(NAME, group))
    return {name for name in found if "-" in name}


def respell_code(text, table, fields, local):
    def one(m):
        dotted, name = m.group(1), m.group(2)
        if dotted and name not in fields:
            before = text[: m.start(2)]
            path = re.search(r"[\w.]*$", before).group(0)
            if not path.startswith("Rattle."):
                return m.group(0)
        if name in table:
            return dotted + table[name]
        if name in local and not dotted:
            return new_name(name)
        return m.group(0)

    return re.sub(rf"(\.?)(?<![{LETTER}])({NAME})", one, text)


def split_line(line, mark):
    """The code of a line and its comment."""
    quoted = False
    for i, c in enumerate(line):
        if c == '"' and (i == 0 or line[i - 1] not in "\\'"):
            quoted = not quoted
        if not quoted and line.startswith(mark, i):
            return line[:i], line[i:]
    return line, ""


def respell(text, mark, table, fields):
    local = locals_of(text)
    out = []
    for line in text.split("\n"):
        code, comment = split_line(line, mark)
        parts = re.split(r'("(?:[^"\\]|\\.)*")', code)
        parts[::2] = [respell_code(part, table, fields, local) for part in parts[::2]]
        comment = re.sub(r"`[^`]*`", lambda m: respell_code(m.group(0), table, fields, set()), comment)
        out.append("".join(parts) + comment)
    return "\n".join(out)


def respell_edit(text, table, fields):
    if "file: specs/" not in text:
        return text
    return "\n".join(
        line[:5] + respell(line[5:], "--", table, fields) if line.startswith(("old: ", "new: ")) else line for line in text.split("\n")
    )


def respell_page(text, table, fields, names):
    """A page may still have the old form of a name that is respelled already."""
    known = set(names) | set(table.values())
    old = {name for quoted in re.findall(r"`[^`\n]*`", text) for name in re.findall(NAME, quoted) if "-" in name}
    all_names = table | {name: new_name(name) for name in old if new_name(name) in known}
    return re.sub(r"`[^`\n]*`", lambda m: respell_code(m.group(0), all_names, fields, set()), text)


def main():
    names, fields = definitions()
    table = {name: new_name(name) for name in names if "-" in name or "′" in name}
    table = {old: new for old, new in table.items() if old != new}
    if "--list" in sys.argv:
        meets = collections.defaultdict(set)
        for old, new in table.items():
            meets[new].add(old)
            if new in names:
                meets[new].add(new)
        for old in sorted(table):
            print(old, "→", table[old], "" if len(meets[table[old]]) == 1 else f"MEETS {sorted(meets[table[old]])}")
        return
    jobs = [(p, lambda t: respell(t, "--", table, fields)) for p in ours()]
    jobs += [(p, lambda t: respell(t, "//", table, fields)) for p in sorted(glob.glob("crates/*/src/**/*.rt", recursive=True))]
    jobs += [(p, lambda t: respell_edit(t, table, fields)) for p in sorted(glob.glob("crates/*/must-fail/*.edit"))]
    jobs += [(p, lambda t: respell_page(t, table, fields, names)) for p in ["README.md", *sorted(glob.glob("docs/*.md"))]]
    for path, job in jobs:
        text = open(path, encoding="utf-8").read()
        after = job(text)
        if after != text:
            open(path, "w", encoding="utf-8").write(after)


main()
