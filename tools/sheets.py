#!/usr/bin/env python3
"""What any bytes come to as a sheet, reckoned apart from the product, and a set of cases made from that.

    sheets.py            write the cases: crates/check_cases/stdin and crates/check_cases/stdout
    sheets.py --check    say whether those two files are what would be written
    sheets.py HEX ...    print the answer for each sheet given in hexadecimal

A sheet: byte 0 is F, the number of facts, 1 to 16; byte 1 is R, the number of rows, 1 to 32; then R kind bytes;
then R triples p, q, r. Rows are numbered from 0, and the last is the rule.

    kind          p  q  r      length
    0 always      0  0  0      0
    1 hold        d  f  0      d
    2 hold-off    d  f  0      d
    3 both        i  j  0      the longer
    4 either      i  j  0      the longer
    5 not         i  0  0      that of i
    6 then        i  j  0      both and 1
    7 within      a  b  i      b

The answer is 0, or 256 * refusal + row:
    1  under 2 bytes, F or R out of range, or not 2 + 4 * R bytes (row 0)
    2  a kind above 7
    3  a nonzero operand where the table has 0, a fact not below F, a named row not lower, or a above b
    4  a length above 255
    5  a row, not the last, that no row names
    6  an inner row that is a not, or an either with sides of unequal length
First 1; then each row in rising order for 2, 3 and 4; then 5 and then 6, each for the lowest such row.
A row is inner when a within names it, a then names it as its i, or an inner row names it.
"""

import os
import random
import sys
from collections import Counter
from functools import lru_cache

# what each operand of a kind is: z zero, d duration, f fact, r row
FORMS = ["zzz", "dfz", "dfz", "rrz", "rrz", "rzz", "rrz", "ddr"]
ALWAYS, HOLD, OFF, BOTH, EITHER, NOT, THEN, WITHIN = range(8)


# ---- the reckoning ----


def named(row):
    kind, operands = row
    return [x for form, x in zip(FORMS[kind], operands) if form == "r"]


def lengths_over(rows):
    @lru_cache(maxsize=None)
    def length(at):
        kind, (p, q, _) = rows[at]
        below = [length(i) for i in named(rows[at])]
        if kind in (HOLD, OFF):
            return p
        if kind == WITHIN:
            return q
        if kind == THEN:
            return below[0] + below[1] + 1
        return max(below, default=0)

    return length


def inner_rows(rows):
    """Every row at the end of a chain that starts below a within, or at a then's i, and goes from row to named row."""
    seen = set()
    todo = [named(row)[0] for row in rows if row[0] in (THEN, WITHIN)]
    while todo:
        at = todo.pop()
        if at not in seen:
            seen.add(at)
            todo.extend(named(rows[at]))
    return seen


def operand_fault(row, facts, at):
    kind, operands = row
    for form, x in zip(FORMS[kind], operands):
        if (form == "z" and x != 0) or (form == "f" and x >= facts) or (form == "r" and x >= at):
            return True
    return kind == WITHIN and operands[0] > operands[1]


def fault(data):
    """The refusal and its row, or None where the bytes are a sheet."""
    if len(data) < 2:
        return (1, 0)
    facts, count = data[0], data[1]
    if not (1 <= facts <= 16 and 1 <= count <= 32 and len(data) == 2 + 4 * count):
        return (1, 0)
    triples = data[2 + count :]
    rows = [(data[2 + k], tuple(triples[3 * k : 3 * k + 3])) for k in range(count)]
    length = lengths_over(rows)
    for at, row in enumerate(rows):
        if row[0] > 7:
            return (2, at)
        if operand_fault(row, facts, at):
            return (3, at)
        if length(at) > 255:
            return (4, at)
    mentioned = {i for row in rows for i in named(row)}
    unnamed = [at for at in range(count - 1) if at not in mentioned]
    if unnamed:
        return (5, unnamed[0])

    def wrong(at):
        sides = [length(i) for i in named(rows[at])]
        return rows[at][0] == NOT or (rows[at][0] == EITHER and sides[0] != sides[1])

    bad = sorted(at for at in inner_rows(rows) if wrong(at))
    return (6, bad[0]) if bad else None


def answer(data):
    found = fault(data)
    return 0 if found is None else 256 * found[0] + found[1]


# ---- the cases ----

SEED = 20731
GOOD = 100
EACH = {1: 20, 2: 40, 3: 48, 4: 40, 5: 44, 6: 48}


def packed(facts, rows):
    return bytes([facts, len(rows)] + [k for k, _ in rows] + [x for _, ops in rows for x in ops])


def leaf(rng, facts, long):
    kind = rng.choice([ALWAYS, HOLD, HOLD, OFF, OFF])
    if kind == ALWAYS:
        return (ALWAYS, (0, 0, 0))
    return (kind, (rng.choice([0, 1, 2, rng.randrange(long)]), rng.randrange(facts), 0))


def grown(rng, count, facts, long, careful):
    """A sheet of so many rows, each named but the last; where careful, one that is no refusal."""
    rows, free, clean = [], [], []

    def add(row, fit):
        for i in named(row):
            if i in free:
                free.remove(i)
        free.append(len(rows))
        rows.append(row)
        clean.append(fit)

    while len(rows) < count:
        length = lengths_over(tuple(rows))
        left = count - len(rows)
        joins = len(free) > left
        if not rows or (not joins and len(free) < left and rng.random() < 0.35):
            add(leaf(rng, facts, long), True)
            continue
        if joins:
            i, j = rng.sample(free, 2)
            kind = rng.choice([BOTH, BOTH, EITHER, THEN])
        else:
            i, j = (rng.choice(free) if rng.random() < 0.75 else rng.randrange(len(rows)) for _ in range(2))
            kind = rng.choice([BOTH, EITHER, NOT, THEN, THEN, WITHIN, WITHIN])
        used = {i} if kind in (NOT, WITHIN) else {i, j}
        if len(set(free) - used) + 1 > left:
            continue
        if careful and kind == THEN and not (clean[i] and length(i) + length(j) < 255):
            continue
        if careful and kind == WITHIN and not clean[i]:
            continue
        if kind == WITHIN:
            a, b = sorted([rng.randrange(long), rng.randrange(long)])
            add((WITHIN, (a, b, i)), clean[i])
        elif kind == NOT:
            add((NOT, (i, 0, 0)), False)
        else:
            even = kind != EITHER or length(i) == length(j)
            add((kind, (i, j, 0)), even and clean[i] and clean[j])
    return rows


def deep(count, kind):
    """One row over the other, each naming the one below it, twice where the kind has two rows."""
    rows = [(HOLD, (0, 0, 0))]
    for k in range(1, count):
        row = {NOT: (k - 1, 0, 0), WITHIN: (0, 255 - k, k - 1)}.get(kind, (k - 1, k - 1, 0))
        rows.append((kind, row))
    return rows


def tower(rng, count, last):
    """A chain of thens whose length is exactly `last` at its top row, with a hold below each then."""
    pairs = (count - 1) // 2
    rows = [(HOLD, (last - pairs * 2, 0, 0))]
    for _ in range(pairs):
        below = len(rows) - 1
        rows.append((OFF, (1, 0, 0)))
        rows.append((THEN, (below, below + 1, 0)) if rng.random() < 0.5 else (THEN, (below + 1, below, 0)))
    return rows


def changed(rng, data):
    """The bytes with one change that is likely to be a fault."""
    out = bytearray(data)
    count = out[1]
    at = rng.randrange(count)
    kind = out[2 + at]
    ops = 2 + count + 3 * at
    way = rng.randrange(8)
    if way == 0:
        out[2 + at] = rng.choice([8, 9, 255, rng.randrange(8, 256)])
    elif way == 1:
        out[2 + at] = rng.randrange(8)
    elif way == 2:
        out[ops + rng.randrange(3)] = rng.randrange(256)
    elif way == 3 and kind < 8:
        slots = [s for s in range(3) if FORMS[kind][s] == "r"]
        if slots:
            out[ops + rng.choice(slots)] = rng.choice([at, at + 1, max(at, 1) - 1, rng.randrange(max(at, 1))])
    elif way == 4 and kind < 8:
        slots = [s for s in range(3) if FORMS[kind][s] in "zf"]
        if slots:
            out[ops + rng.choice(slots)] = rng.choice([out[0], out[0] + 1, 1, 255])
    elif way == 5 and kind == WITHIN:
        out[ops], out[ops + 1] = out[ops + 1], out[ops]
    elif way == 6 and kind in (HOLD, OFF):
        out[ops] = rng.choice([255, 254, 128, 127])
    elif way == 7 and kind in (HOLD, OFF):
        out[2 + at], out[ops], out[ops + 1] = ALWAYS, 0, 0
    return bytes(out)


def missized(rng, data):
    out = bytearray(data)
    way = rng.randrange(8)
    if way == 0:
        out[0] = rng.choice([0, 17, 18, 255])
    elif way == 1:
        out[1] = rng.choice([0, 33, 255])
    elif way == 2:
        out[1] = min(32, out[1] + 1)
    elif way == 3:
        out = out[: rng.randrange(len(out))]
    elif way == 4:
        out += bytes(rng.randrange(1, 5))
    elif way == 5:
        out = out[:-1]
    elif way == 6:
        out = out[:2]
    else:
        out[1] = max(1, out[1] - 1)
    return bytes(out)


def worked():
    then = lambda d: packed(1, [(HOLD, (127, 0, 0)), (HOLD, (d, 0, 0)), (THEN, (0, 1, 0))])
    sides = [(HOLD, (0, 0, 0)), (HOLD, (1, 0, 0)), (EITHER, (0, 1, 0))]
    return [
        (bytes.fromhex("01020107010000000300"), 0),
        (then(127), 0),
        (then(128), 1026),
        (packed(1, sides), 0),
        (packed(1, sides + [(WITHIN, (0, 2, 2))]), 1538),
        (b"", 256),
        (b"\x01", 256),
        (b"\x01\x00", 256),
        (packed(1, deep(33, BOTH)), 256),
        (packed(0, [(ALWAYS, (0, 0, 0))]), 256),
        (packed(17, [(ALWAYS, (0, 0, 0))]), 256),
        (packed(1, [(ALWAYS, (0, 0, 0))]), 0),
        (packed(1, [(NOT, (0, 0, 0))]), 768),
        (packed(1, [(8, (0, 0, 0))]), 512),
        (packed(1, [(ALWAYS, (0, 0, 0)), (ALWAYS, (0, 0, 0))]), 1280),
        (packed(16, [(HOLD, (255, 15, 0)), (NOT, (0, 0, 0)), (WITHIN, (255, 255, 1))]), 1537),
        # the i of a then is inner, its j is not, unless the then is inner itself
        (packed(1, [(HOLD, (0, 0, 0)), (NOT, (0, 0, 0)), (THEN, (0, 1, 0))]), 0),
        (packed(1, [(HOLD, (0, 0, 0)), (NOT, (0, 0, 0)), (THEN, (1, 0, 0))]), 1537),
        (packed(1, [(HOLD, (0, 0, 0)), (NOT, (0, 0, 0)), (THEN, (0, 1, 0)), (WITHIN, (0, 9, 2))]), 1537),
        (packed(1, deep(30, BOTH) + [(NOT, (29, 0, 0)), (WITHIN, (0, 0, 30))]), 1566),
        # a hold's number and a within's a and b name no row
        (packed(2, [(ALWAYS, (0, 0, 0)), (HOLD, (0, 0, 0)), (NOT, (1, 0, 0))]), 1280),
        (packed(2, [(ALWAYS, (0, 0, 0)), (HOLD, (0, 0, 0)), (WITHIN, (0, 1, 1))]), 1280),
        # an earlier row's fault goes before a later row's, and every row's before 5 and 6
        (packed(1, [(HOLD, (0, 1, 0)), (9, (0, 0, 0))]), 768),
        (packed(1, [(8, (1, 1, 1)), (9, (0, 0, 0))]), 512),
        (packed(1, [(HOLD, (0, 0, 0)), (NOT, (0, 0, 0)), (WITHIN, (0, 0, 1)), (NOT, (9, 0, 0))]), 771),
        (packed(1, [(HOLD, (0, 0, 0)), (NOT, (0, 0, 0)), (WITHIN, (0, 0, 1)), (ALWAYS, (0, 0, 0))]), 1282),
    ]


def families(rng):
    for kind in (BOTH, EITHER, NOT, THEN, WITHIN):
        for count in (2, 3, 7, 8, 9, 16, 31, 32):
            yield packed(1, deep(count, kind))
    for count in (3, 9, 17, 25, 31):
        for last in (64, 254, 255, 256, 257):
            yield packed(1, tower(rng, count, last))


def candidates(rng):
    """Sheets without end, good and bad."""
    while True:
        facts = rng.choice([1, 16, rng.randrange(1, 17)])
        count = rng.choice([1, 2, 3, 31, 32, rng.randrange(1, 33), rng.randrange(4, 33)])
        long = rng.choice([4, 20, 100, 256])
        rows = grown(rng, count, facts, long, rng.random() < 0.6)
        data = packed(facts, rows)
        yield data
        for _ in range(2):
            yield changed(rng, data)
        yield changed(rng, changed(rng, data))
        yield missized(rng, data)


def chosen(rng):
    """The worked sheets and the families, then so many of each refusal, from as many rows as there are."""
    for data, known in worked():
        assert answer(data) == known, (data.hex(), answer(data), known)
    first = [data for data, _ in worked()] + list(families(rng))
    have = set(first)
    pool = {}
    for tries, data in enumerate(candidates(rng)):
        if tries == 40000:
            break
        if data not in have:
            have.add(data)
            pool.setdefault(answer(data), []).append(data)
    # of the good, some of every size
    good = sorted(pool[0], key=lambda data: (data[1], data))
    cases = [good[k * len(good) // GOOD] for k in range(GOOD)]
    for refusal, wanted in EACH.items():
        rows = {a % 256: list(of) for a, of in pool.items() if a // 256 == refusal}
        taken = 0
        while taken < wanted:
            for row in sorted(rows):
                if rows[row] and taken < wanted:
                    cases.append(rows[row].pop(rng.randrange(len(rows[row]))))
                    taken += 1
    rng.shuffle(cases)
    return first + cases


def main(arguments):
    if arguments and arguments[0] != "--check":
        for text in arguments:
            print(answer(bytes.fromhex(text)))
        return 0
    cases = chosen(random.Random(SEED))
    root = os.path.join(os.path.dirname(os.path.abspath(__file__)), "..", "crates", "check_cases")
    texts = {"stdin": "".join(data.hex() + "\n" for data in cases), "stdout": "".join(f"{answer(data)}\n" for data in cases)}
    if arguments:
        for name, text in texts.items():
            with open(os.path.join(root, name), encoding="ascii") as file:
                if file.read() != text:
                    print(f"{name} is not what would be written")
                    return 1
        print("both files are what would be written")
        return 0
    os.makedirs(root, exist_ok=True)
    for name, text in texts.items():
        with open(os.path.join(root, name), "w", encoding="ascii") as file:
            file.write(text)
    answers = [answer(data) for data in cases]
    kinds = Counter(k for data in cases if answer(data) == 0 for k in data[2 : 2 + data[1]])
    print(f"{len(cases)} sheets; good: {answers.count(0)}, with rows of kind {dict(sorted(kinds.items()))}")
    for refusal in range(1, 7):
        rows = Counter(a % 256 for a in answers if a // 256 == refusal)
        print(f"refused {refusal}: {sum(rows.values())}, at rows {dict(sorted(rows.items()))}")
    return 0


if __name__ == "__main__":
    sys.exit(main(sys.argv[1:]))
