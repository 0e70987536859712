"""The questions of the program `test_parts`, and what it must print: `python3 tests/parts.py` writes crates/test_parts/stdin and crates/test_parts/stdout.

The answers come from rules01.py and links01.py, which were written from the customer's build scope and the paper alone (docs/RULES.md).
"""
import pathlib

from links01 import FIRST_EXAMPLE, links, purge
from rules01 import number as number_at, refusal, sampled

questions, lines = bytearray(), []
LENGTHS, NUMBER, BYTE, PURGE, COUNT = range(1, 6)


def word(x):
    return bytes((x % 256, x // 256))


def ask(what, of, title, job):
    """A question: four numbers of 16 bits, its title, its job."""
    questions.extend(word(what) + word(of) + word(len(title)) + word(len(job)) + title.encode() + job)


def block(weights, epsilon, rows):
    n, m = len(rows), len(weights)
    head = [n, m, epsilon, 12, 12 + 2 * m, 12 + 2 * m + n * m] + weights
    return bytearray(b"".join(word(x) for x in head) + b"".join(rows))


def epsilon_of(job):
    return number_at(job, 4)


def built(n, m, behind=0):
    """A job that passes where its size does, and bytes behind it that are not zero."""
    weights = [1 + 111 * (k % 10) for k in range(6, 6 + m)]
    states = bytes(33 + i % 94 for i in range(n * m))
    return block(weights, 3, [states[k * m:k * m + m] for k in range(n)]) + b"." * behind


# Damaged jobs: one part at every value. Values that are answered alike are one line.

def told(answer):
    return f": {answer[0]} {answer[1]}"


def sweep(what, of, title, job, last, changed):
    ask(what, of, title, job)
    lines.append(title)
    answers = [refusal(changed(job, value)) for value in range(last + 1)]
    first = 0
    for value, now in enumerate(answers):
        if answers[value + 1:value + 2] != [now]:
            lines.append(f"  {first}" + (f"..{value}" if first < value else "") + told(now))
            first = value + 1


def lengths(title, job):
    sweep(LENGTHS, 0, title, job, len(job), lambda job, value: job[:value])


def number(title, at, job):
    sweep(NUMBER, at, title, job, 65535, lambda job, value: job[:at] + word(value) + job[at + 2:])


def byte(title, at, job):
    sweep(BYTE, at, title, job, 255, lambda job, value: job[:at] + bytes((value,)) + job[at + 1:])


lengths("256 rows of 64, length", built(256, 64, 76))
lengths("1 row of 1, length", built(1, 1, 49))
for i, name in enumerate("rows width epsilon weights-offset states-offset whole weight-0 weight-1".split()):
    number(f"3 rows of 2, {name}", 2 * i, built(3, 2))
for place in range(6):
    byte(f"3 rows of 2, state {place}", 16 + place, built(3, 2))
for place in 0, 16383:
    byte(f"256 rows of 64, state {place}", 140 + place, built(256, 64))


# The types of a job, of which some are inferred, purged at its epsilon: types kept, rows retired, links.

def types(title, job, each=True, kept_as_sampled=65535):
    ask(PURGE if each else COUNT, kept_as_sampled, title, job)
    answer = refusal(job)
    if answer != (0, 0):
        lines.append(title + told(answer))
        return
    answer, found = sampled(job)
    lines.append(f"{title} epsilon {epsilon_of(job)}")
    weights = [number_at(job, 12 + 2 * c) for c in range(number_at(job, 2))]
    origins = {row: (rows, first) if i < kept_as_sampled else (0, 1) for i, (row, rows, first) in enumerate(found)}
    kept, retired = ([], []) if answer != (0, 0) else purge(weights, epsilon_of(job), [(row, origins[row][0] == 0) for row in origins])
    linked = links(weights, epsilon_of(job), [row for row, _ in kept])
    lines.extend("T {} {} {} {}".format(i, *origins[row], row.decode()) for i, (row, _) in enumerate(kept))
    lines.extend(f"R {row.decode()}" for row in retired)
    if each:
        lines.extend("L {} {} {}".format(*link) for link in linked)
    lines.append(f"links {len(linked)}" + told(answer))


for n, m in (256, 65), (257, 64), (257, 65):
    types(f"{n} rows of {m}", built(n, m))


# Two damages at once: the first in the order of RULES 4.2 must be given.

def put(at, text):
    return lambda job: job.__setitem__(slice(at, at + len(text)), text)


DAMAGES = {
    "head": lambda job: job.__delitem__(slice(11, None)),
    "rows": put(0, word(0)),
    "width": put(2, word(65)),
    "weights-offset": put(6, word(13)),
    "states-offset": put(8, word(17)),
    "whole": put(10, word(23)),
    "lent": lambda job: job.extend(b"."),
    "weight 0": put(12, word(1001)),
    "weight 1": put(14, word(0)),
    "state 1": put(17, b" "),
    "state 4": put(20, b"\x7f"),
}

for i, one in enumerate(DAMAGES):
    for other in list(DAMAGES)[i:]:
        job = built(3, 2)
        for name in {other, one} - {"head"}:
            DAMAGES[name](job)
        if "head" in (one, other):
            DAMAGES["head"](job)
        types(f"{one} and {other}", job)


# Rows that collapse to types: at the bound of 128 types, and rows that come again.

def collapse(title, rows):
    """Rows of two states, told apart by a number from 0 to 255."""
    types(title, block([1, 1], 3, [bytes((65 + r % 16, 65 + r // 16)) for r in rows]), each=len(rows) < 10)


collapse("128 different rows", range(128))
collapse("and the first again", [k % 128 for k in range(129)])
collapse("129 different rows", range(129))
collapse("row 200 is the 129th type", [k % 128 if k < 200 else k for k in range(256)])
collapse("3 equal rows", [0, 0, 0])
collapse("A B A C B A", [0, 1, 0, 2, 1, 0])
types("3 rows, the last state differs", block([1] * 64, 3, [b"A" * 64, b"A" * 64, b"A" * 63 + b"~"]))


# Sets of types at several epsilons.

def purged(title, weights, epsilon, rows, inferred=(), each=True):
    types(title, block(weights, epsilon, [row.encode() for row in [*rows, *inferred]]), each, len(rows))


def first(names):
    """The first example of the paper, with inferred types by their names there."""
    return FIRST_EXAMPLE["weights"], FIRST_EXAMPLE["rows"], [FIRST_EXAMPLE["inferred"][name] for name in names]


SETS = {
    "P4": ([1], "ABC"),
    "P8": ([1, 1], ["00", "01", "11"]),
    "first example": first(""),
    "with U": first("U"),
    "with U and V": first("UV"),
    "with U, V, Y and Z": first("UVYZ"),
    "with all": first("UVWXYZ"),
    "two passes": ([1, 1, 1, 1], ["1100", "1010", "0010"], ["1000", "0000"]),
    "together": ([1, 1, 1], ["110", "210", "001"], ["100", "000"]),
    "three passes": ([2, 3, 2, 3, 1], "11001 10111 00100".split(), "10000 10001 10010 00011 01010 00111".split()),
    "by epsilon": ([3, 2, 3, 1, 3], "11101 00001 10111 11111".split(), "00110 11011 01001 11100 01100".split()),
    "four passes": ([3, 3, 1, 1, 3], "00110 10101".split(), "11001 10000 11000 10111 01010 01011 11110".split()),
    "none sampled": ([1], "", "ABCD"),
}
for title, (weights, *rows) in SETS.items():
    for epsilon in range(3):
        purged(title, list(weights), epsilon, *rows)
for epsilon in 0, 31999, 32000, 65535:
    purged("wide", [1000] * 64, epsilon, ["A" * 64, "B" * 64, "A" * 32 + "B" * 32])
for epsilon in range(3):
    purged("R1", [1, 1], epsilon, [chr(65 + i % 8) + chr(65 + i // 8) for i in range(128)], each=False)

crate = pathlib.Path(__file__).parent.parent / "crates" / "test_parts"
(crate / "stdin").write_bytes(questions)
(crate / "stdout").write_text("\n".join(lines) + "\n")
