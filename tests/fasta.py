#!/usr/bin/env python3
"""Writes what the program `test_fasta` is run on and what it must print: crates/test_fasta/args, data/hand_*.fasta and stdout.

The stored texts (data/*.fasta with their .out, epsilons in data/INDEX) come with their answers. The answers below were written by hand
from request A1 (RULES 18), every refusal at the first and the last byte or sequence where it can be met; no FASTA text is read here.
"""
import pathlib

ROOM = 16524
here = pathlib.Path(__file__).resolve().parent.parent / "crates" / "test_fasta"
data = here / "data"


def words(*numbers):
    return b"".join(x.to_bytes(2, "little") for x in numbers)


def block(rows, epsilon=0):
    n, m = len(rows), len(rows[0])
    return words(n, m, epsilon, 12, 12 + 2 * m, 12 + 2 * m + n * m) + words(*[1] * m) + b"".join(rows)


def job(*rows, epsilon=0):
    made = block([row.encode() for row in rows], epsilon)
    return b"0 0 %d\n" % len(made) + made


def refused(number, place):
    return b"%d %d 0\n" % (number, place)


A64 = "A" * 64
full = ">\n" + A64 + "\n"  # 67 bytes
one = ">\nA\n"  # 4 bytes
P5 = ">a\n110\n>b\n101\n>c\n011\n"

# name, bytes lent, epsilon, text, what must be printed
CASES = [
    # 20: a byte too short, and nothing lent; with a byte more it is no refusal. It goes before every fault of the text.
    ("short", ROOM - 1, 0, P5, refused(20, 0)),
    ("nothing_lent", 0, 0, P5, refused(20, 0)),
    ("short_and_fault", ROOM - 1, 0, "A", refused(20, 0)),
    ("least_lent", ROOM, 65535, P5, job("110", "101", "011", epsilon=65535)),
    ("more_lent", 17000, 7, P5, job("110", "101", "011", epsilon=7)),
    ("largest", ROOM, 0, full * 256, job(*[A64] * 256)),
    # 21: the first byte; the last one, behind empty lines; a bad byte there is 21 and not 22; `>` counts at a line's start alone.
    ("before_first", ROOM, 0, "A", refused(21, 0)),
    ("before_last", ROOM, 0, "\n\r\n\nA", refused(21, 4)),
    ("before_bad_byte", ROOM, 0, "\0" + P5, refused(21, 0)),
    ("before_space", ROOM, 0, " >a\nA\n", refused(21, 0)),
    ("before_cr_at_the_end", ROOM, 0, "\n\r", refused(21, 1)),
    ("before_cr_cr", ROOM, 0, "\r\r\n>a\nA\n", refused(21, 0)),
    # 22: the first byte that can be in a sequence; the last of the text; in the 256th sequence; the bounds of a state.
    ("byte_first", ROOM, 0, ">\n ", refused(22, 2)),
    ("byte_cr_at_the_end", ROOM, 0, ">\nA\r", refused(22, 3)),
    ("byte_last", ROOM, 0, full * 255 + ">\n" + "A" * 63 + "\x7f", refused(22, 255 * 67 + 65)),
    ("byte_127", ROOM, 0, ">\nA\x7f\n", refused(22, 3)),
    ("byte_255", ROOM, 0, ">\nA\xff\n", refused(22, 3)),
    ("byte_cr_cr", ROOM, 0, ">\nA\r\r\n", refused(22, 3)),
    ("bytes_33_and_126", ROOM, 0, ">\n!~\n", job("!~")),
    ("byte_and_65th", ROOM, 0, ">\n" + A64 + " ", refused(22, 66)),
    # 23: the first byte that can be a 65th state; over two lines; the last of the text, in the 256th sequence.
    ("wide_first", ROOM, 0, ">\n" + A64 + "A", refused(23, 66)),
    ("wide_over_lines", ROOM, 0, ">x\nA\r\n" + A64 + "\n", refused(23, 6 + 63)),
    ("wide_opener_inside", ROOM, 0, ">\n" + A64 + ">", refused(23, 66)),
    ("wide_last", ROOM, 0, full * 255 + ">\n" + A64 + "\nA", refused(23, 255 * 67 + 67)),
    # 24: the first byte that can open a 257th sequence, before 25 is asked; the last of the text; 256 are welcome.
    ("many_first", ROOM, 0, ">\n" * 257, refused(24, 512)),
    ("many_last", ROOM, 0, full * 256 + ">", refused(24, 256 * 67)),
    ("many_before_uneven", ROOM, 0, ">\nAA\n" + one * 256, refused(24, 5 + 255 * 4)),
    ("sequences_256", ROOM, 0, one * 256, job(*["A"] * 256)),
    # 25: no sequence, with and without lines; the first sequence; the last; it goes before 26.
    ("nothing", ROOM, 0, "", refused(25, 0)),
    ("empty_lines", ROOM, 0, "\n\r\n\n", refused(25, 0)),
    ("empty_first", ROOM, 0, ">a\n>b\nA\n", refused(25, 0)),
    ("empty_256", ROOM, 0, ">\n" * 256, refused(25, 0)),
    ("empty_last", ROOM, 0, one * 255 + ">", refused(25, 255)),
    ("empty_before_uneven", ROOM, 0, ">\nA\n>\nAA\n>\n", refused(25, 2)),
    # 26: the first sequence that can differ; the last; from sequence 0 and not from the one before.
    ("uneven_first", ROOM, 0, ">\nA\n>\nAA\n", refused(26, 1)),
    ("uneven_last", ROOM, 0, one * 255 + ">\nAA", refused(26, 255)),
    ("uneven_twice", ROOM, 0, ">\nAA\n>\nAA\n>\nA\n>\nA\n", refused(26, 2)),
    # Texts that are read: any bytes in a header, `>` inside a line, lines joined, the last without its end.
    ("header_bytes", ROOM, 0, ">\0\xff\r>A \x7f\r\nAC\n", job("AC")),
    ("opener_inside", ROOM, 0, ">a\nA>\n>b\nA\n>", refused(25, 2)),
    ("opener_as_state", ROOM, 0, ">a\nA>\n>b\nC>", job("A>", "C>")),
    ("lines_joined", ROOM, 0, "\n>a>\n1\r\n\r\n\n1\n0\n>b\r\n101\r\n>c\n\n011", job("110", "101", "011")),
]

args, stdout = [], b""
for line in (data / "INDEX").read_text().splitlines():
    name, _, epsilon = line.split()[:3]
    args += [str(ROOM), epsilon, f"{name}.fasta"]
    stdout += (data / f"{name}.out").read_bytes()
for name, lent, epsilon, text, printed in CASES:
    (data / f"hand_{name}.fasta").write_bytes(text.encode("latin-1"))
    args += [str(lent), str(epsilon), f"hand_{name}.fasta"]
    stdout += printed
(here / "args").write_text("".join(a + "\n" for a in args))
(here / "stdout").write_bytes(stdout)
