#!/usr/bin/env python3
"""A second reading of request A1 (now chapter 18 of docs/RULES.md): a FASTA text and an epsilon become a job block with all weights 1.

answer(text, epsilon, lent) -> (number, place, used, block), written from the request's words alone:
the text is cut into lines with their offsets, then the lines are read one after another.
Number 0 is success; 20 to 26 are the refusals, whose `used` is 0 and whose block is empty.

Its author had not seen the library. Run as a program, it compares the built program `test_fasta` with answer() on texts made from a seed:
    python3 tests/fasta01.py [SEED]   prints the counts by group and answer, and every kind of difference; some 340,000 texts, many minutes
"""
import collections, itertools, os, pathlib, random, struct, subprocess, sys, tempfile

SEQUENCES, STATES = 256, 64
LEAST = 12 + 2 * STATES + SEQUENCES * STATES            # 16,524 bytes


def lines(text):
    """The (offset, bytes) of each line, its end (LF, or CR LF) taken off; the last may lack its end."""
    at = 0
    while at < len(text):
        lf = text.find(b"\n", at)
        if lf < 0:
            yield at, text[at:]                         # a CR at the very end is no line's end
            return
        line = text[at:lf]
        yield at, line[:-1] if line.endswith(b"\r") else line
        at = lf + 1


def read(text):
    """(number, place, sequences): the first fault in reading order, then those asked after reading."""
    sequences = []
    for at, line in lines(text):
        if not line:
            continue
        if line.startswith(b">"):
            if len(sequences) == SEQUENCES:
                return 24, at, None
            sequences.append(bytearray())
        elif not sequences:
            return 21, at, None
        else:
            for place, byte in enumerate(line, at):
                if not 33 <= byte <= 126:
                    return 22, place, None
                if len(sequences[-1]) == STATES:
                    return 23, place, None
                sequences[-1].append(byte)
    if not sequences:
        return 25, 0, None
    lengths = [len(s) for s in sequences]
    if 0 in lengths:
        return 25, lengths.index(0), None
    for i, length in enumerate(lengths):
        if length != lengths[0]:
            return 26, i, None
    return 0, 0, sequences


def answer(text, epsilon, lent):
    if lent < LEAST:
        return 20, 0, 0, b""
    number, place, sequences = read(text)
    if number:
        return number, place, 0, b""
    n, m = len(sequences), len(sequences[0])
    used = 12 + 2 * m + n * m
    block = struct.pack("<6H", n, m, epsilon, 12, 12 + 2 * m, used)
    block += struct.pack("<H", 1) * m + b"".join(sequences)
    return 0, 0, used, block


# ---- the texts: each group yields (text, epsilon, lent) ----

def every(alphabet, longest):
    for k in range(longest + 1):
        for t in itertools.product(alphabet, repeat=k):
            yield bytes(t)


def around(texts, r, before=b"", after=b"", shuffled=True):
    """The texts with something before and after; shuffled, so that what an earlier text left differs."""
    texts = [before + t + after for t in texts]
    if shuffled:
        r.shuffle(texts)
    for t in texts:
        yield t, r.randrange(65536), r.choice((16524, 17000))


def lents(r):
    return r.choice((16524,) * 5 + (17000,) * 3 + (16523, r.randrange(17001), r.randrange(16524, 17001)))


def epsilons(r):
    return r.choice((0, 1, 255, 256, 32767, 32768, 65535, r.randrange(65536), r.randrange(65536)))


def byte_everywhere(r):
    """Each of the 256 bytes at each kind of place."""
    frames = [(b"", b""), (b"", b"\n"), (b"", b">\nA"), (b"\n", b"\n>\nA"), (b"\r\n", b""), (b">", b""), (b">", b"\nA"),
              (b">a", b"b\nA"), (b">", b"\r\nA"), (b">\n", b""), (b">\n", b"\n"), (b">\n", b"\r\n"), (b">\n", b"A"),
              (b">\nA", b""), (b">\nA", b"\n"), (b">\nA", b"\r\n"), (b">\nA", b"A"), (b">\nA\n", b""), (b">\nA\r\n", b""),
              (b">\nA\n", b"A\n>\nAAA"), (b">\n" + b"A" * 63, b""), (b">\n" + b"A" * 63, b"\r\n"), (b">\n" + b"A" * 64, b""),
              (b">\n" + b"A" * 64, b"\n"), (b">\n" + b"A" * 64, b"\r\n"), (b">\n" + b"A" * 64 + b"\n", b""),
              (b">\n" + b"A" * 64 + b"\n", b"\r\n"), (b">\nA\n" * 256, b""), (b">\nA\n" * 256, b"\n"), (b">\n" * 256, b""),
              (b">\nA\n" * 255 + b">\n", b"")]
    return around([a + bytes([b]) + z for a, z in frames for b in range(256)], r)


def pieces(r, many):
    """Random texts made of pieces, clean for the most part, so that every answer has its share."""
    for _ in range(many):
        dirt = r.choice((0, 0, 0.01, 0.05, 0.3))
        end = r.choice((b"\n", b"\r\n", None))
        ends = lambda: end or r.choice((b"\n", b"\r\n"))
        good = r.choice((b"A", b"ACGT", bytes(range(33, 127)), b">A!~"))
        out, length = [], r.choice((0, 1, 2, 5, 20, 60, 63, 64, 64, 65))
        for _ in range(r.choice((0, 0, 0, 1, 3))):
            out.append(ends())
        for _ in range(r.choice((0, 1, 1, 2, 3, 5, 10, 40))):
            header = bytes(r.randrange(256) for _ in range(r.choice((0, 0, 1, 5, 30)))).replace(b"\n", b"\r")
            out.append(b">" + header + ends())
            left = length if r.random() > dirt / 2 else r.randrange(66)
            while left > 0:
                k = r.randint(1, left) if r.random() < 0.5 else left
                left -= k
                line = bytes(r.choice(good) for _ in range(k))
                if line[:1] == b">" and r.random() < 0.95:
                    line = b"A" + line[1:]
                out.append(line + ends() * r.choice((1, 1, 1, 2, 3)))
            while r.random() < dirt:
                out.append(r.choice((b"\r", b" ", b"\t", b"\0", b"\x7f", b"\x80", b"\xff", b"!", b"~", b">", b"\n>", b"\n", b"\r\r\n", b"\n\r\n")))
        text = b"".join(out)
        if r.random() < 0.4:
            text = text[:-1] if r.random() < 0.5 else text.rstrip(b"\r\n")
        if r.random() < 0.3 and text:
            i = r.randrange(len(text))
            text = text[:i] + r.choice((b"", b"\r", b"\n", b">", b" ", b"A", bytes([r.randrange(256)]))) + text[i + r.randrange(2):]
        yield text, epsilons(r), lents(r)


def bounds(r, many):
    """Near the bounds: 63 to 65 states over several lines, 255 to 257 sequences, one off, one empty, both."""
    for _ in range(many):
        end = r.choice((b"\n", b"\r\n"))
        n = r.choice((1, 2, 254, 255, 256, 256, 256, 257, 258, r.randint(1, 256)))
        m = r.choice((1, 1, 2, 62, 63, 64, 64, 64, 65, 66, r.randint(1, 64)))
        lengths = [m] * n
        for _ in range(r.choice((0, 0, 0, 1, 1, 2))):
            i = r.choice((0, n - 1, n - 1, r.randrange(n), min(n - 1, 255)))
            lengths[i] = r.choice((0, 0, m - 1, m + 1, 63, 64, 65, 1))
        out = []
        for k in lengths:
            s = bytes(r.choice(b"ACGT-!~") for _ in range(k))
            out.append(b">" + r.choice((b"", b"", b"s", b">", b"\r", b"a b\x7f\xff\0")) + end)
            cuts = sorted(r.randrange(k + 1) for _ in range(r.choice((0, 0, 1, 3))))
            for a, z in zip([0] + cuts, cuts + [k]):
                out.append(s[a:z] + end)                # an empty cut makes an empty line
        text = b"".join(out)
        if r.random() < 0.5:
            text = text[:-len(end)]
        if r.random() < 0.25:                           # a fault put at, before or after the last byte of a row
            i = r.choice((len(text), max(0, len(text) - 1), r.randrange(len(text) + 1)))
            text = text[:i] + r.choice((b"\r", b" ", b"\x7f", b"\x80", b">", b"\n>", b"A", b"\0")) + text[i:]
        if r.random() < 0.1:
            text = r.choice((b"\n", b"\r\n", b"\n\r\n\n", b"\r", b"A", b" ")) + text
        yield text[:65536], epsilons(r), lents(r)


def long(r, many):
    """Up to 65,536 bytes: long headers and many empty lines, with the faults far behind."""
    for _ in range(many):
        size = r.choice((65536, 65536, 65535, 32768, 32769, 32767, 40000, 256, 255, 257, r.randrange(200, 65536)))
        tail = r.choice((b"", b"A", b"A\n", b"A\r", b"A\r\n", b" ", b"\r", b">", b"A\n>", b"A\n>\nAB", b"A\n>\nB", b"\x7f", b"A\x80",
                         b"A" * 64, b"A" * 65, b"A" * 64 + b"\r", b"A" * 64 + b"\r\n", b"\n\r\nA\r\n>\r\n\r\nA"))
        head = r.choice((b">", b">\n", b">x\r\n", b"", b">\nA\n", b">\nA\n>", b">\nA\n" * 256, b">\nA\n" * 255 + b">"))
        room = max(0, size - len(head) - len(tail) - 1)
        fill = r.choice((b"\n", b"\r\n", b"x", b"\r", b"\n\r\n", b">", b" "))
        yield (head + (fill * room)[:room] + r.choice((b"\n", b"\n", b"\n", b"\r", b"x")) + tail)[:65536], epsilons(r), lents(r)


def lents_and_epsilons(r):
    """Each epsilon's bytes apart, and many lents, also for texts with faults of their own."""
    texts = (b">\nA", b"", b"x", b">\n ", b">\n" + b"A" * 65, b">\n" * 257, b">", b">\nA\n>\nAA", b">\nACGT\n>\nTGCA\n" * 128,
             (b">\n" + b"A" * 64 + b"\n") * 256)
    for lent in [*range(0, 40), *range(16500, 16560), 8192, 16383, 16384, 16999, 17000]:
        for t in texts:
            yield t, r.randrange(65536), lent
    for e in [*range(0, 65536, 257), *range(0, 65536, 256), *range(256)]:
        yield texts[0], e, 16524


def groups(seed):
    r = random.Random(seed)
    five, seven = b"\n\r>A ", b"\n\r>A \x7f!"
    yield "all over LF CR > A space, to 6", around(every(five, 6), r)
    yield "the same after '>LF'", around(every(five, 6), r, b">\n")
    yield "the same after '>LF AA LF >LF A'", around(every(five, 5), r, b">\nAA\n>\nA")
    yield "the same after '>LF' and 63 states", around(every(five, 5), r, b">\n" + b"A" * 63)
    yield "the same after 255 sequences and '>LF'", around(every(five, 4), r, b">\nA\n" * 255 + b">\n")
    yield "all over LF CR > A, to 8", around(every(b"\n\r>A", 8), r)
    yield "all over LF CR > A space 7F !, to 6", around(every(seven, 6), r)
    yield "each byte at each kind of place", byte_everywhere(r)
    yield "lents and epsilons", lents_and_epsilons(r)
    yield "pieces", pieces(r, 40000)
    yield "bounds", bounds(r, 12000)
    yield "long", long(r, 4000)


# ---- the comparison ----

def command():
    """The program as `rt ci`, or `rt run` in its crate's folder, builds it."""
    crate = pathlib.Path(__file__).resolve().parent.parent / "crates" / "test_fasta"
    return [str(crate / "out" / "test_fasta")]


def printed(a):
    return b"%d %d %d\n" % a[:3] + a[3]


def run(cases, folder):
    args = []
    for i, (text, epsilon, lent) in enumerate(cases):
        with open(os.path.join(folder, str(i)), "wb") as f:
            f.write(text)
        args += [str(lent), str(epsilon), str(i)]
    done = subprocess.run(command() + args, cwd=folder, capture_output=True)
    return done.stdout if done.returncode == 0 and not done.stderr else b"exit %d: " % done.returncode + done.stderr + done.stdout


def main():
    seed = int(sys.argv[1]) if len(sys.argv) > 1 else 1
    total, seen, worst, runs, faults = collections.Counter(), set(), {}, 0, 0
    with tempfile.TemporaryDirectory() as folder:
        for name, cases in groups(seed):
            counts, differ = collections.Counter(), 0
            cases = iter(cases)
            while batch := list(itertools.islice(cases, 400)):
                wanted = [answer(*c) for c in batch]
                counts.update(a[0] for a in wanted)
                seen.update(hash(c[0]) for c in batch)
                runs += 1
                if run(batch, folder) == b"".join(map(printed, wanted)):
                    continue
                alone = [(c, printed(a), run([c], folder)) for c, a in zip(batch, wanted)]
                alone = [x for x in alone if x[1] != x[2]]
                differ += len(alone) or 1
                if not alone:
                    print("a batch differs though none of its texts does alone:", name, "run", runs)
                for c, mine, other in alone:
                    kind = mine.split()[0], other.split()[:1][0] if other.split() else b""
                    if kind not in worst or len(c[0]) < len(worst[kind][0][0]):
                        worst[kind] = c, mine, other
            total.update(counts)
            faults += differ
            print("%-42s %7d texts, %d differ;" % (name, sum(counts.values()), differ),
                  " ".join("%d:%d" % x for x in sorted(counts.items())), flush=True)
    print("seed %d, %d runs, %d texts compared (%d distinct);" % (seed, runs, sum(total.values()), len(seen)),
          " ".join("%d:%d" % x for x in sorted(total.items())))
    for kind, (case, mine, other) in worst.items():
        print("DIFFERENCE", kind, "text, epsilon, lent:", case, "wanted:", mine[:80], "got:", other[:80])
    sys.exit(1 if faults else 0)


if __name__ == "__main__":
    main()
