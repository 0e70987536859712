# Counts the instructions of crates/hurdlesong/out/hurdlesong (cachegrind, the whole process) and prints them as tables. The C program to compare with
# is not part of the project; what it took stands in baseline.txt.
import concurrent.futures
import math
import os
import re
import subprocess
import sys
import tempfile

import jobs

HERE = os.path.dirname(os.path.realpath(__file__))
STORED = os.path.join(HERE, "..", "crates", "test_vectors", "data")
PROGRAM = os.path.join(HERE, "..", "crates", "hurdlesong", "out", "hurdlesong")
LISTED = "P5 R1 R3 cube7_w64_huge slow_core96 climb_okrounds_1 w_rand_64_01".split()
COUNTER = ["valgrind", "--tool=cachegrind", "--cache-sim=no", "--cachegrind-out-file=/dev/null"]


# What a job takes, and the first line printed for it.
def count(job):
    with tempfile.TemporaryFile() as given:
        given.write(job)
        given.seek(0)
        run = subprocess.run(COUNTER + [PROGRAM], stdin=given, capture_output=True)
    found = re.search(rb"I\s+refs:\s+([\d,]+)", run.stderr)
    if not found:
        sys.exit("valgrind gave no count:\n" + run.stderr.decode(errors="replace"))
    return int(found.group(1).replace(b",", b"")), run.stdout.split(b"\n")[0].decode()


def counts(all_jobs):
    with concurrent.futures.ThreadPoolExecutor(os.cpu_count()) as pool:
        return list(pool.map(count, all_jobs))


def stored(name):
    with open(os.path.join(STORED, name + ".job"), "rb") as f:
        return f.read()


def mean(ratios):
    return math.exp(sum(map(math.log, ratios)) / len(ratios))


def baseline():
    with open(os.path.join(HERE, "baseline.txt")) as f:
        lines = [line.split() for line in f if line.strip() and not line.startswith("#")]
    return {name: int(taken) for name, taken in lines}


def compared():
    base = baseline()
    names = list(base)
    ratio = {}
    taken = dict(zip(names, counts([stored(name) for name in names])))
    for name in names:
        ratio[name] = taken[name][0] / base[name]
    print("| job | instructions | C program | ratio |\n|---|---|---|---|")
    for name in LISTED:
        print("| %s | %s | %s | %.2f |" % (name, f"{taken[name][0]:,}", f"{base[name]:,}", ratio[name]))
    print("\nGeometric mean of these %d: %.2f." % (len(LISTED), mean([ratio[name] for name in LISTED])))
    worst = sorted(names, key=lambda name: -ratio[name])[:3]
    told = ", ".join("%s %.2f" % (name, ratio[name]) for name in worst)
    print("Of all %d stored jobs: %.2f; the highest are %s.\n" % (len(names), mean(ratio.values()), told))


# One table: sizes that double, and the exponent between neighbours, by what a job takes beyond P1.
def growth(title, size, sizes, make):
    fixed = count(stored("P1"))[0]
    print("%s\n\n| %s | answer | instructions | exponent |\n|---|---|---|---|" % (title, size))
    before = None
    for s, (taken, line) in zip(sizes, counts([make(s) for s in sizes])):
        exponent = "" if before is None else "%.2f" % math.log2((taken - fixed) / (before - fixed))
        print("| %d | %s | %s | %s |" % (s, line, f"{taken:,}", exponent))
        before = taken
    print()


compared()
growth("Every two types linked, width 32:", "types", [8, 16, 32, 64, 128], lambda n: jobs.all_linked(n.bit_length() - 1, 32))
growth("Every two of 64 types linked:", "width", [8, 16, 32, 64], lambda m: jobs.all_linked(6, m))
growth("Drawn at random, width 32:", "types", [8, 16, 32, 64, 128], lambda n: jobs.drawn(n, 32))
growth("64 types drawn at random:", "width", [8, 16, 32, 64], lambda m: jobs.drawn(64, m))
