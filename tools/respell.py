#!/usr/bin/env python3
# Respells the repository's own names as today's Rattle spells names, once, after the kit's port.py: words in snake case, types and modules in
# camel case, a dash only between two names. It works at the top of a checkout, on the texts of crates/ and on the code spans of the pages.
# A name is respelled if a file of specs/ or proofs/ declares it. Functions of src/ and names that Rattle makes keep their spelling.
#   tools/respell.py            writes the files anew
#   tools/respell.py --table    prints each old and new name
import collections
import re
import sys
from pathlib import Path

ROOT = Path(__file__).resolve().parent.parent
WORD = r'[^\s(){}.;,@"«»`]+'
DECLARED = re.compile(r"(?m)^( *)(?:(?:abbrev|unfoldable|pub|data|record) )*(" + WORD + r")((?: \{[^{}\n]*\}| \([^()\n]*\))*) :(?!:) (.*)")
MADE = re.compile(r"(goal|tie|given|need)\.|\{M : Type 1\} → statement")
# Words of the library that a lemma's name joins by a dash.
LIBRARY = set("length append take drop get_or replicate map set sum ltb leb eqb cond and or not min max div mod suc mem All In head nth".split())
# Names that would fall together with another one, or that a Rattle function of the same crate has.
OTHERWISE = {
    "At-exit": "AtExit",
    "brief-as": "brief_is",
    "printed-as": "printed_is",
    "guesses-size": "guesses_sized",
    "in-job": "of_the_job",
    "in-result": "of_the_result",
    "links-in": "links_within",
    "no-fault": "no_fault_lem",
    "phase-one": "phase_one_is",
    "record-numbers": "record_numbers_fit",
    "record-size": "record_size_lem",
    "states-offset": "states_offset_wrong",
    "weights-offset": "weights_offset_wrong",
    "whole_length": "whole_length_wrong",
    "two-of": "two_of_lem",
    "wrong-field": "wrong_field_lem",
    "in-some": "in_some_lem",
    "node_at": "node_at_lem",
    "readBack": "network_back",
    "sameRow": "is_same_row",
    "tooMany": "has_too_many",
}


def camel(name):
    if name[:1].isupper():
        return name
    return re.sub(r"(?<=[a-z0-9])[A-Z]", lambda m: "_" + m[0].lower(), name)


def declared():
    names = collections.defaultdict(set)
    for path in sorted(ROOT.glob("crates/**/*.antt")):
        folder = path.relative_to(ROOT).parts[2]
        for m in DECLARED.finditer(path.read_text()):
            names[m[2]].add("made" if MADE.match(m[4]) else folder)
    return names


def table():
    names = declared()
    plain = {camel(n) for n in names if "-" not in n} | LIBRARY
    plain |= {n[0].upper() + n[1:] for n in plain if n}
    turned = {}
    for name in sorted(names):
        if "made" in names[name] or "◌" in name or name[:1].isupper() and "-" not in name:
            continue
        parts = [camel(p.replace("getD", "get_or")) for p in name.split("-")]
        new = parts[0]
        for before, part in zip(parts, parts[1:]):
            joins = "specs" not in names[name] and before in plain and part in plain
            new += ("-" if joins else "_") + part
        new = OTHERWISE.get(name, new)
        if new != name:
            turned[name] = new
    return turned


def within(text, turned, word=re.compile(WORD)):
    return word.sub(lambda m: turned.get(m[0], m[0]), text)


def spans(text, turned):
    return re.sub(r"`[^`\n]+`", lambda m: within(m[0], turned), text)


def antt(text, turned):
    lines = []
    for line in text.split("\n"):
        code, dashes, comment = line, "", ""
        m = re.search(r"(?:^|(?<=\s))--(?=\s|$)", line)
        if m and line[: m.start()].count('"') % 2 == 0:
            code, dashes, comment = line[: m.start()], "--", line[m.end() :]
        pieces = re.split(r'("(?:\\.|[^"\\])*")', code)
        code = "".join(p if i % 2 else within(p, turned) for i, p in enumerate(pieces))
        lines.append(code + dashes + spans(comment, turned))
    return "\n".join(lines)


# In a .rt file a name of specs/ stands in clauses and in imports; a name with a dash or a capital inside is nothing else there.
def rt(text, turned):
    lines = []
    for line in text.split("\n"):
        if line.lstrip().startswith("//"):
            lines.append(spans(line, turned))
            continue
        pieces = re.split(r'(b?"(?:\\.|[^"\\])*")', line)
        lines.append("".join(p if i % 2 else within(p, turned) for i, p in enumerate(pieces)))
    return "\n".join(lines)


def edit(text, turned):
    return "\n".join(within(l, turned) if l.startswith(("old: ", "new: ")) else l for l in text.split("\n"))


def main():
    turned = table()
    if sys.argv[1:] == ["--table"]:
        for old in sorted(turned):
            print(f"{old}\t{turned[old]}")
        return
    kinds = [("crates/**/*.antt", antt), ("crates/**/*.rt", rt), ("crates/*/must-fail/*.edit", edit), ("*.md", spans), ("docs/**/*.md", spans)]
    for pattern, turn in kinds:
        for path in sorted(ROOT.glob(pattern)):
            text = path.read_text()
            new = turn(text, turned)
            if new != text:
                path.write_text(new)


main()
