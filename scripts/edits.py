#!/usr/bin/env python3
# Prints docs/EDITS.md: every must-fail edit, and which wrong program it is, as the '#' line at its head says.
# With --check it prints the faults instead, and its exit status is 1 if there is one: docs/EDITS.md is not what this would print, an edit
# does not begin with a '#' line, names a file that is not there, has a line that the gate does not read, or changes nothing, or an 'old:'
# text does not stand exactly once in its file.
import sys
from pathlib import Path

ROOT = Path(__file__).resolve().parent.parent
PAGE = ROOT / "docs" / "EDITS.md"
HEAD = """\
# Must-fail edits

An edit (`crates/NAME/must-fail/*.edit`) makes a wrong program, or a wrong definition, of one that is proved, by a change of a few words.
It is applied to a copy of its crate: each `old:` text, which stands exactly once in its file, is replaced by the `new:` text behind it.
The prover must refuse the copy; if it is proved instead, some contract says too little, and the gate fails. An edit is worth having if it
keeps the code's shape, so that the rest of the proof still fits, and a fact of a contract fails. `rt must-fail NAME` tries the edits of a
crate, and `.ci/run` tries all.

`scripts/edits.py > docs/EDITS.md` writes this page from the `#` line at the head of each edit; a name begins with its module, where the
edit is of one that is not the crate's root.
"""


def edits():
    return sorted(ROOT.glob("crates/*/must-fail/*.edit"))


def meaning(edit):
    first = edit.read_text().split("\n", 1)[0]
    return first[1:].strip() if first.startswith("#") else ""


def page():
    lines = [HEAD]
    crate = None
    for edit in edits():
        if edit.parts[-3] != crate:
            crate = edit.parts[-3]
            lines.append(f"\n## `{crate}`\n\n| edit | the wrong program |\n|---|---|\n")
        lines.append(f"| `{edit.stem}` | {meaning(edit)} |\n")
    return "".join(lines)


# The texts are replaced one after the other, as the gate does: a later 'old:' is sought in what the earlier ones left.
def faults_of(edit):
    if not meaning(edit):
        yield "does not begin with a '#' line"
    crate = edit.parent.parent
    were, files, name, old, stands = {}, {}, None, None, True
    for line in edit.read_text().splitlines():
        key, _, text = line.partition(": ")
        if key == "file":
            name = text
            if not name.startswith(("src/", "specs/", "proofs/")) or not (crate / name).is_file():
                yield f"there is no file {name} of src/, specs/ or proofs/"
                return
            were[name] = files[name] = files.get(name, (crate / name).read_text())
        elif key == "old":
            old = text
        elif key in ("new", "new:"):
            if name is None or old is None:
                yield "a 'new:' line stands before any 'file:' or 'old:' line"
                return
            found = files[name].count(old)
            if found != 1:
                stands = False
                yield f"'{old}' stands {found} times in {name}"
            files[name] = files[name].replace(old, text, 1)
        elif line.strip() and not line.startswith("#"):
            yield f"'{line}' is no line that the gate reads"
    if stands and files == were:
        yield "it changes nothing"


def check():
    faults = [f"{edit.relative_to(ROOT)}: {fault}" for edit in edits() for fault in faults_of(edit)]
    if not PAGE.exists() or PAGE.read_text() != page():
        faults.append("docs/EDITS.md is not what scripts/edits.py prints")
    print("\n".join(faults) or f"{len(edits())} edits, no fault")
    return 1 if faults else 0


if sys.argv[1:] == ["--check"]:
    sys.exit(check())
sys.stdout.write(page())
