#!/bin/sh
# wrong_bodies.sh [NAME..]: whether the rows of the programs refuse wrong bodies. For each edit of bench/wrong_bodies (or those named) the programs of rows that stand
# on its crate, `ct_cases`, `ct_trees`, `ct_bindings` and `ct_disk_cases`, run unproved on a copy of what is committed with that one body, and a line tells the first row that they answer otherwise
# than is stored, or that there is none. A row that the program without the edit does not answer as is stored counts for nothing. Each program takes about a minute for each edit.
# An edit has the lines `crate:`, `file:` (in the crate), `old:` and `new:`; the text of `old:` stands once in the file.
# The status is 1 where no row refuses some body.
set -e
top=$(cd "$(dirname "$0")/.." && pwd)
work=$(mktemp -d)
trap 'rm -rf "$work"' EXIT
git clone -q "$top" "$work/ct"
python3 - "$top" "$work/ct" "$@" <<'PYTHON'
import glob, os, subprocess, sys

top, copy, names = sys.argv[1], sys.argv[2], sys.argv[3:]
PROGRAMS = ["ct_disk_cases", "ct_trees", "ct_bindings", "ct_cases"]


def read(path):
    with open(path, encoding="utf-8") as it:
        return it.read()


def crates_below(name):
    """The crates of the repository that a crate stands on, with itself."""
    below = {name}
    for line in read(f"{copy}/crates.txt").splitlines():
        crate, _, under = line.partition("#")[0].partition(":")
        if crate.strip() == name:
            for one in under.split():
                if os.path.isdir(f"{copy}/crates/{one}"):
                    below |= crates_below(one)
    return below


def rows(text):
    """What is written, row by row: a row begins with a line that is not set in, or with the head of a case."""
    head = "==== " if text.startswith("==== ") else None
    made = []
    for line in text.splitlines(keepends=True):
        if not made or (line.startswith(head) if head else not line.startswith("  ")):
            made.append("")
        made[-1] += line
    return made


def ran(program):
    """What a program of the copy writes on its stored input, unproved, and what the tool said."""
    folder = f"{copy}/crates/{program}"
    with open(f"{folder}/stdin", "rb") as given:
        done = subprocess.run(["rt", "try"], cwd=folder, stdin=given, capture_output=True)
    return done.stdout.decode(errors="replace"), done.stderr.decode(errors="replace")


stored = {program: rows(read(f"{copy}/crates/{program}/stdout")) for program in PROGRAMS}
right = {}  # what a program writes without an edit


def first_refusing(program):
    """The first row that answers otherwise than is stored, of those that are answered right without the edit."""
    written, said = ran(program)
    if not written:
        return None, said
    made = rows(written)
    for place, row in enumerate(stored[program]):
        here = made[place] if place < len(made) else None
        if here != row and place < len(right[program]) and right[program][place] == row:
            return row.splitlines()[0], said
    return None, said


def tried(edit):
    """Tries one body: whether a row refuses it."""
    lines = dict(line.split(": ", 1) for line in read(edit).splitlines() if ": " in line)
    path = f"{copy}/crates/{lines['crate']}/{lines['file']}"
    text = read(path)
    name = os.path.basename(edit)[: -len(".edit")]
    if text.count(lines["old"]) != 1:
        print(f"{name}: BAD EDIT, its old text does not stand once in {lines['file']} of {lines['crate']}")
        return False
    programs = [program for program in PROGRAMS if lines["crate"] in crates_below(program)]
    for program in programs:
        if program not in right:
            right[program] = rows(ran(program)[0])
            wrong = sum(a != b for a, b in zip(right[program], stored[program]))
            if wrong or len(right[program]) != len(stored[program]):
                print(f"{program}: without an edit {wrong} rows are not as stored, and {len(right[program])} of {len(stored[program])} are written")
    with open(path, "w", encoding="utf-8") as it:
        it.write(text.replace(lines["old"], lines["new"]))
    try:
        for program in programs:
            row, said = first_refusing(program)
            if row is not None:
                print(f"{name}: refused by {program}, first at: {row}")
                return True
            if "error" in said:
                print(said[-2000:], file=sys.stderr)
    finally:
        with open(path, "w", encoding="utf-8") as it:
            it.write(text)
    print(f"{name}: NO ROW REFUSES IT ({', '.join(programs) or 'no program of rows stands on its crate'})")
    return False


edits = [f"{top}/bench/wrong_bodies/{name.removesuffix('.edit')}.edit" for name in names] or sorted(glob.glob(f"{top}/bench/wrong_bodies/*.edit"))
results = []
for edit in edits:
    results.append(tried(edit))
    sys.stdout.flush()
sys.exit(0 if all(results) else 1)
PYTHON
