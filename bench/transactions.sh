#!/bin/sh
# What a transaction costs in `ct run`: one write in a transaction of its own (BEGIN, the write, COMMIT) beside the same write that commits by itself, at the same
# rows; a SELECT by key in a SNAPSHOT view (BEGIN, SELECT, COMMIT) at 2,000 and at 20,000 rows; and the memory that a view costs which is held over 20,000 updates.
# Beside them the sqlite3 shell with the same transactions and the triggers of bench/peers.sh. Each figure is the least of several runs, side by side in one run.
# It proves the program first (or takes what earlier runs kept), and measures what LLVM built; or it measures the program that CT_PROGRAM names.
set -e
top=$(cd "$(dirname "$0")/.." && pwd)
[ -n "$CT_PROGRAM" ] || (cd "$top/crates/ct_main" && rt run >/dev/null)
work=$(mktemp -d)
trap 'rm -rf "$work"' EXIT
echo "commit $(git -C "$top" rev-parse --short HEAD), $(date -u +%Y-%m-%d), $(nproc) processors, $(sed -n 's/^model name[^:]*: //p' /proc/cpuinfo | head -1), sqlite3 $(sqlite3 --version | cut -d' ' -f1)"
python3 - "${CT_PROGRAM:-$top/crates/ct_main/out/ct_main}" "$work" "${1:-5}" <<'PYTHON'
import os, subprocess, sys, time

program, work, runs = sys.argv[1], sys.argv[2], int(sys.argv[3])

CT_START = [
    "ALTER DATABASE d SET ALLOW_SNAPSHOT_ISOLATION ON",
    "ALTER DATABASE d SET CHANGE_TRACKING = ON (CHANGE_RETENTION = 2 DAYS)",
    "CREATE TABLE t (id INT PRIMARY KEY, a INT NULL, b NVARCHAR(20) NULL)",
    "ALTER TABLE t ENABLE CHANGE_TRACKING WITH (TRACK_COLUMNS_UPDATED = ON)",
]
SQLITE_START = """CREATE TABLE t (id INTEGER PRIMARY KEY, a INTEGER, b TEXT);
CREATE TABLE changes (version INTEGER PRIMARY KEY, id INTEGER, operation TEXT, mask INTEGER);
CREATE TRIGGER inserted AFTER INSERT ON t BEGIN INSERT INTO changes (id, operation, mask) VALUES (new.id, 'I', NULL); END;
CREATE TRIGGER updated AFTER UPDATE ON t BEGIN INSERT INTO changes (id, operation, mask) VALUES (new.id, 'U', (old.a IS NOT new.a) * 2 + (old.b IS NOT new.b) * 4); END;
"""


def scattered(count, step):
    """The numbers from 1 to `count` in scattered order."""
    return [(at * step) % count + 1 for at in range(count)]


def inserts(rows):
    return [(1, f"INSERT INTO t (id, a, b) VALUES ({key}, {key % 97}, 'row {key}')") for key in scattered(rows, 7919)]


def ct_text(statements):
    return "".join(f"{session}: {one}\n" if session else f"{one}\n" for session, one in [(1, one) for one in CT_START] + statements)


def sqlite_text(statements):
    return SQLITE_START + "".join(f"{one};\n" for _, one in statements)


def seconds(words, text):
    path = os.path.join(work, "script")
    with open(path, "w") as it:
        it.write(text)
    best = None
    for _ in range(runs):
        with open(path) as source, open(os.devnull, "w") as sink:
            begun = time.perf_counter()
            subprocess.run(words, stdin=source, stdout=sink, check=True)
            spent = time.perf_counter() - begun
        best = spent if best is None else min(best, spent)
    return best


def resident(text):
    path = os.path.join(work, "script")
    with open(path, "w") as it:
        it.write(text)
    child = "import resource, subprocess, sys; subprocess.run([sys.argv[1], 'run'], stdin=open(sys.argv[2]), stdout=subprocess.DEVNULL); print(resource.getrusage(resource.RUSAGE_CHILDREN).ru_maxrss)"
    return int(subprocess.check_output([sys.executable, "-c", child, program, path])) * 1024


CT, SQLITE = [program, "run"], ["sqlite3", ":memory:"]

for rows in (2_000, 20_000):
    before = inserts(rows)
    writes = [(1, f"UPDATE t SET a = {key % 89} WHERE id = {key}") for key in scattered(rows, 6007)]
    alone = before + writes
    apart = before + [one for write in writes for one in ((1, "BEGIN TRANSACTION"), write, (1, "COMMIT"))]
    figures = []
    for words, text in ((CT, ct_text), (SQLITE, sqlite_text)):
        start, single, many = (seconds(words, text(it)) for it in (before, alone, apart))
        figures.append(((single - start) * 1e6 / rows, (many - start) * 1e6 / rows))
    (ours, ours_in), (theirs, theirs_in) = figures
    print(f"one write, {rows:6} rows: alone {ours:5.1f} us, in a transaction {ours_in:5.1f}: {ours_in / ours:.2f} times (bar 1.5); sqlite3 {theirs:5.1f} and {theirs_in:5.1f}: {theirs_in / theirs:.2f} times; ct/sqlite3 in a transaction {ours_in / theirs_in:.2f}")

reads = {}
for rows in (2_000, 20_000):
    before = inserts(rows) + [(1, "SET TRANSACTION ISOLATION LEVEL SNAPSHOT")]
    whole = before + [one for key in scattered(rows, 6007)[:2_000] * 5 for one in ((1, "BEGIN TRANSACTION"), (1, f"SELECT a FROM t WHERE id = {key}"), (1, "COMMIT"))]
    reads[rows] = max(seconds(CT, ct_text(whole)) - seconds(CT, ct_text(before)), 1e-9) * 1e6 / 10_000
print(f"BEGIN, SELECT by key in a view, COMMIT: {reads[2_000]:.1f} us at 2,000 rows, {reads[20_000]:.1f} at 20,000: {reads[20_000] / reads[2_000]:.2f} times (bar: no growth)")

rows = 2_000
updates = [(1, f"UPDATE t SET a = {at % 89} WHERE id = {key}") for at, key in enumerate(scattered(rows, 6007) * 10)]
hold = [(2, "SET TRANSACTION ISOLATION LEVEL SNAPSHOT"), (2, "BEGIN TRANSACTION"), (2, "SELECT a FROM t WHERE id = 1")]
phase = [(None, "#phase")]
free, held = resident(ct_text(inserts(rows) + phase + updates)), resident(ct_text(inserts(rows) + phase + hold + phase + updates))
print(f"a view held over {len(updates):,} updates of {rows:,} rows: {held / 2**20:.1f} MiB, without it {free / 2**20:.1f}: {(held - free) / rows:.0f} bytes a row more")
PYTHON
