#!/bin/sh
# The same statements in `ct run` and in the sqlite3 shell in memory, whose triggers record each change into a side table: N INSERTs, N UPDATEs by key and
# N/3 DELETEs by key, in scattered order, each statement a transaction of its own. Then how the time of a query of net changes and of the join of a table with
# them grows with the table, how that of such a query grows with the commits of another table, and the memory by row. Each figure is the least of several runs, side by side in one run; ratios stand beside them.
# It proves the program first (or takes what earlier runs kept), and measures what LLVM built; or it measures the program that CT_PROGRAM names.
set -e
top=$(cd "$(dirname "$0")/.." && pwd)
[ -n "$CT_PROGRAM" ] || (cd "$top/crates/ct_main" && rt run >/dev/null)
work=$(mktemp -d)
trap 'rm -rf "$work"' EXIT
echo "commit $(git -C "$top" rev-parse --short HEAD), $(date -u +%Y-%m-%d), $(nproc) processors, $(sed -n 's/^model name[^:]*: //p' /proc/cpuinfo | head -1), sqlite3 $(sqlite3 --version | cut -d' ' -f1)"
python3 - "${CT_PROGRAM:-$top/crates/ct_main/out/ct_main}" "$work" "${1:-5}" <<'PYTHON'
import os, resource, subprocess, sys, time

program, work, runs = sys.argv[1], sys.argv[2], int(sys.argv[3])

CT_START = [
    "ALTER DATABASE d SET CHANGE_TRACKING = ON (CHANGE_RETENTION = 2 DAYS)",
    "CREATE TABLE t (id INT PRIMARY KEY, a INT NULL, b NVARCHAR(20) NULL)",
    "ALTER TABLE t ENABLE CHANGE_TRACKING WITH (TRACK_COLUMNS_UPDATED = ON)",
]
SQLITE_START = """CREATE TABLE t (id INTEGER PRIMARY KEY, a INTEGER, b TEXT);
CREATE TABLE changes (version INTEGER PRIMARY KEY, id INTEGER, operation TEXT, mask INTEGER);
CREATE TRIGGER inserted AFTER INSERT ON t BEGIN INSERT INTO changes (id, operation, mask) VALUES (new.id, 'I', NULL); END;
CREATE TRIGGER updated AFTER UPDATE ON t BEGIN INSERT INTO changes (id, operation, mask) VALUES (new.id, 'U', (old.a IS NOT new.a) * 2 + (old.b IS NOT new.b) * 4); END;
CREATE TRIGGER deleted AFTER DELETE ON t BEGIN INSERT INTO changes (id, operation, mask) VALUES (old.id, 'D', NULL); END;
"""


def scattered(count, step):
    """The numbers from 1 to `count` in scattered order."""
    return [(at * step) % count + 1 for at in range(count)]


def writes(rows):
    """N INSERTs, N UPDATEs and N/3 DELETEs; the steps have no factor in common with the counts."""
    made = [f"INSERT INTO t (id, a, b) VALUES ({key}, {key % 97}, 'row {key}')" for key in scattered(rows, 7919)]
    made += [f"UPDATE t SET a = {key % 89} WHERE id = {key}" for key in scattered(rows, 6007)]
    return made + [f"DELETE FROM t WHERE id = {key}" for key in scattered(rows, 4999)[: rows // 3]]


def inserts(rows):
    return [f"INSERT INTO t (id, a, b) VALUES ({key}, {key % 97}, 'row {key}')" for key in scattered(rows, 7919)]


def file_of(name, text):
    path = os.path.join(work, name)
    with open(path, "w") as it:
        it.write(text)
    return path


def ct_file(name, statements):
    return file_of(name, "".join(f"1: {one}\n" for one in CT_START + statements))


def sqlite_file(name, statements):
    return file_of(name, SQLITE_START + "".join(f"{one};\n" for one in statements))


def seconds(words, path):
    best = None
    for _ in range(runs):
        with open(path) as source, open(os.devnull, "w") as sink:
            begun = time.perf_counter()
            subprocess.run(words, stdin=source, stdout=sink, check=True)
            spent = time.perf_counter() - begun
        best = spent if best is None else min(best, spent)
    return best


def resident(path):
    """The most memory in bytes that a run holds, from a process of its own."""
    child = "import resource, subprocess, sys; subprocess.run([sys.argv[1], 'run'], stdin=open(sys.argv[2]), stdout=subprocess.DEVNULL); print(resource.getrusage(resource.RUSAGE_CHILDREN).ru_maxrss)"
    return int(subprocess.check_output([sys.executable, "-c", child, program, path])) * 1024


CT, SQLITE = [program, "run"], ["sqlite3", ":memory:"]

first = {}
for rows in (2_000, 8_000, 20_000):
    statements = writes(rows)
    ours = seconds(CT, ct_file("ct", statements))
    theirs = seconds(SQLITE, sqlite_file("sqlite", statements))
    first[rows] = ours
    count = len(statements)
    print(f"writes, N = {rows:6}: ct {ours * 1e6 / count:6.1f} us a statement, sqlite3 {theirs * 1e6 / count:6.1f}, ct/sqlite3 {ours / theirs:5.2f} (bar 0.50, goal 0.20)")
print(f"writes, growth from 2,000 to 20,000: {first[20_000] / first[2_000]:.1f} times (bar 13, goal 11)")


def query_micros(name, rows, query, times):
    """The microseconds of a query over a table of so many rows, whose last ten changes it asks for: what many of them add to a run without them."""
    before = inserts(rows) + [f"UPDATE t SET a = 1 WHERE id = {key}" for key in scattered(rows, 6007)[:10]]
    without = seconds(CT, ct_file(name, before))
    whole = seconds(CT, ct_file(name, before + [query.format(since=rows)] * times))
    return max(whole - without, 1e-9) * 1e6 / times


QUERIES = [
    ("CHANGES with 10 changes", "SELECT ct.id, ct.SYS_CHANGE_OPERATION FROM CHANGETABLE(CHANGES t, {since}) AS ct", 2),
    ("RIGHT JOIN with 10 changes", "SELECT t.a, ct.id FROM t RIGHT OUTER JOIN CHANGETABLE(CHANGES t, {since}) AS ct ON t.id = ct.id", 3),
    ("INNER JOIN with 10 changes", "SELECT t.a, ct.id FROM CHANGETABLE(CHANGES t, {since}) AS ct INNER JOIN t ON t.id = ct.id", 3),
    ("LEFT JOIN with 10 changes", "SELECT t.a, ct.id FROM CHANGETABLE(CHANGES t, {since}) AS ct LEFT OUTER JOIN t ON t.id = ct.id", 3),
]
for name, query, bar in QUERIES:
    small, large = (query_micros("query", rows, query, 20_000) for rows in (2_000, 20_000))
    print(f"{name}: {small:.1f} us at 2,000 rows, {large:.1f} at 20,000: {large / small:.2f} times (bar {bar})")


def beside_micros(others, times):
    """The microseconds of a query of ten changes of a table of 2,000 rows, which came spread among so many commits of another table."""
    second = [one.replace(" t ", " u ") for one in CT_START[1:]]
    before = inserts(2_000) + second
    elsewhere = [one.replace(" t ", " u ") for one in inserts(others)]
    for at, key in enumerate(scattered(2_000, 6007)[:10]):
        before += elsewhere[at * others // 10 : (at + 1) * others // 10] + [f"UPDATE t SET a = 1 WHERE id = {key}"]
    # each ENABLE and each INSERT draws a version
    query = "SELECT ct.id, ct.SYS_CHANGE_OPERATION FROM CHANGETABLE(CHANGES t, 2002) AS ct"
    without = seconds(CT, ct_file("beside", before))
    whole = seconds(CT, ct_file("beside", before + [query] * times))
    return max(whole - without, 1e-9) * 1e6 / times


alone, beside = beside_micros(0, 5_000), beside_micros(20_000, 5_000)
print(f"CHANGES with 10 changes: {alone:.1f} us without commits of another table since, {beside:.1f} among 20,000: {beside / alone:.2f} times")


def whole_join_millis(rows, times):
    """The milliseconds of a join of a table of so many rows with the changes of all of them, from the table's side."""
    before = inserts(rows)
    query = "SELECT t.a, ct.id FROM t LEFT OUTER JOIN CHANGETABLE(CHANGES t, 1) AS ct ON t.id = ct.id WHERE t.a < 0"
    without = seconds(CT, ct_file("join", before))
    whole = seconds(CT, ct_file("join", before + [query] * times))
    return max(whole - without, 1e-9) * 1e3 / times


few, many = whole_join_millis(2_000, 20), whole_join_millis(20_000, 5)
print(f"LEFT JOIN of a table with the changes of all its rows: {few:.1f} ms at 2,000 rows, {many:.1f} at 20,000: {many / few:.1f} times")

empty = resident(ct_file("ct", []))
full = resident(ct_file("ct", inserts(20_000)))
print(f"memory: {(full - empty) / 20_000:.0f} bytes a row beyond the empty run's {empty / 2 ** 20:.1f} MiB (bar 1,500, goal 700)")
PYTHON
