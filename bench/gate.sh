#!/bin/sh
# How long the gate takes from nothing: `rt ci --anew` on a fresh clone of what is committed, with the processor minutes of each crate (its proof, its tests
# and its must-fail edits together), sorted, their sum, and the longest chain of crates that stand on each other. The last lines of the gate come first.
# Processor time is read from /proc four times a second, so it lacks what a process used in its last quarter of a second. Run it on a quiet machine.
set -e
top=$(cd "$(dirname "$0")/.." && pwd)
work=$(mktemp -d)
trap 'rm -rf "$work"' EXIT
git clone -q "$top" "$work/ct"
cd "$work/ct"
echo "commit $(git rev-parse --short HEAD), $(date -u +%Y-%m-%d), $(nproc) processors, $(sed -n 's/^model name[^:]*: //p' /proc/cpuinfo | head -1)"
status=0
python3 - "$work" <<'PYTHON' || status=$?
import collections, os, re, subprocess, sys, time

work = sys.argv[1]
ticks = os.sysconf("SC_CLK_TCK")
used = {}  # (process, its start): [crate, seconds]


def look():
    """Notes the processor seconds of each check of this clone that runs now."""
    for pid in filter(str.isdigit, os.listdir("/proc")):
        try:
            with open(f"/proc/{pid}/stat") as it:
                fields = it.read().rpartition(")")[2].split()
            key, seconds = (pid, fields[19]), (int(fields[11]) + int(fields[12])) / ticks
            if key not in used:
                with open(f"/proc/{pid}/cmdline", "rb") as it:
                    words = it.read().split(b"\0")
                with open(f"/proc/{pid}/environ", "rb") as it:
                    ours = f"CT_GATE={work}".encode() in it.read().split(b"\0")
                if not ours or not words[0].endswith(b"/rattle") or b"--crate-name" not in words:
                    continue
                used[key] = [words[words.index(b"--crate-name") + 1].decode(), seconds]
            used[key][1] = max(used[key][1], seconds)
        except (OSError, ValueError, IndexError):
            pass


begun = time.time()
with open(f"{work}/log", "w") as log:
    gate = subprocess.Popen(["rt", "ci", "--anew"], stdout=log, stderr=subprocess.STDOUT, env={**os.environ, "CT_GATE": work})
    while gate.poll() is None:
        look()
        time.sleep(0.25)
clock = (time.time() - begun) / 60
with open(f"{work}/log") as log:
    said = log.read()
for line in said.splitlines():
    if re.search(r"NOT PROVED|NOT REFUSED|BAD EDIT|FAILED|not proved|^rt: ok;", line):
        print(line)
print(said.splitlines()[-1])

minutes = collections.Counter()
for crate, seconds in used.values():
    minutes[crate] += seconds / 60
for crate, spent in minutes.most_common():
    print(f"{spent:7.1f} processor minutes  {crate}")
print(f"{sum(minutes.values()):7.1f} processor minutes in all, {clock:.1f} minutes of clock")

with open("crates.txt") as it:
    below = {line.split(":")[0].split()[0]: line.split(":")[1].split() for line in it if ":" in line}


def longest(crate, found={}):
    """The longest chain of crates of this repository that ends in this one."""
    if crate not in found:
        chains = [longest(it) for it in below[crate] if it in below]
        found[crate] = max(chains, key=len, default=[]) + [crate]
    return found[crate]


chain = max((longest(it) for it in below), key=len)
print(f"longest chain, {len(chain)} crates: {' '.join(chain)}")
sys.exit(gate.returncode)
PYTHON
exit $status
