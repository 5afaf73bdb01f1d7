#!/bin/sh
# How long the replay of a log takes over the database in memory (`ct_redo`), for logs of 100,000 and of 200,000 entries: a tracked table is made, and each entry behind
# that is the INSERT of one row, with scattered keys. The bytes are spelled by hand, as docs/DISK.md has them. The program runs five times, and each figure is the least.
set -e
main=$(mktemp)
trap 'rm -f "$main" "$main.out"' EXIT
cat >"$main" <<'END'
//! Times the replay of a log.
#![tactic(auto)]

use ct_database::Database;
use ct_redo::replay_log;
use ct_types::Memory;
use std::alloc::Global;
use std::time::Instant;

fn put(log: &mut Vec<u8>, part: &[u8]) -> Result<(), Memory> {
    log.extend_from_slice(part)?;
    Ok(())
}

/// An open gate, the length of the payload, and the fields with which each entry begins.
fn put_head(
    log: &mut Vec<u8>,
    length: u32,
    kind: u8,
    draws: u8,
    version: u64,
    xdes: u64,
) -> Result<(), Memory> {
    put(log, &[1])?;
    put(log, &length.to_le_bytes())?;
    put(log, &[kind, draws])?;
    put(log, &version.to_le_bytes())?;
    put(log, &xdes.to_le_bytes())?;
    put(log, &0u64.to_le_bytes())
}

/// Tracking is on, a table has the columns id BIGINT (its key), a INT and b NVARCHAR(20), and is tracked with columns.
fn put_table(log: &mut Vec<u8>) -> Result<(), Memory> {
    put_head(log, 36, 6, 0, 0, 1)?;
    put(log, &[1])?;
    put(log, &172_800u64.to_le_bytes())?;
    put(log, &[1])?;
    put_head(log, 58, 2, 0, 0, 2)?;
    put(log, &[1, 0, 0, 0, 1, 0, b't', 3, 0])?;
    put(log, &[1, 0, b'i', 2, 0, 0, 0])?;
    put(log, &[1, 0, b'a', 1, 0, 0, 1])?;
    put(log, &[1, 0, b'b', 3, 20, 0, 1])?;
    put(log, &[1, 0])?;
    put_head(log, 31, 4, 1, 1, 3)?;
    put(log, &[1, 0, 0, 0, 1])
}

/// One row is inserted, at a key far from that of the next one.
fn put_insert(log: &mut Vec<u8>, number: u32) -> Result<(), Memory> {
    let drawn = u64::from(number);
    put_head(log, 71, 1, 1, drawn.wrapping_add(2), drawn.wrapping_add(4))?;
    put(log, &[1, 0, 0, 0, 1, 0, 0, 0, 1, 3, 0])?;
    put(log, &[1])?;
    put(log, &u64::from(number.wrapping_mul(2_654_435_761)).to_le_bytes())?;
    put(log, &[1])?;
    put(log, &drawn.to_le_bytes())?;
    put(log, &[2, 1, 0, 0, 0, b'x'])?;
    put(log, &[1])?;
    put(log, &0u64.to_le_bytes())?;
    put(log, &[255])
}

fn put_inserts(log: &mut Vec<u8>, count: u32) -> Result<(), Memory> {
    for number in 0..count {
        put_insert(log, number)?;
    }
    Ok(())
}

fn spelled(alloc: Global, count: u32) -> Result<Vec<u8>, Memory> {
    let mut log = Vec::new(alloc);
    put_table(&mut log)?;
    put_inserts(&mut log, count)?;
    put(&mut log, &[0])?;
    Ok(log)
}

/// How many records are replayed; 0 where the log breaks off.
fn replayed(alloc: Global, log: &[u8]) -> u64 {
    match replay_log(alloc, Database::empty(alloc), log) {
        Ok(made) => made.records,
        Err(_) => 0,
    }
}

fn main(rt: HostRuntime) -> anyhow::Result<()> {
    let alloc = rt.alloc();
    for count in [100_000u32, 200_000] {
        if let Ok(log) = spelled(alloc, count) {
            let start = Instant::now(&rt)?;
            let records = replayed(alloc, log.as_slice());
            let took = start.elapsed(&rt)?.as_nanos();
            println!(rt; "{count} {records} {took}")?;
        }
    }
    Ok(())
}
END
"$(dirname "$0")/measure.sh" "ct_types ct_database ct_redo anyhow" "$main" 5 >"$main.out"
python3 - "$main.out" <<'PYTHON'
import collections, sys

took = collections.defaultdict(list)
with open(sys.argv[1]) as lines:
    for count, records, nanoseconds in (map(int, line.split()) for line in lines):
        if records != count + 3:
            sys.exit(f"the log of {count} entries broke off")
        took[count].append(nanoseconds / 1e9)
few, many = (min(took[count]) for count in sorted(took))
print(f"100,000 entries {few:.2f} s, 200,000 {many:.2f} s, {many / few:.2f} times")
PYTHON
