#!/bin/sh
# What the calls of a shared tree and of row versions take, at 20,000 and at 1,000,000 scattered keys of one number, in
# nanoseconds a call, beside std's BTreeMap, and the ratios that are of interest. A quarter as many keys again are put, their
# making included. The program runs nine times, and each figure is the median of its nine.
set -e
main=$(mktemp)
trap 'rm -f "$main" "$main.out"' EXIT
cat >"$main" <<'END'
//! Times the calls of a shared tree and of row versions.
#![tactic(auto)]

use ct_ptree::Tree;
use ct_rows::Rows;
use ct_types::{Key, List, Memory, Row, Value, push};
use std::alloc::Global;
use std::collections::BTreeMap;
use std::time::Instant;

/// The key of a number, far from that of the next one.
fn scattered(alloc: Global, number: u32) -> Result<Key, Memory> {
    let mut values = List::new(alloc);
    push(&mut values, Value::Int(i64::from(number.wrapping_mul(2_654_435_761))))?;
    Ok(Key(values))
}

fn put_some(alloc: Global, tree: &mut Tree<u64>, from: u32, to: u32) -> Result<(), Memory> {
    for number in from..to {
        tree.put(scattered(alloc, number)?, 1)?;
    }
    Ok(())
}

fn insert_some(
    alloc: Global,
    mut tree: Tree<u64>,
    from: u32,
    to: u32,
) -> Result<Tree<u64>, Memory> {
    for number in from..to {
        tree = tree.insert(scattered(alloc, number)?, 1)?;
    }
    Ok(tree)
}

fn put_in_map(
    alloc: Global,
    map: &mut BTreeMap<Key, u64>,
    from: u32,
    to: u32,
) -> Result<(), Memory> {
    for number in from..to {
        match map.insert(scattered(alloc, number)?, 1) {
            Ok(_) => {}
            Err(_) => return Err(Memory),
        }
    }
    Ok(())
}

fn found(alloc: Global, tree: &Tree<u64>, to: u32) -> Result<u64, Memory> {
    let mut number: u64 = 0;
    for sought in 0..to {
        if tree.get(&scattered(alloc, sought)?).is_some() {
            number = number.wrapping_add(1);
        }
    }
    Ok(number)
}

fn shared(tree: &Tree<u64>) -> bool {
    for _ in 0..1_000u32 {
        if tree.share().is_err() {
            return false;
        }
    }
    true
}

fn row(alloc: Global) -> Result<Row, Memory> {
    let mut values = List::new(alloc);
    push(&mut values, Value::Int(1))?;
    Ok(Row(values))
}

fn written(alloc: Global, to: u32) -> Result<Rows, Memory> {
    let mut rows = Rows::new(alloc);
    for number in 0..to {
        rows.put(1, 1, scattered(alloc, number)?, Some(row(alloc)?))?;
    }
    Ok(rows)
}

fn found_rows(alloc: Global, rows: &Rows, to: u32) -> Result<u64, Memory> {
    let mut number: u64 = 0;
    for sought in 0..to {
        if rows.at(1, &scattered(alloc, sought)?).is_some() {
            number = number.wrapping_add(1);
        }
    }
    Ok(number)
}

fn walked(rows: &Rows) -> usize {
    let mut number: usize = 0;
    for row in rows.rows(1) {
        number = number.wrapping_add(row.0.as_slice().len());
    }
    number
}

fn main(rt: HostRuntime) -> anyhow::Result<()> {
    let alloc = rt.alloc();
    for size in [20_000u32, 1_000_000] {
        let more = size + size / 4;
        let mut tree = Tree::new(alloc);
        let mut map = BTreeMap::new(alloc);
        let filled = put_some(alloc, &mut tree, 0, size).is_ok();
        let mapped = put_in_map(alloc, &mut map, 0, size).is_ok();
        let start = Instant::now(&rt)?;
        let got = found(alloc, &tree, size).is_ok();
        let get = start.elapsed(&rt)?.as_nanos();
        let start = Instant::now(&rt)?;
        let lent = shared(&tree);
        let share = start.elapsed(&rt)?.as_nanos();
        let start = Instant::now(&rt)?;
        let added = put_some(alloc, &mut tree, size, more).is_ok();
        let put = start.elapsed(&rt)?.as_nanos();
        let start = Instant::now(&rt)?;
        let noted = put_in_map(alloc, &mut map, size, more).is_ok();
        let map_put = start.elapsed(&rt)?.as_nanos();
        let fine = filled && mapped && got && lent && added && noted;
        println!(rt; "tree {size} {get} {share} {put} {map_put} {fine}")?;
    }
    let size = 20_000u32;
    let mut tree = Tree::new(alloc);
    let filled = put_some(alloc, &mut tree, 0, size).is_ok();
    let start = Instant::now(&rt)?;
    let inserted = insert_some(alloc, tree, size, size + size / 4).is_ok();
    let insert = start.elapsed(&rt)?.as_nanos();
    println!(rt; "insert {size} {insert} {filled} {inserted}")?;
    if let Ok(rows) = written(alloc, size) {
        let start = Instant::now(&rt)?;
        let got = found_rows(alloc, &rows, size).is_ok();
        let get = start.elapsed(&rt)?.as_nanos();
        let start = Instant::now(&rt)?;
        let number = walked(&rows);
        let walk = start.elapsed(&rt)?.as_nanos();
        println!(rt; "rows {size} {get} {walk} {number} {got}")?;
    }
    Ok(())
}
END
"$(dirname "$0")/measure.sh" "ct_types ct_ptree ct_rows anyhow" "$main" 9 >"$main.out"
python3 - "$main.out" <<'PYTHON'
import collections, statistics, sys

told = collections.defaultdict(list)
with open(sys.argv[1]) as lines:
    for what, size, *rest in map(str.split, lines):
        n, rest = int(size), [int(it) for it in rest if it.isdigit()]
        if what == "tree":
            for name, value in zip(("get", "share", "put", "map"), (rest[0] / n, rest[1] / 1000, 4 * rest[2] / n, 4 * rest[3] / n)):
                told[name, n].append(value)
        elif what == "insert":
            told["insert", n].append(4 * rest[0] / n)
        else:
            told["at", n].append(rest[0] / n)
            told["walk", n].append(rest[1] / n)
ns = {key: statistics.median(values) for key, values in told.items()}
few, many = 20_000, 1_000_000
for n in (few, many):
    print(f"{n:7} keys: get {ns['get', n]:.0f}, share {ns['share', n]:.0f}, put {ns['put', n]:.0f}, BTreeMap insert {ns['map', n]:.0f} ns")
print(f"{few:7} keys: insert {ns['insert', few]:.0f} ns; rows: at {ns['at', few]:.0f}, walk {ns['walk', few]:.0f} ns a row")
print(f"at 20,000: insert {ns['insert', few] / ns['put', few]:.1f} times put (bar 3), put {ns['put', few] / ns['map', few]:.1f} times BTreeMap insert (bar 3), an at {ns['at', few] / ns['walk', few]:.1f} times a row of a walk (bar 5)")
print("at 1,000,000 beside 20,000: " + ", ".join(f"{name} {ns[name, many] / ns[name, few]:.1f} times" for name in ("put", "get", "share", "map")) + " (bar 5 for put and get)")
PYTHON
