#!/bin/sh
# How long `read_script` takes for scripts of 1, 2, 4, 8 and 16 MiB, and each time's ratio to that of 1 MiB, in one run.
set -e
main=$(mktemp)
trap 'rm -f "$main"' EXIT
cat >"$main" <<'END'
//! Times the reading of scripts.
#![tactic(auto)]

use ct_script::read_script;
use std::alloc::Global;
use std::time::Instant;

const LINE: &[u8] = b"1: INSERT INTO t VALUES (1000000, 5, N'a text of a few words and more')\n";

fn script(alloc: Global, lines: usize) -> anyhow::Result<Vec<u8>> {
    let mut made = Vec::new(alloc);
    for _ in 0..lines {
        made.extend_from_slice(LINE)?;
    }
    Ok(made)
}

fn main(rt: HostRuntime) -> anyhow::Result<()> {
    // 14,563 lines are 1 MiB
    for lines in [14_563, 29_126, 58_252, 116_504, 233_008] {
        let bytes = script(rt.alloc(), lines)?;
        if bytes.len() < 4_294_967_296 {
            let start = Instant::now(&rt)?;
            let read = read_script(rt.alloc(), bytes.as_slice()).is_ok();
            let micros = start.elapsed(&rt)?.as_micros();
            println!(rt; "{lines} {micros} {read}")?;
        }
    }
    Ok(())
}
END
"$(dirname "$0")/measure.sh" "ct_script anyhow" "$main" |
  awk '$1 + 0 { if (!first) first = $2; printf "%2d MiB: %8d microseconds, %.1f times the first, read: %s\n", $1 / 14563, $2, $2 / first, $3 }'
