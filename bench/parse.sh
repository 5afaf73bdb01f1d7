#!/bin/sh
# How long the tokens and the tree of one statement take, for statements of 4,096 to 65,536 bytes, and each time's ratio to that of the first, in one run.
set -e
main=$(mktemp)
trap 'rm -f "$main"' EXIT
cat >"$main" <<'END'
//! Times the parsing of statements.
#![tactic(auto)]

use ct_lexer::tokens;
use ct_parser::parse;
use std::alloc::Global;
use std::time::Instant;

const TERM: &str = " + (a)*2";

fn statement(alloc: Global, terms: usize) -> anyhow::Result<String> {
    let mut made = String::new(alloc);
    made.push_str("SELECT 1")?;
    for _ in 0..terms {
        made.push_str(TERM)?;
    }
    Ok(made)
}

fn is_parsed(alloc: Global, text: &str) -> bool {
    if text.len() >= 4_294_967_296 {
        return false;
    }
    match tokens(alloc, text) {
        Ok(found) => parse(alloc, text, found.as_slice()).is_ok(),
        Err(_) => false,
    }
}

fn main(rt: HostRuntime) -> anyhow::Result<()> {
    for terms in [511, 1_023, 2_047, 4_095, 8_191] {
        let text = statement(rt.alloc(), terms)?;
        let start = Instant::now(&rt)?;
        let parsed = is_parsed(rt.alloc(), text.as_str());
        let micros = start.elapsed(&rt)?.as_micros();
        println!(rt; "{} {micros} {parsed}", text.len())?;
    }
    Ok(())
}
END
"$(dirname "$0")/measure.sh" "ct_lexer ct_parser anyhow" "$main" |
  awk '$1 + 0 { if (!first) first = $2; printf "%5d bytes: %7d microseconds, %.1f times the first, parsed: %s\n", $1, $2, $2 / first, $3 }'
