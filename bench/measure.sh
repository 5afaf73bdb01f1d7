#!/bin/sh
# measure.sh CRATES MAIN [RUNS]: proves and runs the program text MAIN over this repository's crates CRATES, in a folder of its own, so many times (once).
# A measurement is no test: the gate does not run it.
set -e
top=$(cd "$(dirname "$0")/.." && pwd)
work=$(mktemp -d)
trap 'rm -rf "$work"' EXIT
(cd "$top" && tar cf - --exclude=out crates crates.txt HANDLES) | (cd "$work" && tar xf -)
mkdir -p "$work/crates/ct_bench/src"
echo "ct_bench: $1" >>"$work/crates.txt"
cp "$2" "$work/crates/ct_bench/src/main.rt"
cd "$work/crates/ct_bench"
if ! RT_SECONDS=600 rt run 2>"$work/log"; then
  tail -20 "$work/log"
  exit 1
fi
run=1
while [ $run -lt "${3:-1}" ]; do
  out/ct_bench
  run=$((run + 1))
done
