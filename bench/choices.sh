#!/usr/bin/env bash
# Times selections of none, a tenth and all of the objects of a table, of 3 and of 10 elements, with three kinds of results, in one run: a proved table
# over a plain store, and a real ets ordered_set. Prints the nanoseconds of an object of the table, and those of the table as a multiple of the other's.
set -eu
cd "$(dirname "${BASH_SOURCE[0]}")/.."
out=$(mktemp -d)
trap 'rm -rf "$out"' EXIT

echo "proving and building the table and the crates below it .."
(cd crates/ca_bench && rt run) >"$out/log" 2>&1 || { tail -n 5 "$out/log" >&2; exit 1; }
crates/ca_bench/out/ca_bench choices >"$out/table.txt"
if command -v escript >/dev/null; then escript bench/choices.escript >"$out/ets.txt"; else : >"$out/ets.txt"; fi

awk 'FILENAME ~ /ets.txt$/ { ets[$1, $2, $3, $4] = $5; next }
  $5 == "failed" { print "failed: " $0; exit 1 }
  !heading++ { printf "%-8s %8s %8s %-6s %8s %8s %10s\n", "elements", "objects", "chosen %", "result", "table", "ets", "table/ets" }
  {
    other = ($1, $2, $3, $4) in ets ? ets[$1, $2, $3, $4] : "-"
    printf "%-8d %8d %8d %-6s %8d %8s %10s\n", $1, $2, $3, $4, $5, other, other == "-" ? other : sprintf("%.2f", $5 / other)
  }
' "$out/ets.txt" "$out/table.txt"
