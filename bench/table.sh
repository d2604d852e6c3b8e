#!/usr/bin/env bash
# Times point calls on 10,000 objects of the usual load in one run: a proved table over a plain store, a BTreeMap of the same byte codes, and
# a real ets ordered_set. Prints the nanoseconds of a call, and those of the table as a multiple of the others'.
set -eu
cd "$(dirname "${BASH_SOURCE[0]}")/.."
out=$(mktemp -d)
trap 'rm -rf "$out"' EXIT

echo "proving and building the table and the crates below it .."
(cd crates/ca_bench && rt run) >"$out/log" 2>&1 || { tail -n 5 "$out/log" >&2; exit 1; }
rustc --edition 2024 -O bench/table.rs -o "$out/map"
crates/ca_bench/out/ca_bench point-calls >"$out/table.txt"
"$out/map" >"$out/map.txt"
if command -v escript >/dev/null; then escript bench/table.escript >"$out/ets.txt"; else : >"$out/ets.txt"; fi

awk 'BEGIN { printf "%-15s %8s %8s %8s %12s %8s\n", "call", "table ns", "map ns", "ets ns", "table/map", "table/ets" }
  FILENAME ~ /map/ { map[$1] = $2; next }
  FILENAME ~ /ets/ { ets[$1] = $2; next }
  { printf "%-15s %8d %8d %8s %12.2f %8s\n", $1, $2, map[$1], $1 in ets ? ets[$1] : "-", $2 / map[$1], $1 in ets ? sprintf("%.2f", $2 / ets[$1]) : "-" }
' "$out/map.txt" "$out/ets.txt" "$out/table.txt"
