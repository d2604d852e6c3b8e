#!/usr/bin/env bash
# Times walks, selections and batches on tables of 1,000, 10,000 and 40,000 objects of the usual load in one run: a proved table over a plain store,
# and a real ets ordered_set. Prints the nanoseconds of a call and of a key or object that it gave at 10,000 objects, with those of the table as a
# multiple of the other's, and then how a call's time grows with the table: only a select of all looks at all objects.
set -eu
cd "$(dirname "${BASH_SOURCE[0]}")/.."
out=$(mktemp -d)
trap 'rm -rf "$out"' EXIT

echo "proving and building the table and the crates below it .."
(cd crates/ca_bench && rt run) >"$out/log" 2>&1 || { tail -n 5 "$out/log" >&2; exit 1; }
crates/ca_bench/out/ca_bench walks >"$out/table.txt"
if command -v escript >/dev/null; then escript bench/walks.escript >"$out/ets.txt"; else : >"$out/ets.txt"; fi

awk 'function or_none(times, size, name) { return (size, name) in times ? times[size, name] : "-" }
  FILENAME ~ /ets.txt$/ { ets[$1, $2] = $3; ets_one[$1, $2] = $4; next }
  $3 == "failed" { print "failed: " $0; bad = 1; exit }
  { call[$1, $2] = $3; one[$1, $2] = $4 }
  $1 == 10000 { names[++count] = $2 }
  END {
    if (bad || !count) exit 1
    printf "%-11s %12s %8s %12s %8s %10s\n", "10,000", "table call", "each", "ets call", "each", "table/ets"
    for (i = 1; i <= count; i++) {
      name = names[i]; other = or_none(ets, 10000, name)
      printf "%-11s %12d %8d %12s %8s %10s\n", name, call[10000, name], one[10000, name], other, or_none(ets_one, 10000, name),
        other == "-" ? other : sprintf("%.2f", call[10000, name] / other)
    }
    printf "\n%-11s %12s %12s %12s %15s %8s\n", "table call", "1,000", "10,000", "40,000", "40,000/1,000", "ets"
    for (i = 1; i <= count; i++) {
      name = names[i]
      other = or_none(ets, 1000, name)
      printf "%-11s %12d %12d %12d %15.2f %8s\n", name, call[1000, name], call[10000, name], call[40000, name],
        call[40000, name] / call[1000, name], other == "-" ? other : sprintf("%.2f", ets[40000, name] / other)
    }
  }
' "$out/ets.txt" "$out/table.txt"
