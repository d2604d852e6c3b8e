#!/usr/bin/env bash
# Times the same commands of one client on 10,000 objects in one run, on a proved table over a plain store and on one over a tree as the program has it.
# Prints the nanoseconds of a command on both, the tree's time as a multiple of the plain store's, how many results all rounds had, and how often a
# command was tried again on the tree, as it spent all that it might at its first try.
set -eu
cd "$(dirname "${BASH_SOURCE[0]}")/.."
out=$(mktemp -d)
trap 'rm -rf "$out"' EXIT

echo "proving and building the table and the crates below it .."
(cd crates/ca_bench && rt run) >"$out/log" 2>&1 || { tail -n 5 "$out/log" >&2; exit 1; }
crates/ca_bench/out/ca_bench stores >"$out/stores.txt"

awk 'BEGIN { printf "%-10s %10s %10s %12s %10s %8s\n", "work", "plain ns", "tree ns", "tree/plain", "results", "again" }
  NF != 6 { print "failed: " $0; bad = 1; exit }
  $2 == "plain" { plain[$1] = $3; next }
  { printf "%-10s %10d %10d %12s %10d %8d\n", $1, plain[$1], $3, $4, $5, $6 }
  END { exit bad }
' "$out/stores.txt"
