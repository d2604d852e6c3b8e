#!/usr/bin/env bash
# Times a match specification with two variables and one guard on 1,000 objects of the usual load in one run: `apply` of the proved crate, `decode` of
# the same objects, and a real ets:select. Prints the nanoseconds of an object, how many came out, and `apply` as a multiple of each.
set -eu
cd "$(dirname "${BASH_SOURCE[0]}")/.."
out=$(mktemp -d)
trap 'rm -rf "$out"' EXIT

echo "proving and building the crates below .."
(cd crates/ca_bench && rt run) >"$out/log" 2>&1 || { tail -n 5 "$out/log" >&2; exit 1; }
crates/ca_bench/out/ca_bench selections >"$out/times"
if command -v escript >/dev/null; then escript bench/select.escript >>"$out/times"; fi

awk 'BEGIN { printf "%-8s %8s %8s %12s\n", "what", "ns", "objects", "apply/this" }
  $1 == "apply" { apply = $2 }
  { printf "%-8s %8d %8d %12.2f\n", $1, $2, $3, apply / $2 }
' "$out/times"
