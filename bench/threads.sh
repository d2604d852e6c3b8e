#!/usr/bin/env bash
# Times calls of clients on 1, 2 and 4 threads in one run: the proved tree that is one leaf, a BTreeMap of the same byte codes behind a RwLock, and a
# real ets ordered_set for concurrent writes. Prints thousand calls a second, those of the tree as a multiple of the others', and how busy the
# machine was. All figures stay in bench/threads.csv, or the file that is named.
set -eu
cd "$(dirname "${BASH_SOURCE[0]}")/.."
csv=${1:-bench/threads.csv}
out=$(mktemp -d)
trap 'rm -rf "$out"' EXIT

echo "proving and building the tree and the crates below it .."
(cd crates/ca_bench && rt run) >"$out/log" 2>&1 || { tail -n 5 "$out/log" >&2; exit 1; }
rustc --edition 2024 -O bench/threads.rs -o "$out/map"
load() { cut -d' ' -f1-3 /proc/loadavg; }
echo "the machine: $(nproc) processors, load $(load) before"
{
  echo "who,mix,leaf,objects,threads,thousand_calls_a_second"
  crates/ca_bench/out/ca_bench threads
  "$out/map"
  if command -v escript >/dev/null; then escript bench/threads.escript; fi
} >"$csv"
echo "load $(load) behind"

awk -F, 'function ratio(a, b) { return b > 0 ? sprintf("%.2f", a / b) : "-" }
  BEGIN { printf "%-8s %5s %8s %8s %9s %9s %9s %10s %10s\n", "mix", "leaf", "objects", "threads", "tree k/s", "map k/s", "ets k/s", "tree/map", "tree/ets" }
  NR > 1 { of[$1, $2, $3, $4, $5] = $6 }
  $1 == "tree" { lines[++count] = $2 SUBSEP $3 SUBSEP $4 SUBSEP $5 }
  END { for (i = 1; i <= count; i++) {
    split(lines[i], part, SUBSEP)
    tree = of["tree", lines[i]]; map = of["map", lines[i]]; ets = of["ets", lines[i]]
    printf "%-8s %5d %8d %8d %9s %9s %9s %10s %10s\n", part[1], part[2], part[3], part[4], tree, map, ets == "" ? "-" : ets, ratio(tree, map), ratio(tree, ets)
  } }' "$csv"
