#!/usr/bin/env bash
# Times calls of clients on 1, 2 and 4 threads in one run, on 10,000 objects, and of one client on 100 to 1,000,000 objects: the proved tree, which grows to
# many leaves of 60 objects, or of 32, a BTreeMap of the same byte codes behind a RwLock, and a real ets ordered_set without and with write_concurrency. Then it fills trees
# until a put is refused. Prints how busy the machine was, and the tables of bench/tables.sh. All figures stay in bench/tree.csv and bench/rows.csv,
# or in the two files that are named. Single mixes, and two builds of the tree, are compared by bench/turns.sh.
#   bench/tree.sh [FILE [FILE]]
set -eu
here=$(pwd)
cd "$(dirname "${BASH_SOURCE[0]}")/.."
of_caller() { case $1 in /*) echo "$1" ;; *) echo "$here/$1" ;; esac; }
csv=bench/tree.csv rows=bench/rows.csv
[ $# -lt 1 ] || csv=$(of_caller "$1")
[ $# -lt 2 ] || rows=$(of_caller "$2")
out=$(mktemp -d)
trap 'rm -rf "$out"' EXIT

echo "proving and building the tree and the crates below it .."
(cd crates/ca_bench && rt run) >"$out/log" 2>&1 || { tail -n 5 "$out/log" >&2; exit 1; }
rustc --edition 2024 -O bench/tree.rs -o "$out/map"
load() { cut -d' ' -f1-3 /proc/loadavg; }
echo "the machine: $(nproc) processors, load $(load) before"
{
  echo "who,mix,objects,threads,thousand_calls_a_second,full,busy,splits,joins,routes"
  crates/ca_bench/out/ca_bench tree
  "$out/map"
  if command -v escript >/dev/null; then escript bench/tree.escript; fi
} >"$csv"
{
  echo "who,order,leaf,levels,rows,objects,end,thousand_puts_a_second,microseconds_to_open"
  crates/ca_bench/out/ca_bench rows
} >"$rows"
echo "load $(load) behind"
if grep -n -e failed -e memory "$csv" "$rows"; then exit 1; fi
bench/tables.sh "$csv" "$rows"
