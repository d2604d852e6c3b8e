#!/usr/bin/env bash
# Compares programs by single mixes, in turns: each round takes each of them once. Prints the median of the rounds, in thousand calls a second, and the
# median of each round's quotient by the first program; of trees also how many splits and joins they had in a median round, and routes at the end.
#   bench/turns.sh ROUNDS "MIX .." "THREADS .." "NAME=WHO:PROGRAM" ..
# PROGRAM is called with the beginning of a line of bench/tree.csv, as `tree,mixed,10000,4` where WHO is tree, and prints that line: ca_bench does so, and
# bench/tree.rs (WHO is map) and bench/tree.escript (ets and ets-wc). It may be several words, as env GLIBC_TUNABLES=glibc.malloc.hugetlb=1 and a program.
# So two builds of the tree are compared by
#   bench/turns.sh 7 "lookups mixed" "1 4" before=tree:/tmp/before now=tree:crates/ca_bench/out/ca_bench
# All lines stay in bench/turns.csv, each behind the round and the name. OBJECTS, 10000 else, is the number of objects.
set -eu
[ $# -ge 4 ] || { sed -n 's/^#   \(bench.*\) \.\.$/\1 ../p' "${BASH_SOURCE[0]}" >&2; exit 2; }
rounds=$1 mixes=$2 threads=$3
shift 3
csv=$(dirname "${BASH_SOURCE[0]}")/turns.csv
load() { cut -d' ' -f1-3 /proc/loadavg; }
echo "the machine: $(nproc) processors, load $(load) before"
: >"$csv"
for round in $(seq "$rounds"); do
  for mix in $mixes; do
    for many in $threads; do
      for program in "$@"; do
        called=${program#*=}
        line=$(${called#*:} "${called%%:*},$mix,${OBJECTS:-10000},$many")
        echo "$round,${program%%=*},$line" >>"$csv"
      done
    done
  done
done
echo "load $(load) behind"
if grep -n -e failed -e ',,' "$csv"; then exit 1; fi
awk -F, '
  function median(of, count, i, j, held) {
    for (i = 2; i <= count; i++) {
      held = of[i]
      for (j = i - 1; j > 0 && of[j] > held; j--) of[j + 1] = of[j]
      of[j + 1] = held
    }
    return count % 2 ? of[(count + 1) / 2] : (of[count / 2] + of[count / 2 + 1]) / 2
  }
  function of_rounds(at, column, i, of) {
    for (i = 1; i <= rounds; i++) of[i] = column ? field[i, at, column] : rate[i, at] / rate[i, first SUBSEP place[at]]
    return median(of, rounds)
  }
  NR == 1 { first = $2 }
  {
    at = $2 SUBSEP $4 SUBSEP $6
    place[at] = $4 SUBSEP $6
    if (!(at in known)) { known[at] = 1; order[++lines] = at; name[at] = $2; mix[at] = $4; threads[at] = $6 }
    rounds = $1
    rate[$1, at] = field[$1, at, 7] = $7
    for (i = 8; i <= 12; i++) field[$1, at, i] = $i
  }
  END {
    printf "%-16s %7s %-14s %9s %9s %7s %7s %8s %8s %7s\n", "mix", "threads", "program", "calls k/s", "/ " first, "full", "busy", "splits", "joins", "routes"
    for (i = 1; i <= lines; i++) {
      at = order[i]
      printf "%-16s %7d %-14s %9d %9.2f %7d %7d %8d %8d %7d\n", mix[at], threads[at], name[at], of_rounds(at, 7), of_rounds(at, 0), \
        of_rounds(at, 8), of_rounds(at, 9), of_rounds(at, 10), of_rounds(at, 11), of_rounds(at, 12)
    }
  }' "$csv"
