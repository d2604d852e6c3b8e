#!/usr/bin/env bash
# Times the program on files of 1,000 inserts and 1,000 selects that choose none, a tenth and all of the objects, and a real Erlang that reads the same
# file, carries it out and prints the same. Prints the processor seconds of each, the least of some runs, Erlang's with and without its start.
#   bench/chosen.sh [PROGRAM [RUNS]]     PROGRAM is ./ca unless it is named; run ./build first
set -eu
cd "$(dirname "${BASH_SOURCE[0]}")/.."
program=${1:-./ca} runs=${2:-3}
out=$(mktemp -d)
trap 'rm -rf "$out"' EXIT
TIMEFORMAT='%U %S'

# The processor seconds of a command, the least of the runs; what it prints goes to $out/printed.
least() {
  for _ in $(seq "$runs"); do { time "$@" >"$out/printed"; } 2>&1; done | awk '{ took = $1 + $2; if (NR == 1 || took < least) least = took } END { print least }'
}

echo 'insert {1}' >"$out/empty.ca"
start=-
if command -v escript >/dev/null; then start=$(least escript bench/chosen.escript "$out/empty.ca"); fi
printf '%-9s %10s %10s %12s %14s\n' 'chosen %' program Erlang Erlang/this 'without start'
for share in 0 10 100; do
  awk -v below=$((share * 10)) 'BEGIN {
    for (i = 0; i < 1000; i++) printf "insert {<<\"user%d\">>,%d,active,1700000000,0,1,2,[{ip,<<\"10.0.0.7\">>}],web,eu}\n", i, i
    any = "\047_\047"
    for (i = 0; i < 1000; i++)
      printf "select [{{\047$1\047,\047$2\047,active,%s,%s,%s,%s,%s,%s,%s},[{\047<\047,\047$2\047,%d}],[\047$1\047]}]\n", any, any, any, any, any, any, any, below
  }' >"$out/file.ca"
  own=$(least "$program" run "$out/file.ca")
  if [ "$start" = - ]; then
    printf '%-9d %10s %10s\n' "$share" "$own" -
    continue
  fi
  cp "$out/printed" "$out/own"
  other=$(least escript bench/chosen.escript "$out/file.ca")
  cmp "$out/own" "$out/printed"
  awk -v share="$share" -v own="$own" -v other="$other" -v start="$start" 'BEGIN {
    printf "%-9d %10.3f %10.3f %12.2f %14.2f\n", share, own, other, other / own, (other - start) / own }'
done
