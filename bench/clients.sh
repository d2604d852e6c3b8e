#!/usr/bin/env bash
# Times the whole program on files of 1, 2 and 4 clients beside a real Erlang with as many processes on one ordered_set with write_concurrency, which
# reads, carries out and prints the same files. Prints the seconds from start to end and the processor's, the least of some runs, for each of both.
#   bench/clients.sh [PROGRAM [LINES [RUNS]]]     PROGRAM is ./ca unless it is named; run ./build first. LINES a client: 40,000
set -eu
cd "$(dirname "${BASH_SOURCE[0]}")/.."
program=${1:-./ca} lines=${2:-40000} runs=${3:-3}
out=$(mktemp -d)
trap 'rm -rf "$out"' EXIT
TIMEFORMAT='%R %U %S'
python3 bench/clients.py "$out/files" "$lines"

# The seconds of a command and those of the processor, the least of the runs each; what it prints goes to $out/printed.
least() {
  for _ in $(seq "$runs"); do { time "$@" >"$out/printed"; } 2>&1; done | awk '{ spent = $2 + $3
    if (NR == 1 || $1 < took) took = $1
    if (NR == 1 || spent < most) most = spent } END { print took, most }'
}

printf '%-10s %8s %10s %10s %10s %10s %14s\n' work clients seconds processor Erlang processor Erlang/this
for work in lookups mixes sessions counters batches; do
  for clients in 1 2 4; do
    read -r took spent < <(least "$program" run "$out/files/$work/$clients"/*)
    if grep -q ' refused ' "$out/printed"; then echo "$work with $clients clients: lines were refused"; fi
    cp "$out/printed" "$out/own"
    other=- also=-
    if command -v escript >/dev/null; then
      read -r other also < <(least escript bench/clients.escript "$out/files/$work/$clients"/*)
      if [ "$clients" = 1 ]; then cmp "$out/own" "$out/printed"; fi
    fi
    awk -v work="$work" -v clients="$clients" -v took="$took" -v spent="$spent" -v other="$other" -v also="$also" 'BEGIN {
      printf "%-10s %8d %10.2f %10.2f %10s %10s %14s\n", work, clients, took, spent, other, also, other == "-" ? other : sprintf("%.2f", other / took) }'
  done
done
