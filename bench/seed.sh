#!/usr/bin/env bash
# Times lines from a seed: so many lines (20,000) for each of so many clients (64), by the proved program and by a real ets that carries out the same
# lines. Prints the seconds of each, start and end of the programs among them, and whether the summaries are the same.
set -eu
cd "$(dirname "${BASH_SOURCE[0]}")/.."
clients=${1:-64} lines=${2:-20000}
out=$(mktemp -d)
trap 'rm -rf "$out"' EXIT

./build >"$out/log" || { tail -n 5 "$out/log" >&2; exit 1; }
timed() { # a name, and the words
  local name=$1 begin end
  shift
  begin=$(date +%s.%N)
  "$@" >"$out/$name.txt"
  end=$(date +%s.%N)
  awk -v name="$name" -v a="$begin" -v b="$end" 'BEGIN { printf "%-8s %8.2f s\n", name, b - a }'
}
timed program ./ca run --seed 1 --clients "$clients" --lines "$lines"
if command -v escript >/dev/null; then
  timed ets escript tests/otp/generated.escript 1 "$clients" "$lines"
  cmp "$out/program.txt" "$out/ets.txt" && echo "the same summary"
fi
