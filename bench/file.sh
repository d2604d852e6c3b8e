#!/usr/bin/env bash
# Measures the proved program on one file of inserts over a thousand keys, as large as a file may be: its time, beside that in which
# Erlang's file:consult reads the same terms; and, where perf works, in which layer the time goes. Run ./build first.
#   bench/file.sh [BYTES [RUNS]]
set -eu
cd "$(dirname "${BASH_SOURCE[0]}")/.."
bytes=${1:-16777216} runs=${2:-3}
if ! [ -x .built/ca ] || [ "$(cat .built/ca.sum 2>/dev/null)" != "$(tools/sources-sum)" ]; then
  echo "bench/file.sh: there is no proved program of the sources as they are (.built/ca): run ./build first" >&2
  exit 1
fi
out=$(mktemp -d)
trap 'rm -rf "$out"' EXIT

awk -v most="$bytes" 'BEGIN {
  for (i = 0; ; i++) {
    line = sprintf("insert {<<\"user%d\">>,%d,[{ip,<<\"10.0.%d.%d\">>}]}", i * 7919 % 1000, 1700000000 + i, i % 251, i % 241)
    size += length(line) + 1
    if (size > most) exit
    print line
  }
}' >"$out/file.ca"
sed 's/^insert //; s/$/./' "$out/file.ca" >"$out/terms"
echo "$(wc -c <"$out/file.ca") bytes, $(wc -l <"$out/file.ca") inserts"

least=
for _ in $(seq "$runs"); do
  start=$(date +%s%N)
  .built/ca run "$out/file.ca" >"$out/printed"
  took=$((($(date +%s%N) - start) / 1000000))
  if [ -z "$least" ] || [ "$took" -lt "$least" ]; then least=$took; fi
done
tail -n 1 "$out/printed" | grep -qx 'end 1000' || { echo "the program printed something else" >&2; exit 1; }
echo "ca run                  $least ms, the least of $runs: read, put into the table and printed"

if command -v erl >/dev/null; then
  # shellcheck disable=SC2016
  erl -noshell -eval '
    [File] = init:get_plain_arguments(),
    {Read, {ok, Terms}} = timer:tc(file, consult, [File]),
    Table = ets:new(table, [ordered_set]),
    {Put, true} = timer:tc(ets, insert, [Table, Terms]),
    1000 = ets:info(Table, size),
    io:format("Erlang, file:consult    ~b ms~nErlang, ets:insert      ~b ms~n", [Read div 1000, Put div 1000]),
    halt().' -extra "$out/terms"
else
  echo "there is no erl here: nothing to compare with"
fi

# The program works in phases, one after the other, and most of its layers are inlined into one function. So the time is shared by
# the samples that tell where a phase begins: the first one in a function of its layer, or in a call of the kernel. In the phase
# "play" commands are answered, answers become text, and terms are let go.
if ! perf record -q -F 5000 -g -o "$out/perf" .built/ca run "$out/file.ca" >"$out/printed" 2>"$out/perf.log"; then
  echo "perf does not work here: $(head -n 1 "$out/perf.log" 2>/dev/null)"
  exit 0
fi
perf script -i "$out/perf" -F time,ip,sym 2>/dev/null | awk 'BEGIN { RS = ""; phase = 1; split("fetch|text|play|write|end", name, "|") }
  {
    time = $1 + 0
    if (NR == 1) last = start = time
    if (phase == 1 && $3 ~ /^ca_text::read|^ca_cmd::command/) phase = 2
    if (phase == 2 && $3 ~ /^ca_(client|table|replace|range|base|rows)::|^ca_cmd::(output|answer)|^ca_text::print/) phase = 3
    if (phase >= 3 && /ksys_write|vfs_write/) phase = 4
    else if (phase == 4) phase = 5
    spent[phase] += time - last
    last = time
    here[phase]++
    where = $3
    if (where ~ /alloc|free|unlink_chunk|sysmalloc/) where = "memory (malloc, free)"
    else if ($2 ~ /^ffff/) where = "the kernel"
    sub(/::<.*/, "", where)
    samples[phase, where]++
  }
  END {
    for (p = 1; p <= 5; p++) {
      printf "%-8s %6.1f ms %5.1f%%\n", name[p], 1000 * spent[p], 100 * spent[p] / (last - start)
      for (key in samples) {
        split(key, part, SUBSEP)
        if (part[1] == p && samples[key] > here[p] / 20) printf "    %5.1f%% %s\n", 100 * samples[key] / here[p], part[2] | "sort -rn"
      }
      close("sort -rn")
    }
  }'
