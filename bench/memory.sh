#!/usr/bin/env bash
# Measures how much memory the proved program takes for one short file with long answers: an object of some 1,300 bytes as text,
# looked up 50,000 times, 66 MB of output. It prints the most memory that was in use at once. Run ./build first, or name another program.
#   bench/memory.sh [LINES [PROGRAM]]
set -eu
cd "$(dirname "${BASH_SOURCE[0]}")/.."
lines=${1:-50000} program=${2:-}
if [ -z "$program" ]; then
  program=.built/ca
  if ! [ -x "$program" ] || [ "$(cat "$program.sum" 2>/dev/null)" != "$(tools/sources-sum)" ]; then
    echo "bench/memory.sh: there is no proved program of the sources as they are ($program): run ./build first, or name a program" >&2
    exit 1
  fi
fi
out=$(mktemp -d)
trap 'rm -rf "$out"' EXIT

# Each letter of a string is a list cell of its own, and a number in the text.
{
  printf 'insert {1,"%s"}\n' "$(head -c 328 /dev/zero | tr '\0' q)"
  yes 'lookup 1' | head -n "$lines"
} >"$out/file.ca"
python3 - "$program" "$out/file.ca" <<'PYTHON'
import resource, subprocess, sys

program, file = sys.argv[1:]
run = subprocess.Popen([program, "run", file], stdout=subprocess.PIPE)
printed = sum(len(part) for part in iter(lambda: run.stdout.read(1 << 16), b""))
status = run.wait()
most = resource.getrusage(resource.RUSAGE_CHILDREN).ru_maxrss
print(f"status {status}, {printed} bytes printed, at most {most * 1024 // 1000000} MB in use")
PYTHON
