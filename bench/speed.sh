#!/bin/sh
# Builds the speed harness over the proved static library, and runs it. KIT is the kit's folder.
set -eu
cd "$(dirname "$0")/.."
OUT=${OUT:-$(mktemp -d)}
tools/harness bench/speed.rs "$OUT/speed"
"$OUT/speed"
