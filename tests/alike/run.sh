#!/bin/sh
# Compares what compiled match specifications choose with what the plain matcher of their definition chooses, on random ones.
#   tests/alike/run.sh [COUNT [SEED]]     so many specifications; the same seed gives the same ones
# KIT is the kit's folder. Where there is no rustc it says so and passes.
set -eu
cd "$(dirname "$0")/../.."
if ! command -v rustc >/dev/null; then
    echo "SKIPPED: there is no rustc here"
    exit 0
fi
OUT=${OUT:-$(mktemp -d)}
ANSWERS=$(tools/answers)
export ANSWERS
rustc --edition 2024 -O tests/alike/main.rs -o "$OUT/alike"
"$OUT/alike" "${1:-2000}" "${2:-1}"
