#!/bin/sh
# Feeds the proved reader of term texts hostile bytes for so many seconds, or until each sort of answer came, and compares them with those of the grammar.
#   tests/hostile/run.sh [SECONDS [SEED]]     the same seed gives the same inputs
#   tests/hostile/run.sh one HEXADECIMAL      tells both answers to one input
# KIT is the kit's folder. Where there is no rustc it says so and passes.
set -eu
cd "$(dirname "$0")/../.."
if ! command -v rustc >/dev/null; then
    echo "SKIPPED: there is no rustc here"
    exit 0
fi
OUT=${OUT:-$(mktemp -d)}
ANSWERS=$(tools/answers)
export ANSWERS
rustc --edition 2024 -O tests/hostile/main.rs -o "$OUT/hostile"
"$OUT/hostile" "${1:-5}" "${2:-1}"
