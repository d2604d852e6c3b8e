#!/bin/sh
# Compares with a real Erlang: the order of random terms, by the terms and by the bytes of their codes; what is read of term texts; what random
# match specifications choose; the replies to random command files, and to examples/calls.ca; and the summaries of lines that are made from a seed.
# KIT is the kit's folder, CA the program (./ca). Where there is no Erlang or no rustc it says so and passes.
set -eu
cd "$(dirname "$0")/../.."
if ! command -v escript >/dev/null; then
    echo "SKIPPED: there is no escript here (Debian: erlang-base)"
    exit 0
fi
if ! command -v rustc >/dev/null; then
    echo "SKIPPED: there is no rustc here"
    exit 0
fi
OUT=${OUT:-$(mktemp -d)}
ANSWERS=$(tools/answers)
export ANSWERS
rustc --edition 2024 -O tests/otp/pairs.rs -o "$OUT/pairs"
escript tests/otp/pairs.escript "${PAIRS:-2000}" >"$OUT/pairs.txt"
"$OUT/pairs" <"$OUT/pairs.txt"
rustc --edition 2024 -O tests/otp/texts.rs -o "$OUT/texts"
escript tests/otp/texts.escript make "${TEXTS:-2000}" >"$OUT/texts.txt"
"$OUT/texts" <"$OUT/texts.txt" >"$OUT/answers.txt"
escript tests/otp/texts.escript compare "$OUT/answers.txt"
rustc --edition 2024 -O tests/otp/specs.rs -o "$OUT/specs"
escript tests/otp/specs.escript make "${SPECS:-2000}" >"$OUT/specs.txt"
"$OUT/specs" <"$OUT/specs.txt" >"$OUT/chosen.txt"
escript tests/otp/specs.escript compare "$OUT/chosen.txt"
mkdir "$OUT/calls"
escript tests/otp/calls.escript "${CALLS:-300}" "${SEED:-1}" "$OUT/calls"
CA=${CA:-./ca}
for file in "$OUT"/calls/*; do
    case $file in *.stdout) continue ;; esac
    "$CA" run "$file" | cmp - "$file.stdout"
done
echo "${CALLS:-300} command files: as a real ets"
escript tests/otp/example.escript | cmp - tests/calls.stdout
"$CA" run examples/calls.ca | cmp - tests/calls.stdout
echo "examples/calls.ca: as a real ets"
for numbers in "1 1 4" "7 4 2000" "2147483647 64 500"; do
    # shellcheck disable=SC2086
    set -- $numbers
    escript tests/otp/generated.escript "$@" >"$OUT/summary.txt"
    "$CA" run --seed "$1" --clients "$2" --lines "$3" | cmp - "$OUT/summary.txt"
    echo "lines from the seed $1: as a real ets"
done
