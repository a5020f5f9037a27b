#!/usr/bin/env bash
# Compares the program with BuDDy, a package of binary decision diagrams (Debian's libbdd-dev): instructions, with the
# program's start taken off, and peak memory, of the same functions on both. It prints a table for RESULTS.md.
set -eu
cd "$(dirname "${BASH_SOURCE[0]}")"
room=$(mktemp -d)
trap 'rm -rf "$room"' EXIT
cc -O2 -o "$room/buddy" buddy.c -lbdd -lm
../cflobdd run </dev/null
ours=../out/cflobdd

# The instructions of a command, in thousands.
instructions() {
    valgrind --tool=cachegrind --cache-sim=no --cachegrind-out-file=/dev/null "$@" 2>&1 >/dev/null |
        sed -n 's/.*I *refs: *//p' | tr -d ,
}

# Its peak memory in KiB.
memory() {
    /usr/bin/time -f %M "$@" 2>&1 >/dev/null | tail -n 1
}

echo "| Functions | Instructions | BuDDy's | ratio | Peak memory (KiB) | BuDDy's |"
echo "|---|---|---|---|---|---|"
our_start=$(instructions "$ours" run </dev/null)
their_start=$(instructions "$room/buddy" parity 1)
for family in "parity 64" "parity 128" "adder 16" "adder 32" "clauses 20" "clauses 40" "equality 32" "equality 64"; do
    # shellcheck disable=SC2086
    python3 scripts.py $family >"$room/script"
    mine=$(($(instructions "$ours" run <"$room/script") - our_start))
    # shellcheck disable=SC2086
    theirs=$(($(instructions "$room/buddy" $family) - their_start))
    # shellcheck disable=SC2086
    echo "| \`$family\` | $mine | $theirs | $(awk "BEGIN { printf \"%.1f\", $mine / $theirs }") |" \
        "$(memory "$ours" run <"$room/script") | $(memory "$room/buddy" $family) |"
done
