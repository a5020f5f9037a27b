#!/usr/bin/env bash
# Counts the instructions of the program on the scripts of scripts.py, and of the reader of circuit files on its files,
# under callgrind. A program's start is taken off.
set -eu
cd "$(dirname "${BASH_SOURCE[0]}")/.."
room=$(mktemp -d)
trap 'rm -rf "$room"' EXIT

instructions() {
    valgrind --tool=callgrind --callgrind-out-file="$room/out" "$@" 2>&1 >/dev/null |
        sed -n 's/.*Collected : \([0-9]*\).*/\1/p'
}

# Counts each workload of the words behind the program and its words.
count() {
    program=$1
    words=$2
    shift 2
    # shellcheck disable=SC2086
    base=$(instructions "$program" $words </dev/null)
    for workload in "$@"; do
        # shellcheck disable=SC2086
        python3 bench/scripts.py $workload >"$room/text"
        # shellcheck disable=SC2086
        echo "$workload: $(($(instructions "$program" $words <"$room/text") - base))"
    done
}

./cflobdd run </dev/null
count out/cflobdd run "values 100000" "names 1000" "line 4096" "line 65536" \
    "comment 8192" "comment 65536" "fold 8192" "fold 65536" "nesting 8192" "nesting 65536" \
    "pairs 16" "pairs 32" "pairs 64" "pairs 128" "parity 16" "parity 32" "parity 64" "parity 128" \
    "conjunctions 25" "conjunctions 50" "conjunctions 100" "adder 16" "adder 32"

(cd crates/cf_blif_cases && rt run </dev/null >"$room/log" 2>&1) || { cat "$room/log"; exit 1; }
count crates/cf_blif_cases/out/cf_blif_cases "" "blif 100" "blif 1000" "blif 10000"
