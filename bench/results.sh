#!/usr/bin/env bash
# Writes RESULTS.md: the instructions of the workloads (instructions.sh) and the comparison with BuDDy (buddy.sh), with the
# date and the commit.
set -eu
cd "$(dirname "${BASH_SOURCE[0]}")"
room=$(mktemp -d)
trap 'rm -rf "$room"' EXIT
./instructions.sh >"$room/counts"
./buddy.sh >"$room/buddy"
{
    echo "# Speed"
    echo
    echo "Written by \`bench/results.sh\` on $(date +%Y-%m-%d) at commit $(git rev-parse --short HEAD)."
    echo
    echo "Instructions counted by valgrind, the program's start taken off; they are steady from run to run and from machine to"
    echo "machine. \`scripts.py\` writes the scripts and circuit files, and says what they do. A circuit file is read by"
    echo "\`cf_blif_cases\`."
    echo
    echo "| Workload | Instructions |"
    echo "|---|---|"
    sed 's/^\(.*\): \([0-9]*\)$/| \1 | \2 |/' "$room/counts"
    echo
    echo "## Beside BuDDy"
    echo
    echo "The same functions, in the same order of variables, by BuDDy 2.4, a package of binary decision diagrams in C"
    echo "(\`buddy.c\`). BuDDy's peak memory is mostly its node table, which has 10,000 places at first."
    echo
    cat "$room/buddy"
} >RESULTS.md
