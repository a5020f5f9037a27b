#!/usr/bin/env bash
# Runs each script of examples/, tests/edges/ and tests/refusals/ on the built program, and compares what it writes and
# its status, and then the commands that the documents show. A script has ten seconds.
# NAME.cfl is the script, NAME.out what has to be written, NAME.status the status where it isn't 0, and NAME.words the
# program's words where they aren't `run`.
set -u
cd "$(dirname "${BASH_SOURCE[0]}")/.." || exit 1
passed=0
failed=0
answer=$(mktemp)
./cflobdd run </dev/null # builds the program where it isn't there
trap 'rm -f "$answer"' EXIT
for script in examples/*.cfl tests/edges/*.cfl tests/refusals/*.cfl; do
    name=${script%.cfl}
    wanted=0
    if [ -f "$name.status" ]; then wanted=$(cat "$name.status"); fi
    words=(run)
    if [ -f "$name.words" ]; then read -ra words <"$name.words"; fi
    timeout 10 ./cflobdd "${words[@]}" <"$script" >"$answer"
    status=$?
    if [ "$status" = "$wanted" ] && cmp -s "$answer" "$name.out"; then
        passed=$((passed + 1))
    else
        failed=$((failed + 1))
        echo "$script: status $status (wanted $wanted), and wrote:"
        head -n 20 "$answer"
    fi
done
# The commands that the documents show.
if tests/shown.py README.md docs/TOUR.md; then passed=$((passed + 1)); else failed=$((failed + 1)); fi
echo "$passed passed, $failed failed"
[ "$passed" -gt 0 ] && [ "$failed" -eq 0 ]
