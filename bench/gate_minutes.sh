#!/usr/bin/env bash
# Runs the gate's proofs, edits and tests from nothing (`rt ci`, with --anew where the kit keeps what has passed), and
# prints the minutes they took: of the clock, of the processors, and of the processors by crate: its proof, its tests and
# its must-fail edits.
#
#     bench/gate_minutes.sh [LOG]      what `rt ci` prints goes to LOG (out/gate.log), the table to standard output
#
# The whole is what the system counted. The parts are sampled twice a second from the checks that run below this script,
# told apart by their words and folders, so they come to a little less. Run it with nothing beside it.
set -eu
cd "$(dirname "${BASH_SOURCE[0]}")/.."
mkdir -p out
exec python3 - "${1:-out/gate.log}" <<'PYTHON'
import collections, os, re, resource, subprocess, sys, time

HERTZ = os.sysconf("SC_CLK_TCK")


def text(path):
    try:
        with open(path, "rb") as file:
            return file.read().decode("utf-8", "replace")
    except OSError:
        return ""


def processes():
    """Yields each process: its id, its parent's, and the seconds that it has taken itself."""
    for pid in filter(str.isdigit, os.listdir("/proc")):
        fields = text(f"/proc/{pid}/stat").rpartition(")")[2].split()
        if len(fields) > 12:
            yield int(pid), int(fields[1]), (int(fields[11]) + int(fields[12])) / HERTZ


def work_of(pid):
    """Gives the crate that a process checks and what for, and None for a process that checks none."""
    words = text(f"/proc/{pid}/cmdline").split("\0")
    if "--crate-name" not in words:
        return None
    try:
        folder = os.readlink(f"/proc/{pid}/cwd")
    except OSError:
        return None
    kind = "edits" if "/rt-edit-" in folder else "tests" if "--test" in words else "proof"
    return words[words.index("--crate-name") + 1], kind


seconds = collections.defaultdict(dict)
known = {}
began = time.monotonic()
with open(sys.argv[1], "w") as log:
    words = ["rt", "ci"]
    said = subprocess.run(["rt", "help"], stdout=subprocess.PIPE, stderr=subprocess.STDOUT, text=True).stdout
    if "--anew" in said:
        words.append("--anew")
    gate = subprocess.Popen(words, stdout=log, stderr=subprocess.STDOUT, stdin=subprocess.DEVNULL)
    while gate.poll() is None:
        below = {os.getpid()}
        for pid, parent, taken in sorted(processes()):
            if parent in below:
                below.add(pid)
                known[pid] = known.get(pid) or work_of(pid)
                if known[pid]:
                    seconds[known[pid]][pid] = taken
        time.sleep(0.5)
used = resource.getrusage(resource.RUSAGE_CHILDREN)
print(f"{(time.monotonic() - began) / 60:.1f} minutes, {(used.ru_utime + used.ru_stime) / 60:.1f} processor minutes")
print(re.sub(r"\n+$", "", text(sys.argv[1])).rpartition("\n")[2])
minutes = {work: sum(by_process.values()) / 60 for work, by_process in seconds.items()}
kinds = ("proof", "tests", "edits")
print(f"{'crate':20}" + "".join(f"{kind:>8}" for kind in (*kinds, "sum")))
rows = {crate: [minutes.get((crate, kind), 0) for kind in kinds] for crate, _ in minutes}
for crate, row in [*sorted(rows.items(), key=lambda it: -sum(it[1])), ("all", [sum(it) for it in zip(*rows.values())])]:
    print(f"{crate:20}" + "".join(f"{it:8.1f}" for it in (*row, sum(row))))
sys.exit(gate.returncode)
PYTHON
