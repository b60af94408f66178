#!/usr/bin/env bash
# Compares a program that lays a whole job with plain.rs: run.sh PROGRAM JOB [RUNS]
#
# PROGRAM reads a job text from standard input and prints its cutting list, as plain.rs does. Both have to print the same.
# Then both are run RUNS times each (200 by default), in turn, with the job as their input and /dev/null as their output.
# A time is that from a process's start to its end. The ratio is PROGRAM's time to that of plain.rs.
set -eu
if [ $# -lt 2 ]; then
    echo "usage: run.sh PROGRAM JOB [RUNS]" >&2
    exit 2
fi
here=$(cd "$(dirname "$0")" && pwd)
program=$(realpath "$1")
job=$(realpath "$2")
runs=${3:-200}

work=$(mktemp -d /tmp/plain.XXXXXX)
trap 'rm -rf "$work"' EXIT
rustc -O --edition 2021 -o "$work/plain" "$here/plain.rs"

# A refusal is an answer too, told by status 1.
"$program" < "$job" > "$work/other.list" || [ $? -eq 1 ]
"$work/plain" < "$job" > "$work/plain.list" || [ $? -eq 1 ]
if ! cmp "$work/other.list" "$work/plain.list"; then
    echo "the programs print different lists" >&2
    exit 1
fi
echo "both print the same: $(wc -l < "$work/plain.list") lines"

python3 - "$program" "$work/plain" "$job" "$runs" <<'PYTHON'
import os
import statistics
import sys
import time

program, plain, job, runs = sys.argv[1:]


def timed(path):
    actions = [(os.POSIX_SPAWN_OPEN, 0, job, os.O_RDONLY, 0), (os.POSIX_SPAWN_OPEN, 1, os.devnull, os.O_WRONLY, 0)]
    start = time.perf_counter_ns()
    os.waitpid(os.posix_spawn(path, [path], os.environ, file_actions=actions), 0)
    return (time.perf_counter_ns() - start) / 1e6


times = {"program": [], "plain": []}
for run in range(int(runs)):
    order = [("program", program), ("plain", plain)]
    for name, path in order if run % 2 == 0 else reversed(order):
        times[name].append(timed(path))
for name, measure in (("best", min), ("median", statistics.median)):
    ours, theirs = measure(times["program"]), measure(times["plain"])
    print(f"{name}: program {ours:.3f} ms, plain {theirs:.3f} ms, ratio {ours / theirs:.2f}")
PYTHON
