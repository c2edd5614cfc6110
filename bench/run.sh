#!/usr/bin/env bash
# Times the built program on logs at the limits, beside `cat` of the same bytes: bench/run.sh [PROGRAM]
set -eu
. "$(dirname "${BASH_SOURCE[0]}")/logs.sh"
program=${1:-$top/crates/cobra_poly/out/cobra_poly}
measure() { # name, file, command..
    local name=$1 file=$2
    shift 2
    python3 - "$name" "$file" "$@" <<'PY'
import os, resource, subprocess, sys, time
name, file, words = sys.argv[1], sys.argv[2], sys.argv[3:]
best, size, status = None, 0, 0
for _ in range(3):
    start = time.time()
    with open('/dev/null', 'wb') as null:
        ran = subprocess.run(words, stdout=subprocess.PIPE, stderr=subprocess.PIPE)
    took = time.time() - start
    best = took if best is None else min(best, took)
    size, status, said = len(ran.stdout), ran.returncode, ran.stderr.decode().strip()
peak = resource.getrusage(resource.RUSAGE_CHILDREN).ru_maxrss // 1024
print('%-34s %10d bytes in %10d out  %7.3f s  peak %5d MiB  status %d %s' % (name, os.path.getsize(file), size, best, peak, status, said))
PY
}
for log in "$folder"/*.log; do
    name=$(basename "$log" .log)
    measure "cat $name" "$log" cat "$log"
    measure "stats $name" "$log" "$program" stats --plain "$log"
    measure "encode $name" "$log" "$program" encode --plain "$log"
done
for log in operations_100 operations_1000; do
    for count in 1 2 4; do
        measure "stats $log, $count workers" "$folder/$log.log" "$program" stats --plain --workers $count "$folder/$log.log"
    done
done
# the reduced formula, without its text
for log in choices_1000 one_session_1000 in_time_1000 beside_1000 reads_1000; do
    for count in 1 2 4; do
        measure "reduced $log, $count workers" "$folder/$log.log" "$program" stats --workers $count "$folder/$log.log"
    done
done
