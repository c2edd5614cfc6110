#!/usr/bin/env bash
# Times `explain` of refuted logs beside `check` of the same, as text and as a graph: bench/explain.sh [PROGRAM]
set -eu
. "$(dirname "${BASH_SOURCE[0]}")/logs.sh"
program=${1:-$top/crates/cobra_poly/out/cobra_poly}
python3 - "$program" "$folder" <<'PY'
import os, resource, subprocess, sys, time

program, folder = sys.argv[1:]
for log in ('one_long_write_1', 'one_long_write_2', 'crossed_984'):
    for words in (['check'], ['explain'], ['explain', '--format', 'dot']):
        times, size = [], 0
        for _ in range(3):
            start = time.time()
            ran = subprocess.run([program, *words, '--strategy', 'first', '--workers', '1', os.path.join(folder, log + '.log')], stdout=subprocess.PIPE)
            times.append(time.time() - start)
            size = len(ran.stdout)
        peak = resource.getrusage(resource.RUSAGE_CHILDREN).ru_maxrss // 1024
        print('%-18s %-22s %8.3f s  %9d bytes  status %d  peak so far %4d MiB' % (log, ' '.join(words), min(times), size, ran.returncode, peak), flush=True)
PY
