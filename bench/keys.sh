#!/usr/bin/env bash
# Times the built program on logs whose keys were chosen to collide, beside a harmless log: bench/keys.sh [PROGRAM]
set -eu
top=$(cd "$(dirname "${BASH_SOURCE[0]}")/.." && pwd)
program=${1:-$top/crates/cobra_poly/out/cobra_poly}
folder=$(mktemp -d)
trap 'rm -rf "$folder"' EXIT
python3 "$top/bench/make_keys.py" "$folder"
echo "machine: $(nproc) processors, $(date -u +%F)"
python3 - "$program" "$folder" <<'PY'
import os, subprocess, sys, time

program, folder = sys.argv[1:]
for name in ('harmless', 'one_mark', 'one_mark_and_colliding', 'one_mark_all_distinct', 'harmless_1000', 'one_mark_and_colliding_1000'):
    log = os.path.join(folder, name + '.log')
    for workers in (1, 4):
        best, said = None, ''
        for _ in range(5):
            start = time.time()
            ran = subprocess.run([program, 'stats', '--workers', str(workers), log], stdout=subprocess.PIPE, stderr=subprocess.PIPE)
            took = time.time() - start
            best = took if best is None else min(best, took)
            said = (ran.stdout + ran.stderr).decode().strip().split('\n')[-1]
        print('%-31s %10d bytes  %d workers  %7.3f s  status %d  %s' % (name, os.path.getsize(log), workers, best, ran.returncode, said), flush=True)
PY
