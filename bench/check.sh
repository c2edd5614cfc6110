#!/usr/bin/env bash
# Times `check` of logs with many open choices, by strategy and by number of workers: bench/check.sh [PROGRAM]
set -eu
. "$(dirname "${BASH_SOURCE[0]}")/logs.sh"
program=${1:-$top/crates/cobra_poly/out/cobra_poly}
python3 - "$program" "$folder" <<'PY'
import os, resource, subprocess, sys, time

program, folder = sys.argv[1:]
CLOSED = 20000


def measure(log, strategy, workers, budget):
    words = [program, 'check', '--strategy', strategy, '--workers', str(workers), '--budget', str(budget), os.path.join(folder, log + '.log')]
    best, said = None, ''
    for _ in range(3):
        start = time.time()
        ran = subprocess.run(words, stdout=subprocess.PIPE, stderr=subprocess.PIPE)
        took = time.time() - start
        best = took if best is None else min(best, took)
        said = (ran.stdout + ran.stderr).decode().split('\n')[0]
    peak = resource.getrusage(resource.RUSAGE_CHILDREN).ru_maxrss // 1024
    print('%-16s %-6s %2d workers  budget %7d  %8.3f s  peak so far %4d MiB  %s' % (log, strategy, workers, budget, best, peak, said), flush=True)
    return best


for log, budget in (('writers_25', 10000), ('writers_100', 10000), ('forks_0', 10000), ('forks_5', 10000), ('forks_20', 10000), ('operations_400', 10000), ('writers_400', 100000), ('choices_400', 10000), ('choices_400', 100000),
                    ('writers_1000', 100000), ('choices_1000', 10000), ('choices_1000', 100000), ('one_session_1000', 10000), ('in_time_1000', 10000),
                    ('beside_1000', 100000), ('reads_1000', 10000), ('operations_1000', 10000)):
    for strategy in ('first', 'most', 'least', 'forced'):
        for workers in (1, 2, 4) if strategy == 'first' else (1,):
            measure(log, strategy, workers, budget)


def closing(log):
    """Measures a log whose every order is refuted, and says what a closing takes."""
    few, many = (measure(log, 'forced', 1, budget) for budget in (CLOSED // 2, CLOSED))
    print('%-16s forced  1 worker   %6.1f microseconds a closing' % (log, (many - few) / (CLOSED - CLOSED // 2) * 1e6), flush=True)


closing('crossed_392')
closing('crossed_992')
PY
