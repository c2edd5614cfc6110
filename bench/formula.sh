#!/usr/bin/env bash
# Times the built program on the largest formulas, text into /dev/null, beside `cat` of the same bytes: bench/formula.sh [PROGRAM]
# The reduced formula of 64 sessions of 6 transactions, each of which writes a key of its own, has 18,361,728 clauses; the plain formula of 50
# writers of 40 keys and 50 readers has 98,000 bipaths. Of 1,000 transactions that write a key of their own and state moments, each is under way
# at once with the 123 before it and the 123 behind it.
set -eu
top=$(cd "$(dirname "${BASH_SOURCE[0]}")/.." && pwd)
program=${1:-$top/crates/cobra_poly/out/cobra_poly}
folder=$(mktemp -d)
trap 'rm -r "$folder"' EXIT
python3 - "$folder" <<'PY'
import os, sys
folder = sys.argv[1]

def transaction(*operations):
    return ['begin', *operations, 'commit']

def write(name, sessions, header=()):
    lines = list(header)
    for number, transactions in enumerate(sessions, 1):
        lines.append('session %d' % number)
        for operations in transactions:
            lines.extend(operations)
    with open(os.path.join(folder, name), 'w') as out:
        out.write(''.join(line + '\n' for line in lines))

write('writers_384.log', [[transaction('w k%d %d' % (6 * s + t, 6 * s + t + 1)) for t in range(6)] for s in range(64)])
keys = range(1, 41)
write('bipaths_98000.log', [[transaction(*('w k%d %d' % (k, 40 * s + k) for k in keys)), transaction(*('r k%d %d' % (k, 40 * s + k) for k in keys))] for s in range(50)])
write('beside_123.log', [[['begin %d' % (2 * t), 'w k%d %d' % (t, t + 1), 'commit %d' % (2 * t + 247)] for t in range(s, 1000, 64)] for s in range(64)], ['log 3'])
PY
measure() { # name, command..
    python3 - "$@" <<'PY'
import resource, subprocess, sys, time
name, words = sys.argv[1], sys.argv[2:]
times = []
with open('/dev/null', 'wb') as null:
    for _ in range(7):
        start = time.time()
        status = subprocess.run(words, stdout=null).returncode
        times.append(time.time() - start)
times.sort()
peak = resource.getrusage(resource.RUSAGE_CHILDREN).ru_maxrss / 1024
print('%-34s best %7.4f s  middle %7.4f s  peak %6.1f MiB  status %d' % (name, times[0], times[3], peak, status))
PY
}
for way in 'writers_384' 'beside_123' 'bipaths_98000 --plain'; do
    set -- $way
    log=$folder/$1.log
    shift
    "$program" encode "$@" "$log" > "$folder/formula"
    echo "$way: $(stat -c %s "$folder/formula") bytes, $(head -n 1 "$folder/formula")"
    measure "encode $way" "$program" encode "$@" "$log"
    measure "stats $way" "$program" stats "$@" "$log"
    measure "cat of the formula" cat "$folder/formula"
done
