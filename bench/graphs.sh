#!/usr/bin/env bash
# Times graphs, chains and choices by crates/graph_bench, and takes its peak of memory: bench/graphs.sh [PROGRAM]
set -eu
. "$(dirname "${BASH_SOURCE[0]}")/logs.sh"
program=${1:-$top/crates/graph_bench/out/graph_bench}
[ -x "$program" ] || (cd "$top/crates/graph_bench" && rt run > /dev/null)
run() { # words of the program
    python3 - "$program" "$@" <<'PY'
import resource, subprocess, sys
subprocess.run(sys.argv[1:], check=True)
print('peak: %d MiB' % (resource.getrusage(resource.RUSAGE_CHILDREN).ru_maxrss // 1024))
PY
}
run_often() { # how often, words of the program: of each line with a time the least and the middle one of all runs
    python3 - "$1" "$program" "${@:2}" <<'PY'
import re, subprocess, sys
times = {}
for _ in range(int(sys.argv[1])):
    graph, workers = '', ''
    for line in subprocess.run(sys.argv[2:], check=True, stdout=subprocess.PIPE).stdout.decode().splitlines():
        timed = re.fullmatch(r'(.*): (\d+) us', line)
        if timed:
            times.setdefault((graph, timed[1], workers), []).append(int(timed[2]))
        workers = line if line.startswith('workers') else ''
        if line.endswith(':'):
            graph = line
last = ''
for (graph, what, workers), all_times in times.items():
    if graph != last:
        print(graph)
        last = graph
    all_times.sort()
    print('  %-40s least %5d us, middle %5d us' % (what + (', ' + workers if workers else ''), all_times[0], all_times[len(all_times) // 2]))
PY
}
echo "graphs of 1,000 nodes, each in 40 runs:"
run_often 40 made
for log in bipaths_40 bipaths_41 choices_400 one_session_400 operations_400 choices_1000 one_session_1000 in_time_1000 beside_1000 reads_1000 operations_1000; do
    echo "$log:"
    run log "$folder/$log.log"
done
