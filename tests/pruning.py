#!/usr/bin/env python3
"""pruning.py GRAPHS [--version-1]: what pruning keeps of small logs, with 1, 2 and 16 workers, is what the definition says.

GRAPHS is the program of crates/graph_bench. For each of a few thousand made logs without an anomaly, of all versions or with --version-1
of the first alone, the kept sides must be the forced set, as a plain, slow program finds it, and a polygraph is told to be dead exactly
where its forced edges have a cycle. Last line: 'pruning: N passed, M failed'."""
import concurrent.futures, os, subprocess, sys, tempfile

HERE = os.path.dirname(os.path.abspath(__file__))
sys.path.insert(0, HERE)
import generate, reference

MADE = {1: 4000, 2: 2000, 3: 3000}


def wanted(text):
    history = reference.History(reference.read_log(text))
    if history.anomaly():
        return None
    if any(history.closes(key) for key in history.keys):
        return ['not pruned']
    outcome, forced = history.pruning()
    if outcome == 'dead':
        return ['dead']
    choices = history.chain_polygraph()[1]
    left = len(choices) - len({c for c, _ in forced})
    return sorted('kept %d %d' % side for side in forced) + ['open %d' % left]


def judged(program, folder, seed, version):
    text = generate.small_log(seed, version)
    right = wanted(text)
    if right is None:
        return None, ''
    path = os.path.join(folder, '%d %d' % (seed, version))
    with open(path, 'wb') as log:
        log.write(text)
    ran = subprocess.run([program, 'prune', path], stdin=subprocess.DEVNULL, stdout=subprocess.PIPE, timeout=60)
    os.remove(path)
    parts, got = [], []
    for line in ran.stdout.decode().split('\n')[:-1]:
        if line.startswith('workers'):
            parts.append([])
        else:
            parts[-1].append(line)
    holds = ran.returncode == 0 and [sorted(part[:-1]) + part[-1:] for part in parts] == [right] * 3
    return holds, 'made log %d, version %d: %r, wanted %r' % (seed, version, parts, right)


def main():
    if '--help' in sys.argv:
        return print(__doc__)
    program = os.path.abspath(sys.argv[1])
    passed, failed, kept = 0, 0, 0
    logs = [(seed, version) for version in generate.versions(sys.argv) for seed in range(MADE[version])]
    with tempfile.TemporaryDirectory() as folder, concurrent.futures.ThreadPoolExecutor() as pool:
        for holds, what in pool.map(lambda log: judged(program, folder, *log), logs):
            if holds is None:
                continue
            if holds:
                passed += 1
                kept += 'kept' in what
            else:
                failed += 1
                print('FAILED', what)
    print('pruning: %d of these keep some side' % kept)
    print('pruning: %d passed, %d failed' % (passed, failed))
    sys.exit(1 if failed or not kept else 0)


main()
