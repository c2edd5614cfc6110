#!/usr/bin/env python3
"""refute.py PROGRAM: how long `refute` takes to check cadical's proofs, beside cadical and `encode`.

Of each log the transactions of a few keys ran in some order, and eight more of two other keys have none: two writers of each, and a reader
of each pair of writes. A line for each log and each form of the formula: its clauses, the bytes of the proof, and the best of three times
(processor seconds) and the greatest memory of cadical, of `refute` and of `encode`. Needs cadical."""
import os, subprocess, sys, tempfile

from make_noise import noisy_log

LOGS = ((80, 12, []), (120, 20, []), (160, 30, []), (200, 30, []), (220, 60, []), (90, 8, ['--plain']))


def timed(*words):
    """The best time of three, and the most memory in MiB."""
    times = []
    for _ in range(3):
        ran = subprocess.Popen(words, stdin=subprocess.DEVNULL, stdout=subprocess.DEVNULL)
        used = os.wait4(ran.pid, 0)[2]
        times.append((used.ru_utime + used.ru_stime, used.ru_maxrss // 1024))
    return '%.2f s %d MiB' % (min(times)[0], max(memory for _, memory in times))


def main():
    if len(sys.argv) != 2 or sys.argv[1].startswith('-'):
        print(__doc__)
        sys.exit(0 if sys.argv[1:] in (['--help'], ['-h']) else 2)
    program = os.path.abspath(sys.argv[1])
    with tempfile.TemporaryDirectory() as folder:
        log, formula, proof = (os.path.join(folder, name) for name in ('log', 'formula', 'proof'))
        for count, keys, plain in LOGS:
            with open(log, 'w') as out:
                out.write(noisy_log(count, keys))
            with open(formula, 'wb') as out:
                subprocess.run([program, 'encode', *plain, log], stdout=out, check=True)
            with open(formula) as text:
                clauses = int(text.readline().split()[3])
            solved = timed('cadical', '-q', formula, proof)
            checked = subprocess.run([program, 'refute', *plain, '--proof', proof, log], stdout=subprocess.PIPE).stdout.decode().strip()
            print('%d clauses%s: cadical %s, proof %d bytes; refute %s; encode %s; %s' % (
                clauses, ', plain' if plain else '', solved, os.path.getsize(proof), timed(program, 'refute', *plain, '--proof', proof, log),
                timed(program, 'encode', *plain, log), checked), flush=True)


if __name__ == '__main__':
    main()
