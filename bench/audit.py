#!/usr/bin/env python3
"""audit.py PROGRAM [--transactions N] [--table]: how long `audit` takes, by workers and by the length of the log, and beside `check`.

A line for each call: the log, its bytes, the workers, the best of so many seconds by the clock and of the processors, the most memory in MiB,
and the first line that was said. Then the ratios: four workers by one, ten times the log, and a log that `check` takes by both commands.
With --table instead a table, as docs/BENCHMARKS.md has them: logs of 1,000, 10,000, 100,000 transactions and more, up to N, with
and without their moments, by 1 and 4 workers."""
import argparse, os, subprocess, sys, tempfile, time

HERE = os.path.dirname(os.path.abspath(__file__))


def made(folder, name, count, *words):
    """A made log of so many transactions."""
    path = os.path.join(folder, name + '.log')
    subprocess.run([sys.executable, os.path.join(HERE, 'long_log.py'), path, '--transactions', str(count), *words], check=True)
    return path


def best_of(program, times, log, *words):
    """The best seconds by the clock and of the processors of so many calls, the most memory in MiB, and the first line that was said."""
    best, used, peak, said = None, None, 0, ''
    for _ in range(times):
        start = time.time()
        ran = subprocess.Popen([program, *words, log], stdin=subprocess.DEVNULL, stdout=subprocess.PIPE, stderr=subprocess.DEVNULL)
        said = ran.stdout.read().decode().partition('\n')[0]
        usage = os.wait4(ran.pid, 0)[2]
        took = time.time() - start
        best = took if best is None else min(best, took)
        spent = usage.ru_utime + usage.ru_stime
        used, peak = spent if used is None else min(used, spent), max(peak, usage.ru_maxrss // 1024)
    return best, used, peak, said


def measured(program, times, name, log, *words):
    """The best seconds by the clock of so many calls, which are printed."""
    best, used, peak, said = best_of(program, times, log, *words)
    print('%-14s %9.1f MB  %-42s %8.3f s  %8.3f s of processors  %5d MiB  %s'
          % (name, os.path.getsize(log) / 1e6, ' '.join(words), best, used, peak, said), flush=True)
    return best


def table(program, times, most):
    """Prints a table of time and memory, by the length of the log and by workers."""
    print('| Transactions | MB | Moments | Workers | Seconds | Of processors | MiB | Answer |\n|---|---|---|---|---|---|---|---|')
    for count in [10 ** n for n in range(3, 9) if 10 ** n <= most]:
        with tempfile.TemporaryDirectory() as folder:
            log = made(folder, 'log', count)
            for moments, words in ('yes', []), ('no', ['--no-moments']):
                for workers in '1', '4':
                    best, used, peak, said = best_of(program, times, log, 'audit', *words, '--workers', workers)
                    print('| {:,} | {:.1f} | {} | {} | {:.3f} | {:.3f} | {} | `{}` |'.format(
                        count, os.path.getsize(log) / 1e6, moments, workers, best, used, peak, said), flush=True)


def main():
    words = argparse.ArgumentParser(description=__doc__, formatter_class=argparse.RawDescriptionHelpFormatter)
    words.add_argument('program')
    words.add_argument('--transactions', type=int, default=1000000, help='of the longest log (1000000)')
    words.add_argument('--times', type=int, default=3, help='how often each call is made (3)')
    words.add_argument('--table', action='store_true', help='a table by length and workers instead')
    words = words.parse_args()
    whole, program, times = words.transactions, words.program, words.times
    if words.table:
        return table(program, times, whole)
    with tempfile.TemporaryDirectory() as folder:
        tenth = made(folder, 'tenth', whole // 10)
        longest = made(folder, 'whole', whole)
        faulty = made(folder, 'faulty', whole // 10, '--fault')
        small = made(folder, 'small', 1000)
        refused = os.path.join(folder, 'refused.log')
        with open(longest, 'rb') as log, open(refused, 'wb') as out:
            out.write(log.read()[:-1])
        one_tenth = measured(program, times, 'tenth', tenth, 'audit', '--workers', '1')
        one = measured(program, times, 'whole', longest, 'audit', '--workers', '1')
        four = measured(program, times, 'whole', longest, 'audit', '--workers', '4')
        measured(program, times, 'tenth, a fault', faulty, 'audit', '--workers', '4')
        cut = measured(program, times, 'refused', refused, 'audit', '--workers', '4')
        whole_small = measured(program, 3 * times, 'small', small, 'audit', '--workers', '1')
        checked = measured(program, 3 * times, 'small', small, 'check', '--strategy', 'forced', '--workers', '1')
        print('four workers by one: %.2f; ten times the log: %.1f; audit by check: %.2f; a refused log: %.0f MB a second'
              % (four / one, one / one_tenth, whole_small / checked, os.path.getsize(refused) / 1e6 / cut))


if __name__ == '__main__':
    main()
