#!/usr/bin/env python3
"""levels.py PROGRAM [--transactions N]: how long `audit --quiet --only --level` takes at the levels below prefix, beside serializable.

A line for each call, as bench/audit.py has it, of one log of bench/long_log.py; then how many times as long as serializable each level took."""
import argparse, os, sys, tempfile

HERE = os.path.dirname(os.path.abspath(__file__))
sys.path.insert(0, HERE)
import audit

LEVELS = 'serializable', 'causal', 'read-atomic', 'monotonic-atomic-view', 'read-committed'


def main():
    words = argparse.ArgumentParser(description=__doc__, formatter_class=argparse.RawDescriptionHelpFormatter)
    words.add_argument('program')
    words.add_argument('--transactions', type=int, default=1000000, help='of the log (1000000)')
    words.add_argument('--times', type=int, default=3, help='how often each call is made (3)')
    words = words.parse_args()
    with tempfile.TemporaryDirectory() as folder:
        log = audit.made(folder, 'log', words.transactions)
        took = {level: audit.measured(words.program, words.times, level, log, 'audit', '--quiet', '--only', '--level', level) for level in LEVELS}
    for level in LEVELS[1:]:
        print('%s by serializable: %.2f' % (level, took[level] / took['serializable']))


if __name__ == '__main__':
    main()
