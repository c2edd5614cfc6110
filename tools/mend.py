#!/usr/bin/env python3
"""mend.py LOG [-o OUT]: makes a log of one that was cut off, as a run leaves it that was killed.

LOG is such a log, or the folder that a recorder left which was not closed: beside its log, or of rounds the one of the last round. What
cannot be read is left out, a transaction without an end is unknown, and an identity that was read and that nobody wrote is written by a new
transaction of unknown outcome: nobody knows who wrote it, and a store that did nothing wrong is not refused for it. It prints what it did.
OUT is LOG with `.mended.log` in the place of `.log` or `.part`, or behind it, where it is not said. For `audit` the mended log is a log.

Statuses: 0, the log was written; 65, it cannot be mended; 70, a file cannot be read or written, or may not be replaced."""
import argparse, os, re, sys

sys.path.insert(0, os.path.join(os.path.dirname(os.path.dirname(os.path.realpath(__file__))), 'collect'))
import join


def main():
    about, _, more = __doc__.partition('\n')
    parser = argparse.ArgumentParser(description=about.partition(': ')[2] + '\n' + more,
                                     formatter_class=argparse.RawDescriptionHelpFormatter)
    parser.add_argument('log', metavar='LOG', help='the log, or the folder of a recorder')
    parser.add_argument('-o', dest='out', metavar='OUT', help='the mended log')
    parser.add_argument('--overwrite', action='store_true', help='replace OUT where it is there already')
    given = parser.parse_args()
    out = given.out or re.sub(r'(\.log|\.part)?/*\Z', '', given.log) + '.mended.log'
    try:
        for line in join.joined(argparse.Namespace(logs=[given.log], out=out, slack=0, died=True, overwrite=given.overwrite)):
            print('%s: %s' % (out, line))
    except (join.Stop, OSError) as fault:
        print('%s: %s' % (os.path.basename(sys.argv[0]), fault), file=sys.stderr)
        return getattr(fault, 'status', join.AROUND)
    return 0


if __name__ == '__main__':
    sys.exit(main())
