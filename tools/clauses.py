#!/usr/bin/env python3
"""clauses.py OLD NEW CRATE ..: compares the public functions of crates, with what they require and ensure, in two trees of this repository.

OLD and NEW are folders, as a clone of an earlier commit and this one. Each function that is gone (`-`), new (`+`) or has other words is
printed; so a change that makes a crate smaller shows that its contracts stay. Definitions in specs/ are not compared. Last line: how many
functions are equal, and how many are not; the status is 1 if some are not."""
import argparse
import os
import re
import sys

HEAD = re.compile(r'\s*pub (?:const )?fn (\w+)')
LONGEST = 80


def contract(lines, at):
    """The words of a function from its first line to its body."""
    words = []
    for line in lines[at:at + LONGEST]:
        words.append(line.strip())
        if line.strip() in ('{', '{}') or line.rstrip().endswith(') {') or line.rstrip().endswith('> {'):
            break
    return ' '.join(' '.join(words).split()).strip(' {}')


def functions(tree, crate):
    """The public functions of a crate by their names, behind the head of the `impl` in which they stand; those of one name together."""
    found = {}
    for folder, _, files in os.walk(os.path.join(tree, 'crates', crate, 'src')):
        for name in sorted(files):
            with open(os.path.join(folder, name), encoding='utf-8') as file:
                lines, inside = file.read().split('\n'), ''
            for at, line in enumerate(lines):
                if re.match(r'(impl|trait|pub trait)\b', line):
                    inside = line.strip(' {') + ': '
                elif line.startswith('}'):
                    inside = ''
                if head := HEAD.match(line):
                    found.setdefault(inside + head[1], []).append(contract(lines, at))
    return {name: '; '.join(sorted(its)) for name, its in found.items()}


def main():
    words = argparse.ArgumentParser(description=__doc__, formatter_class=argparse.RawDescriptionHelpFormatter)
    words.add_argument('old', metavar='OLD', help='the one tree')
    words.add_argument('new', metavar='NEW', help='the other tree')
    words.add_argument('crates', metavar='CRATE', nargs='+', help='a crate of both')
    words = words.parse_args()
    equal = other = 0
    for crate in words.crates:
        old, new = functions(words.old, crate), functions(words.new, crate)
        for name in sorted(set(old) | set(new)):
            if old.get(name) == new.get(name):
                equal += 1
                continue
            other += 1
            print('%s: %s' % (crate, name))
            print(''.join('  %s %s\n' % it for it in (('-', old.get(name)), ('+', new.get(name))) if it[1]), end='')
    print('clauses: %d equal, %d not' % (equal, other))
    return 1 if other else 0


if __name__ == '__main__':
    sys.exit(main())
