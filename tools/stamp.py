#!/usr/bin/env python3
"""stamp.py PROGRAM proved|unproved: writes into a built program the commit that it was built from, and whether it was proved.

`--version` then tells both. They stand in the place of `(commit unknown, not stamped)`, or of an older stamp, in as many bytes; where that
text does not stand in the file exactly once, or `--version` prints another one behind it, the stamp is refused, and the program stays as it
was. The commit is that of the repository around this script. Where something is changed or new that the program is built from, a `+`
stands behind it."""
import os, re, subprocess, sys

TOP = os.path.dirname(os.path.dirname(os.path.abspath(__file__)))
SOURCES = ('crates', 'crates.txt', 'HANDLES')
STAMP = re.compile(rb'(?<=\(commit )[^()\0]{20}(?=\))')
WIDTH = 20
# Where no commit is known: words of the width that the others have.
UNKNOWN = {'proved': 'is not known', 'unproved': 'is unknown'}


def git(*words):
    """What git says of this repository, or nothing where there is none, or no git."""
    try:
        ran = subprocess.run(['git', '-C', TOP, *words], stdin=subprocess.DEVNULL, stdout=subprocess.PIPE, stderr=subprocess.DEVNULL)
    except OSError:
        return None
    return None if ran.returncode else ran.stdout.decode(errors='replace').rstrip('\n')


def commit(width):
    """The commit of the sources in this many characters, or nothing where it is not known."""
    inside, head, changed = git('rev-parse', '--show-toplevel'), git('rev-parse', 'HEAD'), git('status', '--porcelain', '--', *SOURCES)
    if inside is None or os.path.realpath(inside) != os.path.realpath(TOP) or head is None or changed is None:
        return None
    return head[:width - 1] + '+' if changed else head[:width]


def text_of(state):
    """What is to stand behind `commit`."""
    return '%s, %s' % (commit(WIDTH - len(', ' + state)) or UNKNOWN[state], state)


def version(program):
    try:
        ran = subprocess.run([program, '--version'], stdin=subprocess.DEVNULL, stdout=subprocess.PIPE, stderr=subprocess.STDOUT)
    except OSError as error:
        return str(error).encode()
    return ran.stdout


def write(program, place, text):
    with open(program, 'r+b') as file:
        file.seek(place)
        file.write(text)


def stamp(program, state):
    """Writes the stamp into a program, and returns why it is refused, or nothing."""
    with open(program, 'rb') as file:
        found = list(STAMP.finditer(file.read()))
    if len(found) != 1:
        return 'the place for the commit stands %d times in %s, and not once' % (len(found), program)
    text = text_of(state).encode()
    write(program, found[0].start(), text)
    told = version(program)
    if told.endswith(b' (commit %s)\n' % text):
        return None
    write(program, found[0].start(), found[0][0])
    return '%s does not tell its stamp: %r' % (program, told)


def main():
    if len(sys.argv) != 3 or sys.argv[2] not in UNKNOWN:
        print(__doc__)
        return 0 if '--help' in sys.argv else 2
    refused = stamp(*sys.argv[1:])
    if refused:
        print('stamp.py: ' + refused, file=sys.stderr)
    return 1 if refused else 0


if __name__ == '__main__':
    sys.exit(main())
