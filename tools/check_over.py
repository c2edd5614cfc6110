#!/usr/bin/env python3
"""check_over.py [--over CLONE] [--build] CRATE [WORD ..]: checks one crate over libraries that are proved already, in seconds to minutes.

`rt check` proves each library below a crate first, if the toolchain keeps nothing. This takes them as `./prove` or `rt ci` left them in
CLONE (or in this clone), but for those that `--build` proved in this clone before. With `--build` it proves the crate, and keeps its
library in out/over for the crates above. Each WORD goes to the prover, as `--only module::function`, `--allow-holes` or `--jobs 2`. It is
no verdict: a library may be older than its sources, and the gate decides."""
import os
import shutil
import subprocess
import sys

TOP = os.path.dirname(os.path.dirname(os.path.abspath(__file__)))


def stop(text):
    sys.exit('check_over: ' + text)


def standing_on():
    """The crates of crates.txt, each with those that it stands on."""
    with open(os.path.join(TOP, 'crates.txt'), encoding='utf-8') as file:
        lines = [line.partition(':') for line in file if ':' in line and line[0] != '#']
    return {head.split()[0]: below.split() for head, _, below in lines}


def all_below(crate, stands):
    found, left = [], list(stands[crate])
    while left:
        name = left.pop()
        if name not in found:
            found.append(name)
            left += stands.get(name, ())
    return sorted(found)


def library(name, stands, over, kit):
    """Where the library of this name stands."""
    if name not in stands:
        return os.path.join(kit, 'rlibs', name + '.rlib')
    for clone, room in (TOP, 'over'), (over, 'rlib'):
        path = os.path.join(clone, 'crates', name, 'out', room, name + '.rlib')
        if os.path.exists(path):
            return path
    stop('there is no library of %s: --build it, or ./prove' % name)


def words_of(crate, stands, over, kit):
    """What the prover is told of the crate and its libraries."""
    root = 'src/main.rt' if os.path.exists(os.path.join(TOP, 'crates', crate, 'src', 'main.rt')) else 'src/lib.rt'
    rlibs = os.path.join(kit, 'rlibs')
    words = ['--crate-name', crate, root, '--extern', 'std=%s/std.rlib' % rlibs, '-L', 'dependency=' + rlibs]
    for name in stands[crate]:
        words += ['--extern', '%s=%s' % (name, library(name, stands, over, kit))]
    for folder in sorted({os.path.dirname(library(name, stands, over, kit)) for name in all_below(crate, stands)}):
        words += ['-L', 'dependency=' + folder]
    words += ['--antt-project', os.path.join(kit, 'rattle', 'logic', 'antt-project.json')]
    return words + ['--logic-built', os.path.join(kit, 'logic_built'), '--links', crate + '=']


def main(words):
    over, builds = TOP, False
    while words and words[0] in ('--over', '--build', '--help'):
        word = words.pop(0)
        if word == '--help':
            print(__doc__)
            return 0
        builds = builds or word == '--build'
        if word == '--over':
            over = os.path.abspath(words.pop(0)) if words else stop('--over takes the folder of a clone')
    stands, rt = standing_on(), shutil.which('rt') or stop('there is no command rt: README.md says what is needed')
    if not words or words[0] not in stands:
        stop('name a crate of crates.txt; --help says more')
    crate, kit = words.pop(0), os.path.dirname(os.path.dirname(os.path.realpath(rt)))
    folder = os.path.join(TOP, 'crates', crate)
    call = [os.path.join(kit, 'bin', 'rattle'), 'build' if builds else 'check', *words_of(crate, stands, over, kit)]
    if builds:
        os.makedirs(os.path.join(folder, 'out', 'over'), exist_ok=True)
        call += ['--statements', '-o', 'out/over/%s.rlib' % crate]
    else:
        os.makedirs(os.path.join(folder, 'out'), exist_ok=True)
        call += ['--incremental', 'out/over_kept']
    return subprocess.run([*call, *words], cwd=folder).returncode


if __name__ == '__main__':
    sys.exit(main(sys.argv[1:]))
