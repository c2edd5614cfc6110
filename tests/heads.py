#!/usr/bin/env python3
"""heads.py: the head of each crate names who calls it, as crates.txt and the sources have it.

A head says so in a paragraph that begins with `Called`, `Cited` or `Named`, and each crate has one, but for programs, tests and benches. Each crate that this paragraph names must stand on the crate in
crates.txt; one that the first sentence has behind `Called by` must name it in its code, and not in proofs alone. Each crate that calls a
function of it must be named there, but for tests and benches; unless the paragraph speaks of a group, as `the crates that tell` or `the
commands`. The program `cobra_poly` stands for the crates of its calls too. Last line: 'heads: N passed, M failed'."""
import glob, os, re, sys

TOP = os.path.dirname(os.path.dirname(os.path.abspath(__file__)))
ASIDE = re.compile(r'.*_(tests|bench)|whole_way')
# What makes the calls of the program.
CALLS = {'cobra_poly': ('cobra_calls', 'cobra_program')}
GROUP = re.compile(r'\b(wherever|crates|every crate|commands|no command|whoever)\b')


def text_of(path):
    with open(path, encoding='utf-8') as file:
        return file.read()


def standing_on():
    """The crates of crates.txt, each with those that it stands on."""
    lines = [line.partition(':') for line in text_of(os.path.join(TOP, 'crates.txt')).splitlines() if ':' in line and line[0] != '#']
    return {head.split()[0]: below.split() for head, _, below in lines}


def used(crate, below):
    """Of the crates that this one stands on those that its code names, each with what is taken of it."""
    code = '\n'.join(map(text_of, glob.glob(os.path.join(TOP, 'crates', crate, 'src', '**', '*.rt'), recursive=True)))
    code = re.sub(r'//.*', '', re.sub(r'ghost use [^;]*;', '', code))
    found = {}
    for name, several, one in re.findall(r'(?<![\w:])(\w+)::(?:\{([^}]*)\}|(\w+))', code):
        if name in below:
            found.setdefault(name, set()).update(word.split('::')[0].split()[0] for word in (several or one).split(',') if word.strip())
    return found


def paragraph(crate):
    """What the head says of who calls it: the sentences up to what it does not know."""
    path = os.path.join(TOP, 'crates', crate, 'src', 'lib.rt')
    head = re.match(r'(//!.*\n)*', text_of(path))[0] if os.path.exists(path) else ''
    for part in re.sub(r'(?m)^//! ?', '', head).split('\n\n'):
        said = ' '.join(part.split())
        if re.match('(Called|Cited|Named) (by|wherever) ', said):
            return re.split(r'(?<=\.) It ', said)[0]
    return None


def faults(crate, stands, uses):
    """What is wrong with the head of a crate."""
    said = paragraph(crate)
    if said is None:
        if not ASIDE.fullmatch(crate) and os.path.exists(os.path.join(TOP, 'crates', crate, 'src', 'lib.rt')):
            yield 'it says not who calls it'
        return
    named = [name for name in re.findall(r'`(\w+)`', said) if name in stands]
    named += [call for name, calls in CALLS.items() if name in named for call in calls if crate in stands.get(call, ()) and call not in named]
    first = re.split('[;.]| and cited by ', said)[0]
    for name in named:
        if any(call in named for call in CALLS.get(name, ())):
            continue
        if crate not in stands[name]:
            yield '%s is named, and does not stand on it' % name
        elif first.startswith('Called') and '`%s`' % name in first and crate not in uses[name]:
            yield '%s is named as a caller, and does not call it' % name
    for name, taken in uses.items():
        calls = any(word[0].islower() for word in taken.get(crate, ()))
        if calls and name not in named and not ASIDE.fullmatch(name) and not GROUP.search(said):
            yield '%s calls it, and is not named' % name


def main():
    if sys.argv[1:]:
        print(__doc__)
        return 0 if sys.argv[1:] == ['--help'] else 2
    stands = standing_on()
    uses, failed = {crate: used(crate, below) for crate, below in stands.items()}, 0
    for crate in stands:
        wrong = list(faults(crate, stands, uses))
        failed += bool(wrong)
        for fault in wrong:
            print('FAILED the head of %s: %s' % (crate, fault))
    print('heads: %d passed, %d failed' % (len(stands) - failed, failed))
    return 1 if failed else 0


if __name__ == '__main__':
    sys.exit(main())
