#!/usr/bin/env python3
"""promises.py: each call that docs/PROMISES.md cites stands in its crate, and each must-fail edit in a crate that the page cites.

A call is cited as `crate::call`, `crate::module::call` or `crate::{call, call}`, a crate of laws by its name. Each edit has the form that `rt`
reads, and its old texts stand in their files once. Last line: 'promises: N passed, M failed'."""
import glob, os, re, sys

TOP = os.path.dirname(os.path.dirname(os.path.abspath(__file__)))
PAGE = os.path.join(TOP, 'docs', 'PROMISES.md')
CITED = re.compile(r'`(\w+)((?:::\w+)*)(?:::\{([\w, ]+)\})?`')


def edits():
    """The crate and the file of each edit, in the gate and beside it."""
    for path in sorted(glob.glob(os.path.join(TOP, 'crates', '*', 'must-fail', '*.edit')) + glob.glob(os.path.join(TOP, 'edits', '*', '*.edit'))):
        place = os.path.relpath(path, TOP)
        yield place.split(os.sep)[1], place


def cited(page):
    """The crate of each citation, and what is cited of it."""
    for line in page.splitlines():
        cells = line.split(' | ')
        if line.startswith('| ') and len(cells) == 2 and not line.startswith('| Promise'):
            for crate, way, names in CITED.findall(cells[1]):
                yield crate, names.split(', ') if names else way.split('::')[-1:]


def stands(crate, name):
    """Whether a crate has what is cited of it: a function, a type or a module."""
    sources = glob.glob(os.path.join(TOP, 'crates', crate, 'src', '**', '*.rt'), recursive=True)
    item = re.compile(r'\b(?:fn|struct|enum|trait|mod|type) %s\b' % name)
    return bool(sources) and (not name or any(item.search(open(path, encoding='utf-8').read()) for path in sources))


def whole(path, crate):
    """Whether an edit's old texts stand once in their files."""
    file = ''
    with open(os.path.join(TOP, path), encoding='utf-8') as lines:
        texts = {}
        for line in lines.read().split('\n'):
            if line.startswith('file: '):
                file = os.path.join(TOP, 'crates', crate, line[len('file: '):].strip())
            elif line.startswith('old: '):
                old = line[len('old: '):]
                if file not in texts:
                    with open(file, encoding='utf-8') as text:
                        texts[file] = text.read()
                if texts[file].count(old) != 1:
                    return False
            elif line.startswith('new:'):
                texts[file] = texts[file].replace(old, re.sub('^ ', '', line[len('new:'):]))
    return bool(texts)


def main():
    if sys.argv[1:]:
        print(__doc__)
        return 0 if sys.argv[1:] == ['--help'] else 2
    with open(PAGE, encoding='utf-8') as file:
        calls = list(cited(file.read()))
    crates, passed, wrong = {crate for crate, _ in calls}, 0, []
    for crate, names in calls:
        passed += len(names)
        wrong += ['%s::%s is cited, and does not stand there' % (crate, name) for name in names if not stands(crate, name)]
    for crate, path in edits():
        passed += 1
        if crate not in crates:
            wrong.append('%s: no promise cites the crate %s' % (path, crate))
        elif not whole(path, crate):
            wrong.append('%s: an old text does not stand once in its file' % path)
    for it in wrong:
        print('FAILED ' + it)
    print('promises: %d passed, %d failed' % (passed - len(wrong), len(wrong)))
    return 1 if wrong else 0


if __name__ == '__main__':
    sys.exit(main())
