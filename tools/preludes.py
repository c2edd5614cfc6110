#!/usr/bin/env python3
"""preludes.py [--least N] KIT [CRATE ..]: what the proofs of a crate name of other modules goes into its proofs/Prelude.antt, so that each file
names it in one line. KIT is the folder of the toolchain. Where that saves fewer than N lines a crate stays as it is. A prelude that stands is made
anew. The meaning of no file changes: a name that two modules give different things stays with its module in all files but those of the one that
most files mean. Last line: how many lines went."""
import argparse, collections, functools, glob, os, re, sys

TOP = os.path.dirname(os.path.dirname(os.path.abspath(__file__)))
HEAD = '-- What the proofs of this crate name of other modules.\n'
WIDTH = 240
USE, PASSED = re.compile(r'use (Rattle[A-Za-z_.0-9]*)\.\{(.*)\}'), re.compile(r'(unfoldable )?pub use ([A-Za-z_.0-9]+)\.\{(.*)\}')
UNFOLDS = re.compile(r'^ *unfolding (.+)$|\bunfold (.+?) in\b', re.M)


def listed(text):
    return [it for it in re.split(', *', text.strip()) if it]


def parted(module, name):
    """A module and a name, of which the name may begin with modules below that."""
    path, name = re.fullmatch(r'((?:[A-Za-z_0-9]+\.)*)(.*)', name).groups()
    return '.'.join(filter(None, [module, path.rstrip('.')])), name


def bare(name):
    """The name that a module gives, of `a as b`."""
    return name.partition(' as ')[0]


def lines_of(path):
    with open(path, encoding='utf-8') as file:
        return file.read().split('\n')


def uses(words, module, names):
    """Lines that take these names of a module, none wider than WIDTH."""
    lines, row = [], []
    for name in names:
        if row and len('%s %s.{%s}' % (words, module, ', '.join(row + [name]))) > WIDTH:
            lines, row = lines + ['%s %s.{%s}' % (words, module, ', '.join(row))], []
        row.append(name)
    return lines + ['%s %s.{%s}' % (words, module, ', '.join(row))] * bool(row)


class Modules:
    """Which module a name comes from in the end: others pass it on."""

    def __init__(self, kit):
        self.rooms = [os.path.join(TOP, 'crates'), os.path.join(kit, 'rattle'), os.path.join(kit, 'rattle', '*')]

    @functools.lru_cache(None)
    def passed_on(self, module):
        _, *below = module.split('.')
        found = [path for room in self.rooms for path in glob.glob(os.path.join(room, *below) + '.antt')]
        rows = [PASSED.fullmatch(line) for line in lines_of(found[0])] if found else []
        pairs = [(it.rpartition(' as ')[2], (row[2], bare(it))) for row in rows if row for it in listed(row[3])]
        return dict(pairs)

    @functools.lru_cache(None)
    def origin(self, module, name):
        to = self.passed_on(module).get(name)
        return self.origin(*to) if to else (module, name)


class Proofs:
    """The files of a crate's proofs, as lines, with what each takes of other libraries: by line, a module and names."""

    def __init__(self, crate):
        self.root = os.path.join(TOP, 'crates', crate, 'proofs')
        self.own, self.prelude = 'Rattle.%s.proofs' % crate, os.path.join(self.root, 'Prelude.antt')
        before = {}
        self.old = lines_of(self.prelude) if os.path.exists(self.prelude) else []
        for row in filter(None, map(PASSED.fullmatch, self.old)):
            before.update((it, row[2]) for it in listed(row[3]))
        paths = sorted(glob.glob(os.path.join(self.root, '**', '*.antt'), recursive=True))
        self.files = {path: lines_of(path) for path in paths if os.path.basename(path) not in ('Lib.antt', 'Prelude.antt')}
        self.taken, self.unfolded = {}, set()
        for path, lines in self.files.items():
            rows = [(place, USE.fullmatch(line)) for place, line in enumerate(lines)]
            rows = [(place, row[1], listed(row[2])) for place, row in rows if row and (row[1] == self.own + '.Prelude' or not row[1].startswith(self.own))]
            rows = [(place, *parted(module, name)) for place, module, names in rows for name in names]
            self.taken[path] = [(place, before.get(bare(name), module), name) for place, module, name in rows]
            self.unfolded.update(name for them in UNFOLDS.findall('\n'.join(lines)) for name in ' '.join(them).split())

    def homes(self, modules):
        """Of each name the module that the prelude takes it of, and all that give the same; of modules that two files take something of."""
        counts, users = collections.defaultdict(collections.Counter), collections.defaultdict(set)
        for path, rows in self.taken.items():
            for _, module, name in rows:
                counts[bare(name)][module] += 1
                users[module].add(path)
        found = {}
        for name, by in counts.items():
            same = collections.defaultdict(collections.Counter)
            for module, count in by.items():
                # who takes a name of who passes it on may not unfold it
                same[module if name in self.unfolded else modules.origin(module, name)][module] += count
            best = max(same.values(), key=lambda it: (sum(it.values()), sorted(it)))
            home = max(sorted(best), key=best.get)
            if len(users[home]) > 1:
                found[name] = home, set(best)
        return found

    def changed(self, homes):
        """The files with one name for what the prelude has, and the prelude."""
        texts = {}
        for path, rows in self.taken.items():
            mine = [(place, name) for place, module, name in rows if module in homes.get(bare(name), (None, ()))[1]]
            left = collections.defaultdict(lambda: collections.defaultdict(list))
            for place, module, name in rows:
                if (place, name) not in mine:
                    left[place][module].append(name)
            first, places = min((place for place, _ in mine), default=None), {place for place, _, _ in rows}
            texts[path] = []
            for place, line in enumerate(self.files[path]):
                if place == first:
                    texts[path] += uses('use', self.own + '.Prelude', list(dict.fromkeys(name for _, name in mine)))
                texts[path] += [it for module, names in left[place].items() for it in uses('use', module, names)] if place in places else [line]
        by_home = collections.defaultdict(list)
        for name, (home, _) in homes.items():
            by_home[home].append(name)
        rows = []
        for home in sorted(by_home):
            for words, is_open in ('pub use', False), ('unfoldable pub use', True):
                rows += uses(words, home, [name for name in by_home[home] if (name in self.unfolded) == is_open])
        return texts, HEAD + '\n'.join(rows) + '\n'

    def make(self, modules, least):
        """Makes the prelude where it saves so many lines; how many it saves."""
        texts, prelude = self.changed(self.homes(modules))
        saved = sum(len(lines) - len(texts[path]) for path, lines in self.files.items()) + len(self.old) - prelude.count('\n') - 1
        if saved < least:
            return 0
        for path, lines in texts.items():
            with open(path, 'w', encoding='utf-8') as file:
                file.write('\n'.join(lines))
        with open(self.prelude, 'w', encoding='utf-8') as file:
            file.write(prelude)
        root = os.path.join(self.root, 'Lib.antt')
        children = open(root, encoding='utf-8').read() if os.path.exists(root) else ''
        if 'mod Prelude\n' not in children:
            with open(root, 'w', encoding='utf-8') as file:
                file.write('mod Prelude\n' + children)
        return saved


def main():
    parser = argparse.ArgumentParser(description=__doc__, formatter_class=argparse.RawDescriptionHelpFormatter)
    parser.add_argument('--least', type=int, default=15, help='how many lines it must save')
    parser.add_argument('kit')
    parser.add_argument('crates', nargs='*')
    words = parser.parse_args()
    modules, total = Modules(words.kit), 0
    for crate in words.crates or sorted(os.listdir(os.path.join(TOP, 'crates'))):
        saved = Proofs(crate).make(modules, words.least) if os.path.isdir(os.path.join(TOP, 'crates', crate, 'proofs')) else 0
        if saved:
            print(crate, saved)
        total += saved
    print('lines saved:', total)
    return 0


if __name__ == '__main__':
    sys.exit(main())
