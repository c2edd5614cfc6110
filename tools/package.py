#!/usr/bin/env python3
"""package.py PROGRAM KIT FOLDER: makes a Debian package and a tarball of a built program, with sums, in a folder.

Both have the program, its manual page, the scripts that need the program alone, what collects logs, the examples and the pages, as files of the
last commit, where pages speak of them alone, and PROVED, which says what was proved by which kit; KIT is that kit's version, or empty where nothing was proved or it is not
known. All moments in them are those of the commit, or of SOURCE_DATE_EPOCH, so that the same program and commit have the same bytes. ./package
calls it."""
import gzip, hashlib, io, os, re, subprocess, sys, tarfile

import stamp

TOP = os.path.dirname(os.path.dirname(os.path.abspath(__file__)))
NAME, ARCHITECTURE = 'cobra-poly', 'amd64'
# What stands beside the program, below HOME: as in the repository, so that links between pages hold.
FILES = ('README.md', 'CHANGELOG.md', 'docs', 'examples', 'collect', *('tools/' + name for name in (
    'import.py', 'lists.py', 'back.py', 'picture.py', 'picture.css', 'picture.js', 'lanes.py', 'scripts.py', 'told.py', 'follow.py', 'mend.py')))
HOME = 'share/cobra-poly'
# Of a page, what the repository alone has, and what a package has in its place; and calls and links that a package has under other names.
OF_REPOSITORY, OF_PACKAGE = re.compile(r'(?s)(?m:^)<!-- repository -->.*?<!-- end -->\n|<!-- repository -->.*?<!-- end -->'), re.compile(r'<!-- package: (.*?) -->', re.S)
CALLED, LINKED = re.compile(r'\./run (?=[a-z-])'), re.compile(r'\[([^]]*)\]\(([^)#:]+)(#[^)]*)?\)')
COMMANDS = {'cobra_poly-import': 'tools/import.py', 'cobra_poly-picture': 'tools/picture.py', 'cobra_poly-told': 'tools/told.py',
            'cobra_poly-follow': 'tools/follow.py', 'cobra_poly-mend': 'tools/mend.py', 'cobra_poly-join': 'collect/join.py'}
CONTROL = '''Package: %(name)s
Version: %(version)s
Architecture: %(architecture)s
Maintainer: nobody <nobody@localhost>
Installed-Size: %(size)d
Depends: libc6 (>= %(libc)s)
Recommends: python3 (>= 3.8)
Section: devel
Priority: optional
Description: judges logs of transactional stores for serializability
 The program says whether some serial order explains what the clients of a
 store saw, and why where there is none. PROVED, beside the pages in
 /usr/share/cobra-poly, says what of it was proved.
'''
# What Python left beside the scripts when they ran goes with them.
PRERM = '#!/bin/sh\nfind "${DPKG_ROOT:-}/usr/%s" -name __pycache__ -prune -exec rm -rf {} +\n' % HOME
PROVED = '''%(version)s

sha256 of bin/cobra_poly: %(sum)s
commit of this package's files: %(commit)s
%(what)s
The scripts in this package, those that collect, import, join and draw logs, are not proved.
'''
BY_KIT = '''kit that proved it: %(kit)s

Proved was the program, from the bytes of its input to the bytes of its answer, as docs/PROMISES.md says, by the proofs of these crates:
%(crates)s
Trusted are that kit (prover, compilers, and the statements of its own crates), LLVM, and the C library. To see it again: take the sources of
the program's commit and that kit, and run ./prove, which ends well only where every proof holds.%(changed)s
'''
BY_NONE = '''
Nothing says that this program was proved: it may have been built without proofs, or by other means than ./prove.
'''


class Stop(Exception):
    """Ends the script with these words."""


def said(*words):
    """What a command says, or nothing where it is not there or fails."""
    try:
        ran = subprocess.run(words, cwd=TOP, stdin=subprocess.DEVNULL, stdout=subprocess.PIPE, stderr=subprocess.DEVNULL)
    except OSError:
        return None
    return None if ran.returncode else ran.stdout.decode().rstrip('\n')


def moment():
    """The seconds that all files are said to be of."""
    text = os.environ.get('SOURCE_DATE_EPOCH') or stamp.git('log', '-1', '--format=%ct')
    if not text or not text.isdigit():
        raise Stop('there is no commit here, and no SOURCE_DATE_EPOCH: when the files are of is not known')
    return int(text)


def commit():
    head, changed = stamp.git('rev-parse', 'HEAD'), stamp.git('status', '--porcelain', '--', *FILES)
    return 'not known' if head is None else head + ', and files that were changed since' * bool(changed)


def crates_of_program():
    """The crates that the program stands on, and its own."""
    with open(os.path.join(TOP, 'crates.txt')) as listed:
        lines = [line.split('#')[0].partition(':') for line in listed]
    below = {first.split()[0]: rest.split() for first, _, rest in lines if first.strip()}
    found, waiting = set(), ['cobra_poly']
    while waiting:
        name = waiting.pop()
        if name in below and name not in found:
            found.add(name)
            waiting += below[name]
    return sorted(found)


def lines_of(words, width=120):
    lines = ['']
    for word in words:
        if len(lines[-1]) + len(word) > width:
            lines.append('')
        lines[-1] += ' ' + word
    return '\n'.join(lines)


def names():
    """The files of FILES that git knows; where there is no repository, all of them."""
    listed = stamp.git('ls-files', '--', *FILES)
    if listed:
        return listed.split('\n')
    walked = [os.path.relpath(os.path.join(at, name), TOP) for it in FILES for at, _, its in os.walk(os.path.join(TOP, it))
              for name in its if '__pycache__' not in at]
    return walked + [it for it in FILES if os.path.isfile(os.path.join(TOP, it))]


def of_package(page, at, known):
    """A page in this folder, for who has a package alone: no call of what the repository has, and links to files that are known."""
    page = CALLED.sub('cobra_poly ', OF_PACKAGE.sub(r'\1', OF_REPOSITORY.sub('', page)))
    for name, leads in COMMANDS.items():
        page = page.replace(leads, name)
        page = re.sub(r'(?<![\w./-])' + re.escape(os.path.basename(leads)), name, page)
    return LINKED.sub(lambda link: link[0] if os.path.normpath(os.path.join(at, link[2])) in known else link[1], re.sub('\n{3,}', '\n\n', page))


def content(path):
    with open(path, 'rb') as file:
        return file.read()


class Tree:
    """What is installed below /usr, or below the tarball's folder: for each path its bytes and its mode, or where a link leads."""

    def __init__(self, program, version, kit):
        binary = content(program)
        self.files = {'bin/cobra_poly': (binary, 0o755)}
        page = content(os.path.join(TOP, 'docs', 'cobra_poly.1'))
        self.files['share/man/man1/cobra_poly.1.gz'] = (gzip.compress(page, mtime=0), 0o644)
        known = {*names(), 'PROVED'}
        for name in names():
            path = os.path.join(TOP, name)
            data = content(path)
            if name.endswith('.md') and name != 'CHANGELOG.md':
                data = of_package(data.decode(), os.path.dirname(name), known).encode()
            self.files[HOME + '/' + name] = (data, 0o755 if os.access(path, os.X_OK) else 0o644)
        is_proved = version.endswith(', proved)') and kit
        changed = '\nThese were not the sources of that commit alone: the + says that some were changed since.' if '+, ' in version else ''
        what = BY_KIT % {'kit': kit, 'crates': lines_of(crates_of_program()), 'changed': changed} if is_proved else BY_NONE
        text = PROVED % {'version': version, 'sum': hashlib.sha256(binary).hexdigest(), 'commit': commit(), 'what': what}
        self.files[HOME + '/PROVED'] = (text.encode(), 0o644)
        for name, leads in COMMANDS.items():
            self.files['bin/' + name] = ('../%s/%s' % (HOME, leads), None)

    def tar(self, below, when):
        """A tar of the tree, below this folder."""
        paths = {below + '/' + path: it for path, it in self.files.items()}
        folders = {path.rsplit('/', depth)[0] for path in paths for depth in range(1, path.count('/') + 1)}
        entries = {**paths, **{folder: None for folder in folders if folder != '.'}}
        return tar_of(entries, when)


def tar_of(entries, when):
    """A tar, compressed; a file is its bytes and its mode, or where it leads and nothing, and a folder nothing."""
    out = io.BytesIO()
    with tarfile.open(fileobj=out, mode='w', format=tarfile.GNU_FORMAT) as tar:
        for path, it in sorted(entries.items()):
            info = tarfile.TarInfo(path)
            info.mtime, info.uname, info.gname = when, 'root', 'root'
            data = b''
            if it is None:
                info.type, info.mode = tarfile.DIRTYPE, 0o755
            elif it[1] is None:
                info.type, info.linkname, info.mode = tarfile.SYMTYPE, it[0], 0o777
            else:
                data, info.mode = it
                info.size = len(data)
            tar.addfile(info, io.BytesIO(data))
    return gzip.compress(out.getvalue(), mtime=0)


def ar_of(members, when):
    """An archive in the form that dpkg reads."""
    parts = [b'!<arch>\n']
    for name, data in members:
        parts += [b'%-16s%-12d%-6d%-6d%-8s%-10d`\n' % (name.encode(), when, 0, 0, b'100644', len(data)), data, b'\n' * (len(data) % 2)]
    return b''.join(parts)


def least_libc(binary):
    """The least version of the C library that has all that the program asks for."""
    asked = [tuple(map(int, it.split(b'.'))) for it in re.findall(rb'\0GLIBC_([0-9]+(?:\.[0-9]+)+)(?=\0)', binary)]
    return '.'.join(map(str, max(asked, default=(2, 17))))


def debian(tree, version, when):
    size = sum(len(data) for data, mode in tree.files.values() if mode) // 1024 + 1
    control = CONTROL % {'name': NAME, 'version': version, 'architecture': ARCHITECTURE, 'size': size, 'libc': least_libc(tree.files['bin/cobra_poly'][0])}
    sums = ''.join('%s  usr/%s\n' % (hashlib.md5(data).hexdigest(), path) for path, (data, mode) in sorted(tree.files.items()) if mode)
    inside = {'./control': (control.encode(), 0o644), './md5sums': (sums.encode(), 0o644), './prerm': (PRERM.encode(), 0o755)}
    return ar_of([('debian-binary', b'2.0\n'), ('control.tar.gz', tar_of(inside, when)), ('data.tar.gz', tree.tar('./usr', when))], when)


def main():
    if len(sys.argv) != 4:
        print(__doc__)
        return 0 if '--help' in sys.argv else 2
    program, kit, folder = sys.argv[1:]
    version = said(os.path.abspath(program), '--version') or ''
    found = re.fullmatch(r'cobra_poly ([0-9]+\.[0-9]+\.[0-9]+) \(.*\)', version)
    try:
        if not found:
            raise Stop('%s --version does not tell a version: %r' % (program, version))
        when, tree = moment(), Tree(program, version, kit)
        # what was not proved has a lesser version than what was
        number = found[1] + ('' if version.endswith(', proved)') else '~unproved')
        base = '%s-%s' % (NAME, number)
        made = {'%s_%s_%s.deb' % (NAME, number, ARCHITECTURE): debian(tree, number, when), base + '-linux-x86_64.tar.gz': tree.tar(base, when)}
        sums = ''.join('%s  %s\n' % (hashlib.sha256(data).hexdigest(), name) for name, data in made.items())
        os.makedirs(folder, exist_ok=True)
        for name, data in {**made, 'SHA256SUMS': sums.encode()}.items():
            with open(os.path.join(folder, name), 'wb') as out:
                out.write(data)
    except (Stop, OSError) as fault:
        print('package.py: %s' % fault, file=sys.stderr)
        return 70
    for name in made:
        print(os.path.join(folder, name))
    return 0


if __name__ == '__main__':
    sys.exit(main())
