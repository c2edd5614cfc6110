#!/usr/bin/env python3
"""writers.py PROGRAM: collect/recorder.go and collect/Recorder.java, against collect/recorder.py.

First the lines that docs/COLLECTING.md has for each are compiled and run. Then all get the same script of events, whose clock is part of it: sessions that begin, leave and come back, outcomes of each kind, odd
keys, labels, writes that are refused, shares, files that are there already, and what a harness may do wrong. What comes of each event, the
warnings, the logs and the labels must be the same, byte for byte. Then threads of each language use a small store at once, whose log PROGRAM must find to be
serializable, and so must their rounds be, by tools/follow.py; labels must stand beside both, and be those of their transactions; and a log of which each language wrote a share must fit together. Of a run that is
killed what ended a second before must be there. A language whose compiler is not installed is passed over,
with a line that says so. Last line: 'writers: N passed, M failed'.

The events, one a line: open OUT all|none K N yes|no (N 0: no share; whether OUT may be replaced), clock N, name KEY, text UTF-16 KEY,
session S, begin S [LABEL], read S KEY SEEN, before S KEY SEEN W, write S KEY W, refused S W, commit S, abort S, unknown S, leave S, close, load OUT
THREADS TRANSACTIONS, rounds DIR THREADS TRANSACTIONS EVERY. A KEY is hexadecimal, or - for none, and so is a LABEL; SEEN is none, @W, or text: and hexadecimal."""
import contextlib, glob, io, os, random, re, shutil, subprocess, sys, tempfile, time

HERE = os.path.dirname(os.path.abspath(__file__))
COLLECT, WRITERS = os.path.join(os.path.dirname(HERE), 'collect'), os.path.join(HERE, 'writers')
sys.path[:0] = [COLLECT, os.path.join(os.path.dirname(HERE), 'tools'), HERE]
import reference, scripts
from recorder import Misuse, Recorder, name_of

SCRIPTS, EVENTS = 150, 60
# Longer than a recorder holds what it is told.
HELD = 1.2
KEYS = [b'x', b'stock/7', b'', b' ', b'\xff', b'hex:ff', b'hex:', b'sha:', b'\xc3\xb6', b'k' * 64, b'k' * 65, b'\x00' * 30, b'\x00' * 31, b'x\n']
TEXTS = ['x', 'ö', '\ud800', '\udfff x', '\U0001f600', 'a' * 40 + '\ud800']
# What a store may give back, and what no value begins with.
SEEN = [b'17', b'17 red', b'0', b'18446744073709551615', b'18446744073709551616', b'', b'red 17', b'-1', b'17red', b' 17', b'1001 x y']

# What a label may be, and what none is.
LABELS = ['transfer, thread 4', 'ö \u20ac \U0001f600', ' x ', '1 1 x', '', '  ', 'a\nb', 'a\r', '\x1b[1m', '\xa0', 'a\u2028b', 'a\u200bb', '\ue000', '\u0378']


def hexadecimal(text):
    return text.hex() or '-'


class InPython:
    """Does to collect/recorder.py what the lines say."""

    def __init__(self):
        self.now, self.sessions, self.transactions, self.identities = 0, {}, {}, {}

    def seen(self, word):
        if word == 'none':
            return None
        return self.identities.get(word[1:], 999) if word[0] == '@' else bytes.fromhex(word[5:])

    def do(self, kind, *words):
        txn = self.transactions.get(words[0]) if words else None
        key = lambda place: bytes.fromhex(words[place].strip('-'))
        if kind == 'open':
            moments, share = (None if words[1] == 'none' else 'all'), (int(words[2]), int(words[3]))
            self.run = Recorder(words[0], moments, clock=lambda: self.now, overwrite=words[4] == 'yes', share=share if share[1] else None)
        elif kind == 'clock':
            self.now = int(words[0])
        elif kind == 'name':
            return name_of(key(0))
        elif kind == 'text':
            return name_of(bytes.fromhex(words[0]).decode('utf-16-be', 'surrogatepass'))
        elif kind == 'session':
            self.sessions[words[0]] = self.run.session()
        elif kind == 'begin':
            label = {'label': key(1).decode()} if words[1:] else {}
            self.transactions[words[0]] = self.sessions[words[0]].transaction(**label)
            return self.transactions[words[0]].name
        elif kind == 'read':
            txn.read(key(1), self.seen(words[2]))
        elif kind == 'before':
            txn.read(key(1), self.seen(words[2]), before=self.identities.get(words[3], 999))
        elif kind == 'write':
            self.identities[words[2]] = txn.write(key(1))
            return str(self.identities[words[2]])
        elif kind == 'refused':
            txn.refused(self.identities.get(words[1], 999))
        elif kind == 'leave':
            self.sessions[words[0]].close()
        elif kind == 'close':
            return 'warnings: ' + ' | '.join(self.run.close())
        else:
            getattr(txn, kind)()
        return 'ok'

    def told(self, lines):
        for line in lines:
            with contextlib.redirect_stderr(io.StringIO()):
                try:
                    yield self.do(*line.split(' '))
                except Misuse:
                    yield 'misuse'


GO_PAGE = '''package main

import (
	"fmt"
	"writers/recorder"
)

type stored map[string]string

func (it stored) Get(key string) (string, bool) { value, found := it[key]; return value, found }
func (it stored) Put(key, value string)         { it[key] = value }

func main() {
	store := stored{}
%s
	fmt.Println(warnings, err)
}
'''
JAVA_PAGE = '''public final class Page {
    public static void main(String[] arguments) throws java.io.IOException {
        java.util.Map<String, String> store = new java.util.HashMap<>();
%s
    }
}
'''
# What the lines of the page write: no moments, unless they are asked for.
PAGE_LOG = b'log 3\nsession 1\nbegin\nr stock/7 0\nw stock/7 1001\ncommit\n'


def page_of(language):
    """The lines that docs/COLLECTING.md has for a language."""
    with open(os.path.join(os.path.dirname(HERE), 'docs', 'COLLECTING.md'), encoding='utf-8') as file:
        return re.search('^```%s\n(.*?)^```' % language, file.read(), re.M | re.S)[1]


def in_go(folder):
    """The words that start the writer in Go, and the lines of the page; nothing where there is no compiler."""
    if not shutil.which('go'):
        return None
    top, program = os.path.join(folder, 'go'), os.path.join(folder, 'in_go')
    os.makedirs(os.path.join(top, 'recorder'))
    shutil.copy(os.path.join(COLLECT, 'recorder.go'), os.path.join(top, 'recorder'))
    shutil.copy(os.path.join(WRITERS, 'main.go'), top)
    os.mkdir(os.path.join(top, 'page'))
    for name, text in (('go.mod', 'module writers\n\ngo 1.18\n'), ('page/page.go', GO_PAGE % page_of('go'))):
        with open(os.path.join(top, name), 'w') as out:
            out.write(text)
    environment = dict(os.environ, GOFLAGS='-mod=mod', GOPROXY='off', GOCACHE=os.path.join(folder, 'cache'), GO111MODULE='on', CGO_ENABLED='0')
    for words in (['vet', './...'], ['build', '-o', program, '.'], ['build', '-o', program + '_page', './page']):
        subprocess.run(['go', *words], cwd=top, env=environment, stdin=subprocess.DEVNULL, check=True, timeout=600)
    return [program], [program + '_page']


def in_java(folder):
    """The same of the one in Java."""
    if not shutil.which('javac') or not shutil.which('java'):
        return None
    sources = [os.path.join(COLLECT, 'Recorder.java'), os.path.join(WRITERS, 'Main.java'), os.path.join(folder, 'Page.java')]
    with open(sources[-1], 'w') as out:
        out.write(JAVA_PAGE % page_of('java'))
    classes = os.path.join(folder, 'java')
    subprocess.run(['javac', '-Xlint:-options', '--release', '8', '-encoding', 'UTF-8', '-d', classes, *sources], stdin=subprocess.DEVNULL, check=True, timeout=600)
    return [['java', '-XX:+UseSerialGC', '-cp', classes, name] for name in ('Main', 'Page')]


LANGUAGES = {'Go': (in_go, 'golang-go'), 'Java': (in_java, 'default-jdk-headless')}


def script(seed, out):
    """Random events of one run, which is closed twice."""
    dice = random.Random(seed)
    share = dice.choice(((0, 0), (0, 0), (1, 1), (2, 3), (3, 3), (4, 3), (0, 2)))
    clock, names, written = dice.randrange(1000), 'abc'[:dice.randint(1, 3)], ['none']
    yield 'clock %d' % clock
    yield 'open %s %s %d %d %s' % (out, dice.choice(('all', 'none')), *share, dice.choice(('yes', 'no')))
    if share in ((4, 3), (0, 2)):
        return
    for name in names:
        yield 'session ' + name
        yield 'begin ' + name
    mine = {name: [] for name in names}
    for number in range(dice.randint(0, EVENTS)):
        name, key = dice.choice(names), hexadecimal(dice.choice(KEYS[:dice.choice((2, len(KEYS)))]))
        # a clock may stand still, and may be set back
        clock = max(0, clock + dice.choice((0, 0, 1, 1, 7, -3)))
        kinds = 'read read read write write write before refused commit abort unknown clock leave' if mine[name] is not None else 'begin begin begin clock leave'
        kind = dice.choice((kinds if dice.random() < 0.9 else 'session begin read write before refused commit abort unknown').split())
        seen = dice.choice(['none', 'text:' + dice.choice(SEEN).hex()] + 4 * ['@' + dice.choice(written)]).replace('@none', 'none')
        known = dice.choice(mine[name] or written)
        if kind == 'clock':
            yield 'clock %d' % clock
        elif kind == 'write':
            yield 'write %s %s %d' % (name, key, number)
            written.append(str(number))
            mine[name] = (mine[name] or []) + [str(number)]
        elif kind == 'read':
            yield 'read %s %s %s' % (name, key, seen)
        elif kind == 'before':
            yield 'before %s %s %s %s' % (name, key, seen, known)
        elif kind == 'refused':
            yield 'refused %s %s' % (name, known)
        else:
            label = hexadecimal(dice.choice(LABELS[:dice.choice((4, 4, len(LABELS)))]).encode()) if kind == 'begin' and dice.random() < 0.5 else ''
            yield ('%s %s %s' % (kind, name, label)).rstrip()
            mine[name] = [] if kind == 'begin' else None
            if kind == 'leave' and dice.random() < 0.9:
                yield 'session ' + name
    yield 'close'
    yield 'session a'
    yield 'close'


def worth(out):
    """Runs of which a log is worth little, one for each warning."""
    aborts, unknowns = ['begin a', 'abort a'] * 20, ['begin a', 'unknown a'] * 20
    write, read, own = ['begin a', 'write a 78 w', 'commit a'], ['begin b', 'read b 78 @w', 'commit b'], ['begin a', 'read a 78 @w', 'commit a']
    strange = ['begin a', 'read a 78 text:3939303031', 'commit a']
    together = ['begin a', 'begin b', 'write a 78 w', 'read b 78 @w', 'commit a', 'commit b']
    again = ['leave a', 'session c', 'begin c', 'read c 78 @w', 'commit c']
    for number, events in enumerate(([], aborts, write + again, write, write + own, write + ['begin b', 'commit b'], write + own + ['begin b', 'commit b'], write + read,
                                     aborts + write + read, unknowns + write + read, strange + together, together, ['begin b'] + write)):
        yield from ['open %s.%d all 0 0 no' % (out, number), 'session a', 'session b', *events, 'close']


class Checks:
    def __init__(self, program, folder):
        self.program, self.folder, self.passed, self.failed = program, folder, 0, 0

    def expect(self, holds, name):
        self.passed, self.failed = self.passed + bool(holds), self.failed + (not holds)
        if not holds:
            print('FAILED', name)

    def path(self, *names):
        return os.path.join(self.folder, *names)

    def text(self, path):
        if not os.path.exists(path):
            return None
        with open(path, 'rb') as file:
            return file.read()

    def events(self, language):
        """All events, with the files of one language, which are new but for one of five."""
        os.mkdir(self.path(language))
        for key in KEYS:
            yield 'name ' + hexadecimal(key)
        for text in TEXTS:
            yield 'text %s %s' % (text.encode('utf-16-be', 'surrogatepass').hex(), text.encode('utf-8', 'surrogatepass').hex())
        for seed in range(SCRIPTS):
            yield from script(seed, self.path(language, str(seed - seed % 5 // 4)))
        yield from worth(self.path(language, 'worth'))

    def page(self, language, words):
        """The page's own lines, which write run.log where they are run."""
        at = self.path(language + ' page')
        os.mkdir(at)
        ran = subprocess.run(words, cwd=at, stdin=subprocess.DEVNULL, stdout=subprocess.PIPE, stderr=subprocess.PIPE, timeout=120)
        log = self.text(os.path.join(at, 'run.log'))
        self.expect(ran.returncode == 0 and log == PAGE_LOG, '%s: the page: %s %s' % (language, ran, log))

    def told(self, words, lines):
        ran = subprocess.run(words, input=''.join(line + '\n' for line in lines).encode(), stdout=subprocess.PIPE, stderr=subprocess.PIPE, timeout=600)
        self.expect(ran.returncode == 0, '%s ended with %d: %s' % (words[0], ran.returncode, ran.stderr.decode()[-1000:]))
        return ran.stdout.decode().splitlines()

    def compare(self, language, words):
        """What comes of each event, and the logs, must be those of Python."""
        wanted_lines = list(self.events('Python-' + language))
        wanted, lines = list(InPython().told(wanted_lines)), list(self.events(language))
        found = self.told(words, lines)
        differ = next((number for number, pair in enumerate(zip(wanted, found)) if pair[0] != pair[1]), None)
        self.expect(len(found) == len(wanted) == len(lines), '%s: %d answers, and not %d' % (language, len(found), len(wanted)))
        self.expect(differ is None, differ is not None and '%s: %s: %s, and in Python %s' % (language, lines[differ], found[differ], wanted[differ]))
        names = sorted(os.listdir(self.path('Python-' + language)))
        self.expect(names == sorted(os.listdir(self.path(language))), '%s: other files' % language)
        for name in names:
            logs = [self.text(self.path(it, name)) for it in ('Python-' + language, language)]
            self.expect(logs[0] == logs[1], '%s: log %s: %r' % (language, name, logs))
        print('writers: %s: %d events, of which %d are misuse, %d logs' % (language, len(lines), wanted.count('misuse'), len(names)))

    def labels(self, out, name):
        """Each label says with which key its transaction begins, behind a fence."""
        labels, found, wrong = scripts.labels_of(out, is_needed=True), 0, []
        for session, its in reference.read_log(self.text(out)):
            for place, txn in enumerate(its, 1):
                keys, label = [key for _, key, _ in txn.ops if not str(key).startswith('fence/')], labels.pop('%d.%d' % (session, place), None)
                found += label is not None
                if label != ('first %s' % keys[0] if keys and session != 65535 else None):
                    wrong.append((session, place, label))
        self.expect(found and not wrong and not labels, '%s: %d labels, wrong %s, of nothing %s' % (name, found, wrong[:3], labels))

    def load(self, language, words):
        """Threads at once: what they write is serializable, and strictly so."""
        for number in range(3):
            out = self.path('load-%s-%d.log' % (language, number))
            self.expect(self.told(words, ['load %s 4 60' % out]) == ['ok'], '%s: no load' % language)
            ran = subprocess.run([self.program, 'check', '--strategy', 'forced', out], stdout=subprocess.PIPE)
            self.expect(ran.returncode == 0 and self.text(out).count(b'\nbegin ') == 240, '%s: load %d: %s' % (language, number, ran.stdout[:100]))
            self.labels(out, '%s: load' % language)

    def rounds(self, language, words):
        """Rounds of threads at once, of a store that loses answers."""
        out = self.path('rounds-' + language)
        self.expect(self.told(words, ['rounds %s 4 200 90' % out]) == ['ok'], '%s: no rounds' % language)
        follow = os.path.join(os.path.dirname(HERE), 'tools', 'follow.py')
        for level in ('strict-serializable', 'snapshot'):
            ran = subprocess.run([sys.executable, '-B', follow, out, '--level', level, '--program', self.program], stdout=subprocess.PIPE, stderr=subprocess.PIPE, timeout=600)
            self.expect(ran.returncode == 0 and ran.stdout.count(b'\n') >= 8, '%s: rounds: %s' % (language, ran))
        logs = [os.path.join(out, name) for name in os.listdir(out) if name.endswith('.log')]
        for log in logs:
            self.labels(log, '%s: %s' % (language, os.path.basename(log)))
        texts = [self.text(log) for log in logs]
        self.expect(any(b'\nunknown\n' in text for text in texts), '%s: rounds: no unknown outcome' % language)

    def killed(self, language, words):
        """What ended more than a second before is in the files of all clients, and so it is behind a kill."""
        out = self.path('killed-%s.log' % language)
        first = ['open %s none 0 0 no' % out, *map('session '.__add__, 'ab'), 'begin a', 'write a 78 1', 'commit a', 'begin b', 'write b 78 2', 'commit b']
        then = ['begin a', 'write a 78 3', 'commit a']
        left = lambda: {os.path.basename(path): self.text(path) for path in glob.glob(out + '.*/*')}
        wanted = {'1': b'session 1\nbegin\nw x 1001\ncommit\nbegin\nw x 2001\ncommit\n', '2': b'session 2\nbegin\nw x 1002\ncommit\n'}
        if words is None:
            client = InPython()
            list(client.told(first))
            time.sleep(HELD)
            list(client.told(then))
        else:
            client = subprocess.Popen(words, stdin=subprocess.PIPE, stdout=subprocess.DEVNULL)
            for lines in first, then:
                client.stdin.write(''.join(line + '\n' for line in lines).encode())
                client.stdin.flush()
                # it begins, and does the first lines
                late = time.monotonic() + 60
                while lines is first and not glob.glob(out + '.*') and time.monotonic() < late:
                    time.sleep(0.05)
                time.sleep(HELD)
            while left() != wanted and time.monotonic() < late:
                time.sleep(0.05)
            client.kill()
            client.wait()
        self.expect(left() == wanted, '%s: killed: %s' % (language, left()))
        if words is None:
            with contextlib.redirect_stderr(io.StringIO()):
                client.run.close()

    def shares(self, started):
        """One log, of which each language writes a share."""
        logs, out = [], self.path('joined.log')
        for k, (language, words) in enumerate(started.items(), 1):
            logs.append(self.path('share-%d.log' % k))
            lines = ['open %s all %d %d no' % (logs[-1], k, len(started)), *['session a', 'begin a', 'write a 78 w', 'commit a'] * 20, 'close']
            got = list(InPython().told(lines)) if words is None else self.told(words, lines)
            self.expect(got[-1] == 'warnings: ', '%s: a share: %s' % (language, got[-1]))
        ran = subprocess.run([sys.executable, '-B', os.path.join(COLLECT, 'join.py'), *logs, '-o', out], stdout=subprocess.PIPE, stderr=subprocess.STDOUT)
        self.expect(ran.returncode == 0 and self.text(out).count(b'w x ') == 20 * len(started), 'a log of several languages: %s' % ran.stdout)


def main():
    if len(sys.argv) != 2 or sys.argv[1].startswith('-'):
        print(__doc__)
        return 0 if '--help' in sys.argv else 2
    with tempfile.TemporaryDirectory() as folder:
        checks, started = Checks(os.path.abspath(sys.argv[1]), folder), {'Python': None}
        for language, (compile_it, package) in LANGUAGES.items():
            compiled = compile_it(folder)
            if compiled is None:
                print('writers: note: %s is passed over, since its compiler (%s) is not installed' % (language, package))
                continue
            words, page = compiled
            started[language] = words
            checks.page(language, page)
            checks.compare(language, words)
            checks.load(language, words)
            checks.rounds(language, words)
            checks.killed(language, words)
        checks.killed('Python', None)
        checks.shares(started)
    print('writers: %d passed, %d failed' % (checks.passed, checks.failed))
    return 1 if checks.failed else 0


if __name__ == '__main__':
    sys.exit(main())
