#!/usr/bin/env python3
"""follow.py DIR --level LEVEL [-- WORDS]: judges the rounds of a run, each as it comes.

DIR is the folder of a recorder's rounds (docs/COLLECTING.md); it is waited for, if it is not there yet. Each round goes through `audit --level LEVEL WORDS`, and a line tells what is
said of it. At the first round that does not keep the level it tells why, keeps that round and the ones beside it, and ends. The whole run
keeps the level exactly if each round does. That takes for granted what is checked here as well: what a round is, that each begins with
what the one before it left, that no identity was written twice, and at strict levels that no transaction of a round ended before one of
an earlier round began.

It ends when the run has ended (its recorder writes DIR/end) or died, or with --once when the rounds that are there are judged. Statuses: 0, each
round keeps the level; 1, one does not; 2, one is refused, or is no round of this run; 3, some are unknown; 70, something around is wrong."""
import argparse, array, bisect, collections, concurrent.futures, contextlib, itertools, json, os, re, subprocess, sys, time
import scripts, told
from scripts import AROUND, NOT_SERIALIZABLE, REFUSED, UNKNOWN, Stop

sys.path.insert(0, os.path.join(os.path.dirname(os.path.dirname(os.path.realpath(__file__))), 'collect'))
from recorder import is_held

LEVELS = ('serializable', 'strict-serializable', 'snapshot', 'strict-snapshot', 'prefix')
KEEPER, FENCE = b'65535', b'fence/'
NAME = re.compile(r'([0-9]{6,})\.log')
# So many rounds a recorder carries a transaction of unknown outcome.
CARRIED = 10
# Whether a new round is there is looked up after so many seconds.
PAUSE = 0.2


class NoRound(Exception):
    """What a log says is no round of this run."""


class Taken:
    """One transaction of a round: its reads from others, its writes, its moments and its outcome."""
    __slots__ = 'name', 'reads', 'writes', 'begun', 'ended', 'outcome'

    def __init__(self, name, begun):
        self.name, self.reads, self.writes, self.begun, self.ended, self.outcome = name, [], [], begun, None, None


def moment_of(line):
    _, _, text = line.partition(b' ')
    return int(text) if text.strip() else None


def sessions_of(path):
    """The sessions of a log that `audit` takes, one after the other: the number, and the transactions."""
    number, its, txn, place = None, [], None, 0
    with open(path, 'rb') as log:
        for line in log:
            word = line[:2]
            if word == b'r ':
                txn.reads.append(tuple(line.split()[1:]))
            elif word == b'w ':
                txn.writes.append(tuple(line.split()[1:]))
            elif word == b'be':
                place += 1
                txn = Taken('%s.%d' % (number.decode(), place), moment_of(line))
            elif word == b'se':
                if number is not None:
                    yield number, its
                number, its, place = line.split()[1], [], 0
            elif word != b'lo':
                txn.outcome, txn.ended = line.split()[0], moment_of(line)
                its.append(txn)
    if number is not None:
        yield number, its


class Run:
    """What must hold of all rounds together. What it remembers of a run grows with its keys and its clients, and with nothing else: of
    identities the greatest of each client, and those of the last rounds."""

    def __init__(self, level, clients):
        self.is_strict, self.clients = level.startswith('strict-'), clients
        self.held, self.greatest, self.recent, self.begun = {}, {}, collections.deque(maxlen=CARRIED), -1

    def add(self, path):
        """Takes the next round. NoRound where it is none, or does not fit to those before it."""
        keeper, others, written = None, [], {}
        for number, its in sessions_of(path):
            for txn in its:
                written.update((pair, txn) for pair in txn.writes)
            counted = [txn for txn in its if txn.outcome != b'abort']
            if number == KEEPER:
                keeper = its
            elif counted:
                others.append(counted)
        opening, closing = self.keeper(keeper)
        self.fences(opening, closing, others, written)
        self.seam(opening, closing, others, written)
        self.identities(opening, written)
        self.moments([*keeper, *(txn for its in others for txn in its)])
        return sum(len(its) for its in others)

    def keeper(self, its):
        if not its or len(its) < 2 or any(txn.outcome != b'commit' for txn in its):
            raise NoRound('session 65535 has no committed opening and closing')
        opening, closing = its[0], its[1:]
        if opening.reads or any(txn.writes for txn in closing):
            raise NoRound('its opening reads, or its closing writes')
        return opening, closing

    def fences(self, opening, closing, others, written):
        """Each session is between the opening and the closing, by fences."""
        fences = [pair for pair in opening.writes if pair[0].startswith(FENCE)]
        if len(fences) != 1:
            raise NoRound('its opening does not write one fence')
        shown = {pair for txn in closing for pair in txn.reads}
        read = shown.union(*(txn.reads for its in others for txn in its if txn.outcome == b'commit' or len(its) == 1))
        for its in others:
            if fences[0] not in its[0].reads:
                raise NoRound("%s does not read the keeper's fence" % its[0].name)
            if its[-1].outcome == b'commit':
                if not any(pair in shown for pair in its[-1].writes if pair[0].startswith(FENCE)):
                    raise NoRound('the closing does not read a fence that %s wrote' % its[-1].name)
            elif len(its) > 1 or not any(pair in read for pair in its[0].writes):
                raise NoRound('%s has an unknown outcome, and stands not alone in its session or is read by nobody' % its[-1].name)

    def seam(self, opening, closing, others, written):
        """Keys hold at first what they held in the end of the round before, and what they hold in the end is read."""
        left = {pair[0]: pair[1] for txn in closing for pair in txn.reads}
        last = {pair[0]: place for place, txn in enumerate(closing) for pair in txn.reads}
        ready = max((place for key, place in last.items() if key.startswith(FENCE)), default=0)
        own = {key for key, _ in opening.writes}
        for key, wid in opening.writes:
            if not key.startswith(FENCE) and self.held.get(key) != wid:
                before = self.held.get(key)
                raise NoRound('it begins with %s %s, and the closings before it read %s' % (
                    key.decode(), wid.decode(), 'nothing of it' if before is None else before.decode()))
        for its in others:
            for txn in its:
                for key, wid in txn.reads:
                    if key not in own and (key, wid) not in written and self.held.get(key, b'0') != b'0':
                        raise NoRound('%s reads %s, of which its opening says nothing' % (txn.name, key.decode()))
                # the closing shows it: an unknown one in the first of its transactions that does, others behind their fences
                since = ready
                if txn.outcome == b'unknown':
                    since = max(ready, next((n for n, it in enumerate(closing) if set(it.reads) & set(txn.writes)), 0))
                for key, _ in txn.writes:
                    if last.get(key, -1) < since and not key.startswith(FENCE):
                        raise NoRound('%s writes %s, which its closing does not read' % (txn.name, key.decode()))
        self.held.update((key, wid) for key, wid in left.items() if not key.startswith(FENCE))

    def identities(self, opening, written):
        """Of each client they rise from round to round; of a transaction of unknown outcome they may be of one of the last rounds."""
        new, greatest = [], {}
        for (key, wid), txn in written.items():
            if txn is opening and not key.startswith(FENCE):
                continue
            number = int(wid)
            client = number % self.clients
            new.append(number)
            if number > self.greatest.get(client, 0):
                greatest[client] = max(number, greatest.get(client, 0))
            elif txn.outcome != b'unknown' or any(self.stands(number, its) for its in self.recent):
                raise NoRound('%s writes identity %d, which an earlier round has, or one that is greater than it (--clients %d)' % (
                    txn.name, number, self.clients))
        self.greatest.update(greatest)
        self.recent.append(array.array('Q', sorted(new)))

    @staticmethod
    def stands(number, its):
        place = bisect.bisect_left(its, number)
        return place < len(its) and its[place] == number

    def older(self, number, path):
        """Reads of this round of what none of its transactions wrote, and one of the last rounds did."""
        sessions = [txn for _, its in sessions_of(path) for txn in its]
        written = {pair for txn in sessions for pair in txn.writes}
        for txn in sessions:
            for key, wid in txn.reads if txn.outcome != b'abort' else ():
                ages = [age for age, its in enumerate(reversed(self.recent), 1) if (key, wid) not in written and self.stands(int(wid), its)]
                if ages:
                    yield '%s reads %s %s, which was written in round %06d' % (txn.name, key.decode(), wid.decode(), number - ages[0])

    def moments(self, transactions):
        if not self.is_strict:
            return
        for txn in transactions:
            if txn.ended is not None and txn.ended < self.begun:
                raise NoRound('%s ended at %d, and in an earlier round a transaction began at %d: had both one clock?' % (
                    txn.name, txn.ended, self.begun))
        self.begun = max([self.begun, *(txn.begun for txn in transactions if txn.begun is not None)])


class Judged:
    """What `audit` said of a round."""

    def __init__(self, given, path):
        began = time.monotonic()
        words = [given.program, 'audit', '--level', given.level, '--format', 'json', *given.words, path]
        ran = subprocess.run(words, stdin=subprocess.DEVNULL, stdout=subprocess.PIPE, stderr=subprocess.PIPE)
        self.took, self.status = time.monotonic() - began, ran.returncode
        self.report = json.loads(ran.stdout) if ran.stdout.startswith(b'{') else {}
        self.error = ran.stderr.decode(errors='replace').strip()


class Follower:
    def __init__(self, given):
        self.given, self.run, self.judged, self.unknown, self.last = given, Run(given.level, given.clients), 0, 0, None
        self.bar = sys.stderr.isatty()

    def rounds(self):
        """The paths of rounds in their order, each when it is there."""
        number = None
        while True:
            there = sorted(int(found[1]) for found in map(NAME.fullmatch, os.listdir(self.given.folder)) if found)
            if number is None and there:
                number = there[0]
                if number != 1:
                    raise Stop('the first round here is %06d: what came before it is not known, so its beginning is not checked' % number)
            if number is not None and number in there:
                yield number, self.path(number)
                number += 1
            elif there and there[-1] > number:
                raise Stop('round %06d is missing' % number, REFUSED)
            elif self.given.once or self.has_died() or os.path.exists(self.path('end')):
                if not self.has_come(number):
                    return
            else:
                yield None, None

    def has_come(self, number):
        """Whether a round came between looking for it and looking whether the run has ended."""
        return os.path.exists(self.path(number or 1))

    def has_died(self):
        """Whether the recorder ended and wrote no end. It holds a lock while it goes on, which names its machine."""
        path = self.path('1.lock')
        with contextlib.suppress(OSError):
            with open(path) as file:
                return file.read() == os.uname().nodename and not is_held(path)
        return False

    def path(self, number):
        return os.path.join(self.given.folder, '%06d.log' % number if isinstance(number, int) else number)

    def await_folder(self):
        if not os.path.isdir(self.given.folder):
            scripts.say('%s is not there yet: it is waited for' % self.given.folder)
        while not os.path.isdir(self.given.folder):
            time.sleep(PAUSE)

    def follow(self):
        self.await_folder()
        waiting = collections.deque()
        with concurrent.futures.ThreadPoolExecutor(self.given.workers) as pool:
            for number, path in self.rounds():
                if path:
                    waiting.append((number, path, pool.submit(Judged, self.given, path)))
                while waiting and (waiting[0][2].done() or len(waiting) > 2 * self.given.workers):
                    self.tell(*waiting.popleft(), len(waiting))
                if not path:
                    self.show(len(waiting))
                    time.sleep(PAUSE)
            while waiting:
                self.tell(*waiting.popleft(), len(waiting))
        if self.has_died() and not self.given.once and not os.path.exists(self.path('end')):
            raise Stop('the recorder of %s died or gave up, and this is judged up to round %06d: %s makes a log of what is behind it' % (
                self.given.folder, self.judged, scripts.called('mend')))
        if not self.judged:
            raise Stop('there is no round in %s' % self.given.folder)
        return UNKNOWN if self.unknown else 0

    def show(self, waiting):
        if self.bar:
            print('\r%d rounds judged, %d wait ' % (self.judged, waiting), end='', file=sys.stderr, flush=True)

    def say(self, *words):
        if self.bar:
            print('\r\x1b[K', end='', file=sys.stderr, flush=True)
        print(*words, flush=True)

    def tell(self, number, path, judged, waiting):
        judged = judged.result()
        verdict, level = judged.report.get('verdict'), self.given.level
        if verdict not in ('kept', 'not kept', 'unknown'):
            raise Stop('%06d: audit ends with %d: %s' % (number, judged.status, judged.error),
                       judged.status if judged.status in range(2, 6) else AROUND)
        said = {'kept': level, 'not kept': 'not ' + level}.get(verdict, 'unknown: %s' % judged.report.get('reason'))
        self.say('%06d: %s, %s transactions, %.1f s' % (number, said, format(judged.report['committed'], ','), judged.took))
        if verdict == 'not kept':
            self.fault(number, path)
        try:
            self.run.add(path)
        except NoRound as fault:
            self.on_fault(path)
            raise Stop('%06d: it is no round of this run: %s' % (number, fault), REFUSED)
        self.judged += 1
        self.unknown += verdict == 'unknown'
        # the one before it is beside no fault any more
        if self.given.forget and verdict == self.last == 'kept':
            os.remove(self.path(number - 1))
            with contextlib.suppress(FileNotFoundError):
                os.remove(self.path(number - 1) + '.labels')
        self.last = verdict
        self.show(waiting)

    def fault(self, number, path):
        words = [self.given.program, 'audit', '--level', self.given.level, '--explain', *self.given.words, path]
        ran, labels = subprocess.run(words, stdin=subprocess.DEVNULL, stdout=subprocess.PIPE), scripts.labels_of(path)
        for line in ran.stdout.decode().splitlines():
            self.say(told.labelled(line, labels))
        for it in itertools.islice(self.run.older(number, path), 3):
            self.say(told.labelled(it, labels))
        self.on_fault(path)
        raise Stop('%s does not keep the level: it stays, and so do the rounds beside it' % path, NOT_SERIALIZABLE)

    def on_fault(self, path):
        if self.given.on_fault:
            sys.stdout.flush()
            subprocess.run(self.given.on_fault, shell=True, stdin=subprocess.DEVNULL, env=dict(os.environ, ROUND=path))


def parse():
    about, _, more = __doc__.partition('\n')
    parser = argparse.ArgumentParser(description=about.partition(': ')[2] + '\n' + more,
                                     formatter_class=argparse.RawDescriptionHelpFormatter,
                                     usage='%(prog)s DIR --level LEVEL [OPTIONS] [-- WORDS]')
    parser.add_argument('folder', metavar='DIR', help='the folder of the rounds')
    parser.add_argument('--level', required=True, metavar='LEVEL', help='what the store promises: ' + ', '.join(LEVELS))
    parser.add_argument('--workers', type=int, default=1, metavar='N', help='so many rounds are judged side by side: %(default)s')
    parser.add_argument('--on-fault', metavar='COMMAND', help='run by a shell at the first fault, with the path of the round in $ROUND')
    parser.add_argument('--forget', action='store_true', help='remove each round that is kept, when the next one is')
    parser.add_argument('--once', action='store_true', help='judge what is there, and wait for no more')
    parser.add_argument('--clients', type=int, default=1000, metavar='N',
                        help="identities are counts times N plus a client's number; of K processes 1000 times K: %(default)s")
    parser.add_argument('--program', default=scripts.RUN, help='the program: %(default)s')
    cut = sys.argv.index('--') if '--' in sys.argv else len(sys.argv)
    given = parser.parse_args(sys.argv[1:cut])
    given.words = sys.argv[cut + 1:]
    if given.level not in LEVELS:
        parser.error('%s: rounds are judged at %s; below these levels rounds and their run may differ, so judge a whole log by audit' % (
            given.level, ', '.join(LEVELS)))
    if min(given.workers, given.clients) < 1:
        parser.error('a number is too small')
    if not os.path.isdir(given.folder) and (given.once or os.path.exists(given.folder)):
        parser.error('%s: there is no such folder' % given.folder)
    return given


def main():
    status = Follower(parse()).follow()
    if status:
        raise Stop('some rounds are not decided', status)


if __name__ == '__main__':
    scripts.run(main)
