#!/usr/bin/env python3
"""prove_program.py KIT JOBS: proves and builds the program, and first the libraries below it, as many side by side as JOBS says.

Each is proved from nothing, as `rt ci` proves it and by its code: the crates above a library load its statements, and not its proofs. A
library stands until it, or one that it was built over, is proved anew. What has the longest way up to the program takes all
processors, and the others what it leaves. How far it is, and about how long it still takes, goes to standard error, and so does what the prover
says of a crate that fails. tools/proof_times.txt has how long each crate took elsewhere; how fast this machine was so far corrects it."""
import hashlib, importlib.machinery, importlib.util, os, signal, sys, tempfile, threading, time
from concurrent.futures import FIRST_COMPLETED, ThreadPoolExecutor, wait

TOP = os.path.dirname(os.path.dirname(os.path.abspath(__file__)))
TIMES = os.path.join(TOP, 'tools', 'proof_times.txt')
# How many processors a crate makes use of, which part of all processors is at work throughout, how many seconds of a processor must be seen to
# count as much as the table, and after how many seconds at most something is told.
HELP, BUSY, TRUSTED, TOLD = 2, 0.9, 60, 60


def say(text):
    print('prove: ' + text, file=sys.stderr, flush=True)


def load(kit):
    """The toolchain's rt, whose sum over a crate's sources looks at each library once, where rt's looks once on every way down."""
    sys.dont_write_bytecode = True
    loader = importlib.machinery.SourceFileLoader('rt', os.path.join(kit, 'bin', 'rt'))
    rt = importlib.util.module_from_spec(importlib.util.spec_from_loader('rt', loader))
    loader.exec_module(rt)

    class Crate(rt.Crate):
        cuts_libraries, allowed, sums = True, rt.handles_of(TOP), threading.local()

        def __init__(self, *given, **named):
            super().__init__(*given, **named)
            rt.read_files(self)

        def stamp(self):
            if hasattr(self.sums, 'of'):
                if self not in self.sums.of:
                    self.sums.of[self] = super().stamp()
                return self.sums.of[self]
            self.sums.of = {}
            try:
                return self.stamp()
            finally:
                del self.sums.of

        def compile_by(self, backend, words, to):
            return 0 if backend == 'rattle' else super().compile_by(backend, words, to)

    rt.rtlib.Crate = Crate
    return rt


def mark_of(crate):
    """The file that a proved library leaves: a name of this one build, and the sum of what it was built from."""
    return os.path.join(crate.folder, 'out', 'rlib', 'proved')


def text_of(path):
    try:
        with open(path, encoding='utf-8') as it:
            return it.read()
    except OSError:
        return ''


def sum_of(crate):
    built_over = [text_of(mark_of(it)) for it in crate.below()]
    return hashlib.sha256(repr([crate.stamp(), built_over]).encode()).hexdigest()


def ways(crates):
    """For each crate how much is to be proved from it up to the program, in lines of code."""
    length = {}
    for crate in reversed(crates):
        above = [length[other] for other in crates if crate in other.deps]
        length[crate] = crate.count(rb'\n') + max(above, default=0)
    return length


def standing(crates):
    """The libraries that stand as an earlier run proved them, of crates of which each comes behind those below it."""
    found = []
    for crate in crates:
        if not crate.is_program and set(found).issuperset(crate.deps) and text_of(mark_of(crate)).endswith(' ' + sum_of(crate)):
            found.append(crate)
    return found


def prove(crate, jobs):
    """Proves and builds a crate. What fails ends all that runs."""
    wanted = sum_of(crate)
    with tempfile.TemporaryFile('a+', errors='replace') as crate.out:
        try:
            status = crate.ci(['--jobs', str(jobs)], False)
        except SystemExit:
            status = 1
        crate.out.seek(0)
        said = crate.out.read()
    if status:
        sys.stderr.write(said)
        say('%s is not proved; the lines above say what is open' % crate.name)
        sys.stderr.flush()
        os._exit(1)
    if not crate.is_program:
        with open(mark_of(crate), 'w', encoding='utf-8') as it:
            it.write('%s %s' % (os.urandom(16).hex(), wanted))


def times():
    """The processor seconds that the proof of each crate took where they were measured."""
    with open(TIMES, encoding='utf-8') as file:
        lines = [line.split('#')[0].split() for line in file]
    return {words[0]: float(words[1]) for words in lines if words}


class Progress:
    """How far the proofs are, in processor seconds of the machine where they were timed, and how long they still take on this one."""

    def __init__(self, below, takes, at_once, clock=time.monotonic):
        """`below` has for each crate those below it, lowest first, and `takes` how long each is said to take."""
        self.below, self.at_once, self.clock = below, at_once, clock
        known = [takes[name] for name in below if name in takes]
        self.takes = {name: takes.get(name, sum(known) / max(len(known), 1)) for name in below}
        self.stood, self.done, self.running = set(), set(), {}
        # What was proved, in seconds of the table, and by the clock of this machine.
        self.proved = self.spent = TRUSTED

    def begin(self, name, jobs):
        self.running[name] = self.clock(), min(jobs, HELP)

    def end(self, name):
        began, processors = self.running.pop(name)
        self.spent += processors * (self.clock() - began)
        self.proved += self.takes[name]
        self.done.add(name)

    def rest(self, name):
        """What is left of a crate; one at work counts as nearly done at most."""
        if name in self.stood or name in self.done:
            return 0
        began, processors = self.running.get(name, (self.clock(), 0))
        return self.takes[name] - min(0.9 * self.takes[name], processors * (self.clock() - began) * self.proved / self.spent)

    def left(self):
        """How many seconds are left at the speed so far: for what is open, or for the longest way up, where that takes longer."""
        way = {}
        for name, below in self.below.items():
            way[name] = self.rest(name) + max((way[it] for it in below), default=0)
        alone = max(sum(map(self.rest, self.takes)) / (BUSY * self.at_once), max(way.values()) / min(HELP, self.at_once))
        return alone * self.spent / self.proved

    def __str__(self):
        done, all_of_it = (sum(self.takes[name] for name in names) / 60 for names in (self.stood | self.done, self.takes))
        minutes = round(self.left() / 60)
        left = 'about %d minutes are left' % minutes if minutes > 1 else 'about a minute is left'
        return '%d of %d crates, %.0f of some %.0f processor minutes; %s' % (len(self.stood | self.done), len(self.takes), done, all_of_it, left)


def prove_all(rt, crates, at_once):
    """Proves them, each after those below it: the one with the longest way up by as many jobs as there are processors, the others by one each."""
    length, built, running = ways(crates), set(standing(crates)), {}
    waiting, memory = sorted(set(crates) - built, key=length.get, reverse=True), 0.85 * rt.free()
    progress = Progress({it.name: [other.name for other in it.deps] for it in crates}, times(), at_once)
    progress.stood.update(it.name for it in built)
    say(str(progress))
    with ThreadPoolExecutor(at_once) as pool:
        while waiting or running:
            longest = max([*waiting, *(crate for crate, _ in running.values())], key=length.get)
            for crate in [it for it in waiting if built.issuperset(it.deps)]:
                jobs = at_once if crate is longest else 1
                needs = rt.need(crate) * (1 + 0.6 * (jobs - 1))
                if running and (len(running) == at_once or needs + sum(it for _, it in running.values()) > memory):
                    break
                progress.begin(crate.name, jobs)
                running[pool.submit(prove, crate, jobs)] = crate, needs
                waiting.remove(crate)
            for done in wait(running, timeout=TOLD, return_when=FIRST_COMPLETED).done:
                crate, _ = running.pop(done)
                done.result()
                built.add(crate)
                progress.end(crate.name)
            if waiting or running:
                say(str(progress))


def main():
    if '--help' in sys.argv:
        return print(__doc__)
    kit, at_once = sys.argv[1], int(sys.argv[2])
    os.chdir(TOP)
    rt = load(kit)
    # Its guard ends what this starts, however this ends; it begins in the main thread.
    rt.rtlib.guarded()
    signal.signal(signal.SIGINT, signal.SIG_DFL)
    program = rt.rtlib.Crate(os.path.join(TOP, 'crates', 'cobra_poly'), TOP, {})
    crates = sorted([*program.below(), program], key=lambda it: len(it.below()))
    held = rt.rtlib.lock(crates)
    for it in crates:
        rt.rtlib.stop_on_links(it.folder)
        os.makedirs(os.path.join(it.folder, 'out'), exist_ok=True)
    prove_all(rt, crates, at_once)
    for it in held:
        os.close(it)


if __name__ == '__main__':
    main()
