"""What scripts around the program share: a log by its lines, a call of the program, and how a script ends."""
import json, os, re, subprocess, sys, traceback

TOP = os.path.dirname(os.path.dirname(os.path.realpath(__file__)))
RUN = os.path.join(TOP, 'run')
if not os.path.exists(RUN):
    # as a package has it, else what is on the path
    RUN = os.path.normpath(os.path.join(TOP, '..', '..', 'bin', 'cobra_poly'))
    RUN = RUN if os.path.exists(RUN) else 'cobra_poly'
# What goes wrong around the program has this status; 0 to 5 are the program's.
AROUND = 70
SERIALIZABLE, NOT_SERIALIZABLE, REFUSED, UNKNOWN, OUT_OF_MEMORY, DEVICE_FAILED = range(6)
HEADERS = ('log 2', 'log 3')
LABEL = re.compile('([1-9][0-9]*) ([1-9][0-9]*) (.*[^ ].*)')


class Stop(Exception):
    """Ends a script with these words on standard error and this status."""

    def __init__(self, words, status=AROUND):
        super().__init__(words)
        self.status = status


def called(script):
    """How a script beside this one is called: as a command of a package, where this one is."""
    is_command = os.path.basename(sys.argv[0]).startswith('cobra_poly-')
    return 'cobra_poly-' + script if is_command else script + '.py'


def say(words):
    print('%s: %s' % (os.path.basename(sys.argv[0]), words), file=sys.stderr, flush=True)


def run(main):
    """Runs a script's main function, and ends with 0, or with the status of what went wrong."""
    try:
        main()
        sys.stdout.flush()
    except Stop as stop:
        say(stop)
        sys.exit(stop.status)
    except KeyboardInterrupt:
        say('interrupted')
        sys.exit(130)
    except BrokenPipeError:
        # whoever reads, as head, has read enough
        os.dup2(os.open(os.devnull, os.O_WRONLY), 1)
        sys.exit(AROUND)
    except (OSError, UnicodeDecodeError) as fault:
        name = getattr(fault, 'filename', None)
        say('%s: %s' % (name, fault.strerror) if name else fault)
        sys.exit(AROUND)
    except Exception:
        traceback.print_exc()
        sys.exit(AROUND)


class Transaction:
    """Its name, which is its session and its place there, its session's line, and its own lines, each with its number in the log."""

    def __init__(self, session_line, place):
        self.session_line, self.session, self.place, self.lines = session_line, session_line[1].split(' ')[1], place, []

    @property
    def name(self):
        return '%s.%d' % (self.session, self.place)

    def operations(self, kinds='rw'):
        """The number, the kind, the key and the identity of each operation."""
        return [(number, *text.split(' ')) for number, text in self.lines if text[:2] in ('r ', 'w ') and text[0] in kinds]

    def moments(self):
        """When it began and ended; None where the log does not say."""
        first, last = self.lines[0][1].split(' '), self.lines[-1][1].split(' ')
        return [int(words[1]) if len(words) > 1 else None for words in (first, last)]


def transactions_of(lines, wanted=None):
    """The transactions of a well-formed log, in its order; those alone that are wanted by their names, where such are said."""
    found, session, place, it = [], None, 0, None
    for number, line in enumerate(lines, 1):
        line = line.rstrip('\n')
        if line in HEADERS:
            continue
        if line.startswith('session '):
            session, place = (number, line), 0
            continue
        if line.startswith('begin'):
            place += 1
            it = Transaction(session, place)
            if wanted is None or it.name in wanted:
                found.append(it)
        it.lines.append((number, line))
    return found


def labels_of(path, is_needed=False):
    """The labels that stand beside a log, by the names of its transactions; none where there is no such file, unless it is needed."""
    path, found = path + '.labels', {}
    if not is_needed and not os.path.exists(path):
        return found
    with open(path, encoding='utf-8', newline='\n') as lines:
        for number, line in enumerate(lines, 1):
            line = line.rstrip('\n')
            form = LABEL.fullmatch(line)
            if not form or not form[3].isprintable():
                raise Stop('%s:%d: not a label, SESSION PLACE TEXT: %s' % (path, number, ascii(line[:80])))
            if found.setdefault('%s.%s' % form.group(1, 2), form[3]) != form[3]:
                raise Stop('%s:%d: a second label of %s.%s' % (path, number, *form.group(1, 2)))
    return found


def audited(program, path, level=None):
    """What `audit --explain` of a refuted log says as JSON, with a level where one is asked for. Stop where it is none, with the program's status
    where it refuses, does not know, or finds nothing wrong."""
    refuted, held = ('not kept', 'kept') if level else ('not serializable', 'serializable')
    words = [program or RUN, 'audit', '--explain', '--format', 'json', '--workers', '1', *(['--only', '--level', level] if level else [])]
    ran = subprocess.run([*words, os.path.join('.', path)], stdin=subprocess.DEVNULL, stdout=subprocess.PIPE, stderr=subprocess.PIPE)
    report = json.loads(ran.stdout) if ran.stdout.startswith(b'{') else {}
    if (ran.returncode, report.get('verdict')) == (NOT_SERIALIZABLE, refuted):
        return report
    if (ran.returncode, report.get('verdict')) == (SERIALIZABLE, held):
        what = '%s is kept' % report['level'] if level else 'this log is serializable'
        raise Stop('%s: it has an order, which audit --order writes, and so there is no fault to tell' % what, SERIALIZABLE)
    said = report.get('reason') or ran.stderr.decode(errors='replace').strip()
    if ran.returncode == REFUSED and said:
        raise Stop('audit refuses it: ' + said, REFUSED)
    raise Stop("audit does not say '%s', but ends with %d: %s" % (refuted, ran.returncode, said),
               ran.returncode if ran.returncode in (REFUSED, UNKNOWN, OUT_OF_MEMORY, DEVICE_FAILED) else AROUND)
