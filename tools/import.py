#!/usr/bin/env python3
"""import.py --from FORM HISTORY > run.log: the log of a history that another tool recorded.
import.py --back FILE < explanation: what `explain` or `audit --explain` said of such a log, in the history's words.

FORM is `jepsen`, Jepsen's history.edn of the workloads rw-register and list-append, also Maelstrom's; or `plume`, lines of the form
r(KEY,VALUE,SESSION,TXN) and w(KEY,VALUE,SESSION,TXN), as Plume and PolySI have them. HISTORY is a file, or standard input where it is -.

What was left out, and why, stands on standard error. docs/IMPORTING.md says what becomes of each line, and why a log of lists says the same
as the history. Nothing of this is proved: what `check` says of the log is."""
import argparse, json, os, re, sys

# How files begin that were compressed, by what, and what writes them as they were.
COMPRESSED = {b'\xfd7zXZ\0': ('xz', 'xz -dc'), b'\x1f\x8b': ('gzip', 'gzip -dc'), b'\x28\xb5\x2f\xfd': ('zstd', 'zstd -dc'), b'BZh': ('bzip2', 'bzip2 -dc'),
              b'PK\x03\x04': ('zip', 'unzip -p')}
USAGE, UNREADABLE, AROUND = 2, 65, 70
MAX_SESSIONS, MAX_MOMENT, MAX_DEPTH, MAX_TOLD = 65535, 2 ** 64 - 1, 100, 400
STATUSES = '''Status 0 where the log was written, and 1 with --lists where it was and the lists contradict each other; %d for a usage fault;
%d where the history cannot be read, with the line and the reason; %d where something around is wrong, as a file that is missing. But for
status 0 and 1 no log is written: standard output then has one line that no log has, so that `check` refuses it.''' % (USAGE, UNREADABLE, AROUND)
# Of each kind of fault of lists so many are told.
MOST_FAULTS = 10

READ, WRITE, APPEND = 'r', 'w', 'append'
COMMITTED, ABORTED, UNKNOWN = 'commit', 'abort', 'unknown'
KEY = re.compile(r'(?!key:)[A-Za-z0-9_.:/-]{1,64}\Z')


class Unreadable(Exception):
    """What is wrong with a history, and the line where it shows."""

    def __init__(self, line, reason):
        super().__init__(reason)
        self.line = line


# ---- EDN

class Atom:
    """A word of EDN that is no integer, as `:ok`, `true`, `1.5` and `\\a`. There is one of each text."""

    def __init__(self, text):
        self.text = text


class Words(dict):
    """What the words of EDN stand for, `nil` and the atoms; integers are not kept."""

    def __missing__(self, text):
        if INTEGER.match(text):
            return int(text.rstrip('N'))
        if not WORD.match(text):
            raise ValueError('%s is no EDN' % text)
        self[text] = Atom(text)
        return self[text]


class Map(dict):
    def __hash__(self):
        return hash(frozenset(self.items()))


class Tagged(tuple):
    """A tag and the value behind it."""


class Opened:
    """A bracket that is not closed yet, or a prefix (a tag, or `#_`) that has no value yet."""

    def __init__(self, mark, line):
        self.mark, self.line, self.items = mark, line, []


CLOSING, SEQUENCES = {'[': ']', '(': ')', '{': '}', '#{': '}'}, ('[', '(')
CLOSED = frozenset(CLOSING.values())
ESCAPES = {'t': '\t', 'r': '\r', 'n': '\n', 'b': '\b', 'f': '\f', '\\': '\\', '"': '"'}
ESCAPE = re.compile(r'\\(u[0-9A-Fa-f]{4}|.)', re.DOTALL)
STRING = re.compile(r'"[^"\\]*(?:\\.[^"\\]*)*"\Z', re.DOTALL)
END_OF_STRING = re.compile(r'[^"\\]*(?:\\.[^"\\]*)*"', re.DOTALL)
PREFIX = re.compile(r'#(?:_|:?[A-Za-z].*)\Z', re.DOTALL)
PLAIN = re.compile(r'(?:0|[1-9][0-9]{0,30})\Z')
INTEGER = re.compile(r'[-+]?(?:0|[1-9][0-9]*)N?\Z')
WORD = re.compile(r"""(?: [-+]?(?:0|[1-9][0-9]*)(?:M | \.[0-9]*(?:[eE][-+]?[0-9]+)?M? | [eE][-+]?[0-9]+M?)
    | [-+]?[0-9]+/[0-9]+ | \#\#(?:-?Inf|NaN)                                               # a ratio, no number
    | \\(?:newline|return|space|tab|formfeed|backspace|u[0-9A-Fa-f]{4}|o[0-7]{1,3}|.)      # a character
    | :[\w.*+!?$%&=<>|/'-][\w.*+!?$%&=<>|/:\#'-]*                                          # a keyword
    | (?![-+.]?[0-9])[\w.*+!?$%&=<>|/'-][\w.*+!?$%&=<>|/:\#'-]* )\Z""", re.VERBOSE | re.DOTALL)
# words; vectors of integers, at once; brackets; strings, closed or not; tags and #_; characters; comments
TOKEN = re.compile(r"""[^\s,;()\[\]{}"\\\#][^\s,;()\[\]{}"\\]* | \[(?:(?:0|[1-9][0-9]*)[ ])*(?:0|[1-9][0-9]*)\] | [\[\](){}] | \#\{
    | "[^"\\]*(?:\\.[^"\\]*)*" | ".* | \#_ | \#[^\s,;()\[\]{}"\\]* | \\(?:[A-Za-z0-9]+|\S)? | ;.*""", re.VERBOSE | re.DOTALL)
words, tags = Words({'nil': None}), {}


def string(quoted):
    """The string that stands between these quotes."""
    def escaped(found):
        if len(found[1]) == 5:
            return chr(int(found[1][1:], 16))
        if found[1] not in ESCAPES:
            raise ValueError('a string has no escape %s' % found[0])
        return ESCAPES[found[1]]

    return ESCAPE.sub(escaped, quoted[1:-1]) if '\\' in quoted else quoted[1:-1]


def scalar(text):
    """The value of a token that is neither a bracket nor a prefix; a vector of integers is one token."""
    if text[0] == '"':
        return string(text)
    return tuple(map(int, text[1:-1].split())) if text[0] == '[' else words[text]


def collection(opened, line):
    """The value of a bracket that is closed in this line."""
    items = opened.items
    if opened.mark in SEQUENCES:
        return tuple(items)
    if opened.mark == '{' and len(items) % 2:
        raise Unreadable(line, 'the map of line %d has a key without a value' % opened.line)
    value = frozenset(items) if opened.mark == '#{' else Map(zip(items[::2], items[1::2]))
    if len(value) * (2 if opened.mark == '{' else 1) != len(items):
        raise Unreadable(line, 'the %s of line %d has a key twice' % ('set' if opened.mark == '#{' else 'map', opened.line))
    return value


def closed(stack, mark, line):
    """Takes the innermost bracket from the stack, which this mark closes."""
    if not stack:
        raise Unreadable(line, '%s closes nothing' % mark)
    opened = stack.pop()
    if opened.mark not in CLOSING:
        raise Unreadable(line, 'no value stands behind the %s of line %d' % (opened.mark, opened.line))
    if CLOSING[opened.mark] != mark:
        raise Unreadable(line, '%s stands where the %s of line %d is not closed' % (mark, opened.mark, opened.line))
    return opened


def see_packed(number, line):
    """Refuses what is compressed, by its first line."""
    packed = next((by for first, by in COMPRESSED.items() if number == 1 and line.startswith(first)), None)
    if packed:
        raise Unreadable(number, 'it is compressed by %s: %s HISTORY writes it as it was' % packed)


def decoded(lines):
    for number, line in enumerate(lines, 1):
        see_packed(number, line)
        try:
            yield number, line.decode()
        except UnicodeDecodeError:
            raise Unreadable(number, 'a byte that is no UTF-8')


def tokens(lines):
    """The tokens of an EDN text, by lines. A string stands in the line where it ends."""
    number, begun, parts = 0, 0, []
    for number, line in decoded(lines):
        found, start = [], 0
        if parts:
            end = END_OF_STRING.match(line)
            parts.append(end[0] if end else line)
            if not end:
                continue
            found, start, parts = [''.join(parts)], end.end(), []
        found += TOKEN.findall(line, start)
        if found and found[-1][0] == '"' and not STRING.match(found[-1]):
            begun, parts = number, [found.pop()]
        yield number, found
    if parts:
        raise Unreadable(number, 'the text ends within the string of line %d' % begun)


def forms(lines):
    """The forms of an EDN text, each with its first line; of a vector or a list that stands at the top, what is in it."""
    stack, number = [], 1
    for number, found in tokens(lines):
        for text in found:
            line = number
            if text in words:
                value = words[text]
            elif text in CLOSING or text[0] == '#' and PREFIX.match(text):
                if len(stack) == MAX_DEPTH:
                    raise Unreadable(number, 'more than %d brackets within each other' % MAX_DEPTH)
                stack.append(Opened(text, number))
                continue
            elif text in CLOSED:
                opened = closed(stack, text, number)
                if not stack and opened.mark in SEQUENCES:
                    continue
                line, value = opened.line, collection(opened, number)
            elif PLAIN.match(text):
                value = int(text)
            elif text[0] == ';':
                continue
            else:
                try:
                    value = scalar(text)
                except ValueError as wrong:
                    raise Unreadable(number, str(wrong))
            while stack and stack[-1].mark not in CLOSING:
                prefix = stack.pop()
                if prefix.mark == '#_':
                    break
                line, value = prefix.line, Tagged((tags.setdefault(prefix.mark, Atom(prefix.mark)), value))
            else:
                if not stack or len(stack) == 1 and stack[0].mark in SEQUENCES:
                    yield line, value
                else:
                    stack[-1].items.append(value)
    if stack:
        raise Unreadable(number, 'the text ends within the %s of line %d' % (stack[-1].mark, stack[-1].line))


def edn(value):
    """The text of a value."""
    if value is None or value is INITIAL:
        return 'nil'
    if isinstance(value, Atom):
        return value.text
    if isinstance(value, str):
        return json.dumps(value)
    if isinstance(value, Tagged):
        return '%s %s' % tuple(map(edn, value))
    if isinstance(value, Map):
        return '{%s}' % ', '.join(sorted('%s %s' % (edn(key), edn(it)) for key, it in value.items()))
    if isinstance(value, frozenset):
        return '#{%s}' % ' '.join(sorted(map(edn, value)))
    return '[%s]' % ' '.join(map(edn, value)) if isinstance(value, tuple) else str(value)


# ---- histories, of whatever form

INITIAL = object()


class Transaction:
    """What a transaction did: READ, WRITE or APPEND, key, value, and the line of the history; and the lines in which it begins and ends. Of
    Jepsen also its process, and the index of the op that ends it."""

    def __init__(self, opened, begun=None, process=None, index=None):
        self.process, self.index, self.name = process, index, None
        self.operations, self.outcome, self.opened, self.closed, self.begun, self.ended = [], COMMITTED, opened, opened, begun, None


class History:
    """The sessions of a history, each with what it is called there. Its writes are numbered from 1 in its order."""

    def __init__(self, order, initial):
        self.order, self.initial = order, initial
        self.sessions, self.notes = [], {}
        self.identities, self.writes, self.kinds = {}, [], {}  # of writes, their lines, and what is written to a key
        self.names, self.own_names = {}, set()
        self.unwritten = []  # the value, the line, and whether a register held it, of each read of what nobody wrote

    def session(self, name, line):
        """A new session."""
        if len(self.sessions) == MAX_SESSIONS:
            raise Unreadable(line, 'a log has at most %d sessions' % MAX_SESSIONS)
        self.sessions.append((name, []))
        return self.sessions[-1][1]

    def transactions(self):
        return (it for _, transactions in self.sessions for it in transactions)

    def note(self, what, line):
        """Counts something that has to be told."""
        count, first = self.notes.get(what, (0, line))
        self.notes[what] = count + 1, first

    def write(self, kind, key, value, line):
        """Takes note of a write or an append: values of a key are written once."""
        if self.kinds.setdefault(key, kind) != kind:
            raise Unreadable(line, 'key %s is appended to and written, so that it is neither a list nor a register' % edn(key))
        if kind == WRITE and self.is_initial(value):
            raise Unreadable(line, 'key %s gets %s, which is the initial value' % (edn(key), edn(value)))
        if (key, value) in self.identities:
            first = self.writes[self.identities[key, value] - 1]
            raise Unreadable(line, 'key %s gets %s a second time; the first stands in line %d' % (edn(key), edn(value), first))
        self.writes.append(line)
        self.identities[key, value] = len(self.writes)

    def is_initial(self, value):
        return value is None or value == self.initial

    def list_read(self, key, value, line):
        """The list that a read of this key saw; None where the key is a register."""
        kind = self.kinds.get(key)
        if kind == WRITE or kind is None and type(value) is not tuple:
            return None
        if value is None:
            return ()
        if type(value) is not tuple:
            raise Unreadable(line, 'key %s is a list, and %s is read of it, which is none' % (edn(key), edn(value)))
        return value

    def seen(self, key, value, line):
        """The value or the element that a read saw last."""
        elements = self.list_read(key, value, line)
        if elements is None:
            return INITIAL if self.is_initial(value) else value
        return elements[-1] if elements else INITIAL

    def identity(self, key, value):
        """The number of a write; what nobody wrote gets numbers behind all these."""
        return 0 if value is INITIAL else self.identities.setdefault((key, value), len(self.identities) + 1)

    def is_unwritten(self, key, value):
        return value is not INITIAL and self.identities.get((key, value), len(self.writes) + 1) > len(self.writes)

    def name(self, key):
        """What the log calls a key: its own text where that is a key of a log and no other one has it, else key:N."""
        if key not in self.names:
            text = key if isinstance(key, str) else edn(key)
            if KEY.match(text) and text not in self.own_names:
                self.own_names.add(text)
            else:
                text = 'key:%d' % (len(self.names) - len(self.own_names) + 1)
            self.names[key] = text
        return self.names[key]


class Lists:
    """What stands before each element in the lists that were read, each time with the line of the first list that shows it, and who read it."""

    def __init__(self):
        self.longest, self.before = {}, {}

    def add(self, key, elements, line, it):
        """The elements of a list of which it shows something that the lists before it did not."""
        longest = self.longest.get(key, ())
        if elements == longest[:len(elements)]:
            return ()
        goes_on = longest == elements[:len(longest)]
        start = len(longest) if goes_on else 0
        if goes_on:
            self.longest[key] = elements
        for place in range(start, len(elements)):
            before = self.before.setdefault((key, elements[place]), {})
            before.setdefault(elements[place - 1] if place else INITIAL, (line, it))
        return elements[start:]


def lists_seen(history):
    """What the lists show that committed transactions read, and unknown ones of which one of these, or another such one, saw a write; and
    these transactions."""
    lists, counted, writers = Lists(), [], {}
    for it in history.transactions():
        if it.outcome == COMMITTED:
            counted.append(it)
        elif it.outcome == UNKNOWN:
            writers.update(((key, value), it) for kind, key, value, _ in it.operations if kind != READ)
    taken = set()
    for it in counted:
        for kind, key, value, line in it.operations:
            if kind != READ:
                continue
            elements = history.list_read(key, value, line)
            for element in (value,) if elements is None else lists.add(key, elements, line, it):
                writer = writers.get((key, element))
                if writer and writer not in taken:
                    taken.add(writer)
                    counted.append(writer)
    return lists, counted


def log_operations(history, lists, transaction):
    """The reads and writes of the log: the line of the history where it shows, r or w, the key and the value; and the operation of the
    history that it belongs to, with who read a list that shows it."""
    held = {}
    for operation in transaction.operations:
        kind, key, value, line = operation
        if kind == READ:
            held[key] = history.seen(key, value, line)
            yield line, READ, key, held[key], operation, None
            continue
        # an append reads what stands before its element, where the operation before it on the key does not say that already
        for before, (shown, reader) in lists.before.get((key, value), {}).items() if kind == APPEND else ():
            if key not in held or held[key] != before:
                held[key] = before
                yield shown, READ, key, before, operation, reader
        held[key] = value
        yield line, WRITE, key, value, operation, None


def log_of(history, lists=None):
    """The lines of the log, and for each of them the line of the history that it comes from, what stands there, and what it is of which
    transaction."""
    log, places, lists = [], [], lists or lists_seen(history)[0]

    def put(text, line='-', named=None, *about):
        log.append(text)
        places.append((line, named or text, *about))

    if any(it.begun is not None or it.ended is not None for it in history.transactions()):
        put('log 3')
    elif any(it.outcome == UNKNOWN for it in history.transactions()):
        put('log 2')
    for number, (name, transactions) in enumerate(history.sessions, 1):
        put('session %d' % number, named='session %d %s' % (number, name))
        for place, it in enumerate(transactions, 1):
            it.name = '%d.%d' % (number, place)
            put('begin' if it.begun is None else 'begin %d' % it.begun, it.opened, None, it)
            for line, word, key, value, *about in log_operations(history, lists, it):
                if word == READ and it.outcome != ABORTED and history.is_unwritten(key, value):
                    is_register = type(about[0][2]) is not tuple and history.kinds.get(key) != APPEND
                    history.unwritten.append((value, line, is_register))
                put('%s %s %d' % (word, history.name(key), history.identity(key, value)), line, (word, key, value), it, *about)
            put(it.outcome if it.ended is None else '%s %d' % (it.outcome, it.ended), it.closed)
    return log, places


def map_lines(places):
    """A line for each line of the log: its number, its line in the history, and its words, with key and value as they are there."""
    for number, (line, named, *_) in enumerate(places, 1):
        yield '%d %s %s' % (number, line, named if isinstance(named, str) else '%s %s %s' % (named[0], *map(edn, named[1:])))


def operation_lines(log, places):
    """A line of JSON for each line of the log that begins a transaction, reads or writes: what that is in the history."""
    for number, (text, (_, named, *about)) in enumerate(zip(log, places), 1):
        if not about:
            continue
        it, *about = about
        record = {'line': number, 'index': it.index, 'process': it.process}
        if not about:
            record['transaction'] = it.name
        else:
            (kind, key, value, _), reader = about
            list_read = kind == READ and type(value) is tuple
            record.update(id=int(text.split(' ')[2]), op=kind, key=edn(key), value=[*map(edn, value)] if list_read else edn(value))
            if reader:
                record.update(behind=edn(named[2]), shown=reader.index)
        yield json.dumps(record)


# ---- Jepsen

TYPE, PROCESS, F, VALUE, TIME, TXN, INVOKE, OK, INDEX = (
    words[it] for it in (':type', ':process', ':f', ':value', ':time', ':txn', ':invoke', ':ok', ':index'))
OUTCOMES = {OK: COMMITTED, words[':fail']: ABORTED, words[':info']: UNKNOWN}
UNSEEN = 'left out: reads of transactions that ended in :fail, in :info or not at all, where nothing tells what they saw'
MICRO_OPS = {words[':r']: READ, words[':w']: WRITE, words[':append']: APPEND}


def micro_ops(op, line):
    """The micro-ops of a transaction."""
    value = op.get(VALUE)
    if type(value) is not tuple:
        raise Unreadable(line, 'the :value of a transaction is a vector of micro-ops, and not %s' % edn(value))
    for it in value:
        if type(it) is not tuple or len(it) != 3 or it[0] not in MICRO_OPS:
            raise Unreadable(line, 'a micro-op is [:r KEY VALUE], [:w KEY VALUE] or [:append KEY VALUE], and not %s' % edn(it))
    return [(MICRO_OPS[function], key, it, line) for function, key, it in value]


def agree(asked, done):
    """Whether these are the same micro-ops, but for what reads saw."""
    return len(asked) == len(done) and all(a[:2] == d[:2] and (a[0] == READ or a[2] == d[2]) for a, d in zip(asked, done))


class Jepsen:
    """Reads the ops of a Jepsen history."""

    def __init__(self, history):
        self.history, self.running, self.sessions = history, {}, {}

    def moment(self, op, line):
        time = op.get(TIME) if self.history.order == 'real-time' else None
        if not (time is None or isinstance(time, int) and 0 <= time <= MAX_MOMENT):
            raise Unreadable(line, 'a :time is an integer from 0 to %d, and not %s' % (MAX_MOMENT, edn(time)))
        return time

    def invoke(self, process, op, line, index):
        if process in self.running:
            raise Unreadable(line, 'process %d begins an op, and its op of line %d has not ended' % (process, self.running[process].opened))
        it = Transaction(line, self.moment(op, line), process, index)
        it.operations = micro_ops(op, line)
        for kind, key, value, _ in it.operations:
            if kind != READ:
                self.history.write(kind, key, value, line)
        if process not in self.sessions or self.history.order == 'none':
            self.sessions[process] = self.history.session('process %d' % process, line)
        self.sessions[process].append(it)
        self.running[process] = it

    def complete(self, process, op, line, index):
        if process not in self.running:
            raise Unreadable(line, 'process %d ends an op, of which the :invoke is missing' % process)
        it = self.running.pop(process)
        it.closed, it.index = line, index
        if op[TYPE] is not OK:
            self.leave(process, it, OUTCOMES[op[TYPE]], op)
            return
        done, it.ended = micro_ops(op, line), self.moment(op, line)
        if not agree(it.operations, done):
            raise Unreadable(line, 'other micro-ops than those of its :invoke, line %d' % it.opened)
        if None not in (it.begun, it.ended) and it.ended < it.begun:
            raise Unreadable(line, 'a :time before that of its :invoke, line %d' % it.opened)
        it.operations = done

    def leave(self, process, transaction, outcome, op):
        """Ends a transaction that is not known to be committed. Of its reads those are known for which its last op has a value."""
        asked = transaction.operations
        try:
            done = micro_ops(op, transaction.closed)
        except Unreadable:
            done = asked
        transaction.outcome, transaction.operations = outcome, []
        for before, after in zip(asked, done if agree(asked, done) else asked):
            if before[0] != READ or after[2] is not None and before[2] is None:
                transaction.operations.append(after)
            else:
                self.history.note(UNSEEN, transaction.closed)
        if outcome == UNKNOWN:
            del self.sessions[process]

    def take(self, op, line, index):
        op = op[1] if isinstance(op, Tagged) else op
        if not isinstance(op, Map):
            raise Unreadable(line, 'an op is a map, and not %s' % edn(op))
        process, function, kind = op.get(PROCESS), op.get(F), op.get(TYPE)
        if process is None or kind is not INVOKE and kind not in OUTCOMES:
            raise Unreadable(line, 'an op has a :process, and as :type one of :invoke, :ok, :fail and :info')
        if not isinstance(process, int):
            self.history.note('left out: ops of the process %s, which is no client' % edn(process), line)
        elif function not in (None, TXN):
            self.history.note('left out: ops with :f %s, which are no transactions; where they write, the log is wrong' % edn(function), line)
        else:
            index = op[INDEX] if isinstance(op.get(INDEX), int) else index
            (self.invoke if kind is INVOKE else self.complete)(process, op, line, index)

    def read(self, lines):
        number = 1
        try:
            for line, op in forms(lines):
                self.take(op, line, number - 1)
                number += 1
        except Unreadable as wrong:
            raise Unreadable(wrong.line, 'op %d: %s' % (number, wrong))
        for process, it in self.running.items():
            self.history.note('taken as :info: transactions that never end', it.opened)
            self.leave(process, it, UNKNOWN, {})


# ---- Plume and PolySI

NUMBER = rb'\s*(-?[0-9]{1,40})\s*'
OPERATION = re.compile(rb'\s*([rw])\s*\(' + rb','.join([NUMBER] * 4) + rb'\)\s*;?\s*\Z')


class Plume:
    """Reads lines of the form r(KEY,VALUE,SESSION,TXN). `aborted` is the TXN of operations whose transaction was aborted, or None."""

    def __init__(self, history, aborted):
        self.history, self.aborted, self.sessions, self.last, self.begun, self.owners = history, aborted, {}, {}, {}, {}

    def begin(self, session, txn, line):
        """A new transaction."""
        if txn != self.aborted:
            first = self.begun.setdefault((session, txn), line)
            if first != line:
                raise Unreadable(line, 'transaction %d of session %d goes on behind another one; it begins in line %d' % (txn, session, first))
            if self.owners.setdefault(txn, session) != session:
                self.history.note('each taken by itself: transactions with a number that one of another session has', line)
        if session not in self.sessions or self.history.order == 'none':
            self.sessions[session] = self.history.session('session %d' % session, line)
        self.sessions[session].append(Transaction(line))
        self.sessions[session][-1].outcome = ABORTED if txn == self.aborted else COMMITTED
        self.last[session] = txn

    def read(self, lines):
        for line, text in enumerate(lines, 1):
            if not text.strip():
                continue
            see_packed(line, text)
            found = OPERATION.match(text)
            if not found:
                raise Unreadable(line, 'a line is r(KEY,VALUE,SESSION,TXN) or w(KEY,VALUE,SESSION,TXN), with integers')
            kind, (key, value, session, txn) = found[1].decode(), map(int, found.groups()[1:])
            if kind == WRITE:
                self.history.write(kind, key, value, line)
            if self.last.get(session) != txn:
                self.begin(session, txn, line)
            it = self.sessions[session][-1]
            it.operations.append((kind, key, value, line))
            it.closed = line


# ---- the command

class Parser(argparse.ArgumentParser):
    def error(self, message):
        self.print_usage(sys.stderr)
        stop(USAGE, message)


def say(text):
    """Tells something on standard error, where that is open, in a line that is not too long."""
    if sys.stderr:
        shown = re.sub(r'[\x00-\x1f\x7f-\x9f]', '?', text)
        sys.stderr.write('%s: %s\n' % (os.path.basename(sys.argv[0]), shown if len(shown) <= MAX_TOLD else shown[:MAX_TOLD] + ' ..'))


def write_out(text):
    """Writes to standard output, whatever it is."""
    with open(1, 'w', encoding='ascii', newline='\n', closefd=False) as out:
        out.write(text)


def stop(status, reason):
    """Ends the script without a log. What is written has no form that a log has: an empty one would be serializable."""
    say(reason)
    try:
        write_out('no log: see standard error\n')
    except OSError:
        pass
    sys.exit(status)


def initial_value(word):
    if not re.match(r'-?[0-9]+\Z|none\Z', word):
        raise argparse.ArgumentTypeError('an integer or none, and not %s' % word)
    return INITIAL if word == 'none' else int(word)


def arguments():
    about = 'Writes the log of a history that another tool recorded. Unproved; docs/IMPORTING.md says more.'
    parser, back = Parser(description=about, epilog=STATUSES), any(word.split('=')[0] == '--back' for word in sys.argv[1:])
    parser.add_argument('--from', dest='form', required=not back, choices=('jepsen', 'plume'), help='whose history it is')
    parser.add_argument('--order', default='real-time', choices=('real-time', 'sessions', 'none'),
                        help="what an order keeps: the sessions and Jepsen's :time (real-time, where absent), the sessions alone, or neither")
    parser.add_argument('--initial', type=initial_value, metavar='VALUE',
                        help='what a register holds that was never written, an integer or none: 0 of plume, where absent; of jepsen nil besides')
    parser.add_argument('--aborted', type=int, metavar='TXN', help='plume: the number in place of a transaction, where that was aborted')
    parser.add_argument('--map', metavar='FILE', help='a line for each line of the log: its number, its line in HISTORY, and what stands there')
    parser.add_argument('--lists', action='store_true', help='jepsen: tell what the lists contradict by themselves; status 1 where they do')
    parser.add_argument('--blind', action='store_true', help='jepsen: an append is a write alone, also where lists show what stood before it: for '
                        'the levels below snapshot')
    parser.add_argument('--operations', metavar='FILE', help='jepsen: what each line of the log is in the history, for --back')
    parser.add_argument('--back', metavar='FILE', help='no log is written: what explain says on standard input is said in the words of the history')
    parser.add_argument('history', metavar='HISTORY', help='a file, or - for standard input', nargs='?' if back else None)
    given = parser.parse_args()
    if given.aborted is not None and given.form != 'plume':
        parser.error('--aborted is for plume')
    if (given.lists or given.operations or given.blind) and given.form != 'jepsen':
        parser.error('--lists, --operations and --blind are for jepsen' if given.blind else '--lists and --operations are for jepsen')
    if back and (given.form or given.history):
        parser.error('--back takes no history: an explanation stands on standard input')
    return given


def read_history(lines, form, order='real-time', initial=None, aborted=None):
    """The history of a form that these lines have."""
    history = History(order, initial if initial is not None else 0 if form == 'plume' else INITIAL)
    reader = Jepsen(history) if form == 'jepsen' else Plume(history, aborted)
    reader.read(lines)
    if not history.sessions:
        raise Unreadable(1, '; '.join(['there is no transaction in it', *notes(history)]))
    return history


def notes(history):
    """What had to be told of the history, and how often."""
    return ['%s: %d, the first in line %d' % (what, count, first) for what, (count, first) in history.notes.items()]


def tell(history):
    """Tells what the history has, and what the log has not."""
    outcomes = [it.outcome for it in history.transactions()]
    counts = ', '.join('%d %s' % (outcomes.count(outcome), name) for outcome, name in
                       ((COMMITTED, 'committed'), (ABORTED, 'aborted'), (UNKNOWN, 'unknown')))
    say('%d transactions in %d sessions: %s' % (len(outcomes), len(history.sessions), counts))
    for note in notes(history):
        say(note)
    renamed = [(name, edn(key)) for key, name in history.names.items() if name.startswith('key:')]
    for name, key in renamed[:10]:
        say('%s is the key %s' % (name, key))
    if renamed[10:]:
        say('and %d more keys are named so; --map tells them all' % len(renamed[10:]))


def advise_initial(history):
    """Tells what registers may have held before the run: a number that was read and never written, if it is the only one."""
    if not history.unwritten:
        return
    value, line, _ = history.unwritten[0]
    is_only_one = all(it == value and is_register for it, _, is_register in history.unwritten)
    is_written = any(it == value and number <= len(history.writes) for (_, it), number in history.identities.items())
    if type(value) is int and is_only_one and not is_written:
        say('reads of %d, which no transaction wrote: %d, the first in line %d; if each register held %d before the run, take --initial %d'
            % (value, len(history.unwritten), line, value, value))


def advise_blind(history):
    """Tells last at which levels the log may be judged, if it has reads that no transaction made."""
    if history.invented:
        say("appends to lists that their transactions did not read: %d, the first in line %d; the log has a read before each, so 'not kept' of a "
            'level below snapshot may be wrong: for these levels import with --blind' % (len(history.invented), min(line for *_, line in history.invented)))


def write(history, lists, given):
    log, places = log_of(history, Lists() if given.blind else lists)
    history.invented = {about[1]: None for _, _, *about in places if about[2:] and about[2] and about[0].outcome != ABORTED}
    for path, lines in ((given.map, map_lines(places)), (given.operations, operation_lines(log, places))):
        if path:
            with open(path, 'w', encoding='utf-8', errors='backslashreplace', newline='\n') as out:
                out.writelines(it + '\n' for it in lines)
    write_out(''.join(it + '\n' for it in log))


def tell_lists(history, counted):
    """Tells what the lists contradict by themselves, and whether there is anything."""
    import lists  # stands beside this script
    found = lists.Lists(history, counted, edn).found
    kinds = {}
    for (name, *_), words in found.items():
        kinds.setdefault(name, []).append(words)
    for name, its in kinds.items():
        for words in its[:MOST_FAULTS]:
            say(words)
        if its[MOST_FAULTS:]:
            say('%s: %d more' % (name, len(its) - MOST_FAULTS))
    return bool(found)


def go_back(path):
    """Writes what stands on standard input in the words of the history that FILE of --operations has."""
    import back  # stands beside this script
    try:
        with open(path, encoding='utf-8', errors='replace') as records, open(0, errors='replace', closefd=False) as told:
            retold = back.retold(told.read(), records)
        with open(1, 'w', encoding='utf-8', newline='\n', closefd=False) as out:
            out.write(retold)
    except back.Strange as wrong:
        say(str(wrong))
        sys.exit(UNREADABLE)
    except OSError as wrong:
        say('%s: %s' % (wrong.filename or 'standard output', wrong.strerror))
        sys.exit(AROUND)


def main():
    given = arguments()
    if given.back:
        return go_back(given.back)
    contradict = False
    try:
        with open(0 if given.history == '-' else given.history, 'rb', closefd=given.history != '-') as lines:
            history = read_history(lines, given.form, given.order, given.initial, given.aborted)
        lists, counted = lists_seen(history)
        contradict = given.lists and tell_lists(history, counted)
        write(history, lists, given)
        tell(history)
        if given.initial is None:
            advise_initial(history)
        advise_blind(history)
    except Unreadable as wrong:
        stop(UNREADABLE, '%s:%d: %s' % (given.history, wrong.line, wrong))
    except OSError as wrong:
        stop(AROUND, '%s: %s' % (wrong.filename, wrong.strerror) if wrong.filename else str(wrong))
    except MemoryError:
        stop(AROUND, 'out of memory')
    sys.exit(1 if contradict else 0)


if __name__ == '__main__':
    main()
