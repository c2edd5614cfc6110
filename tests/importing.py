#!/usr/bin/env python3
"""importing.py PROGRAM: the logs that tools/import.py makes of histories of other tools.

Histories written by hand must give the log, the map and the words that stand beside them here, and `check` of PROGRAM the verdict. Each kind
of bad history must be refused with its line, and leave something that `check` refuses. Thousands of made histories of lists and registers, of
which many contradict themselves, must be serializable by `check` exactly where some order of their committed and of some unknown
transactions, replayed on plain lists, explains them; what --lists tells of one must rule out each order, and what --back makes of `explain`
must be in the history. A history of 100,000 ops must give the log that is made beside it. Last line: 'importing: N passed, M failed'."""
import collections, concurrent.futures, importlib.util, io, itertools, os, random, re, subprocess, sys, tempfile, time

HERE = os.path.dirname(os.path.abspath(__file__))
SCRIPT = os.path.join(os.path.dirname(HERE), 'tools', 'import.py')
sys.path.insert(0, os.path.dirname(SCRIPT))
import back, lists
NO_LOG, UNREADABLE, USAGE, AROUND = b'no log: see standard error\n', 65, 2, 70
MADE, OPS, LATE = 2000, 100000, 600

# ---- by hand: name, words of the command, history, the log, the first words of the verdict, and what stands on standard error

REGISTERS = '''{:type :invoke, :f :txn, :value [[:w 1 1] [:r 2 nil]], :process 0, :time 10, :index 0}
{:type :invoke, :f :txn, :value [[:r 1 nil] [:w 2 1]], :process 1, :time 12, :index 1}
{:type :ok, :f :txn, :value [[:w 1 1] [:r 2 nil]], :process 0, :time 20, :index 2}
{:type :ok, :f :txn, :value [[:r 1 1] [:w 2 1]], :process 1, :time 30, :index 3}
{:type :invoke, :f :txn, :value [[:w 1 2]], :process 0, :time 40, :index 4}
{:type :fail, :f :txn, :value [[:w 1 2]], :process 0, :time 41, :index 5, :error :conflict}
{:type :invoke, :f :txn, :value [[:r 1 nil] [:w 2 2]], :process 1, :time 50, :index 6}
{:type :info, :f :txn, :value [[:r 1 nil] [:w 2 2]], :process 1, :time 51, :index 7, :error :timeout}
{:type :info, :f :start, :value nil, :process :nemesis, :time 55, :index 8}
{:type :invoke, :f :txn, :value [[:r 2 nil]], :process 1, :time 60, :index 9}
{:type :ok, :f :txn, :value [[:r 2 2]], :process 1, :time 70, :index 10}
'''
REGISTERS_LOG = '''log 3
session 1
begin 10
w 1 1
r 2 0
commit 20
begin 40
w 1 3
abort
session 2
begin 12
r 1 1
w 2 2
commit 30
begin 50
w 2 4
unknown
session 3
begin 60
r 2 4
commit 70
'''
REGISTERS_TOLD = ['5 transactions in 3 sessions: 3 committed, 1 aborted, 1 unknown',
                  'left out: reads of transactions that ended in :fail, in :info or not at all, where nothing tells what they saw: 1, the first in line 8',
                  'left out: ops of the process :nemesis, which is no client: 1, the first in line 9']
REGISTERS_MAP = '''1 - log 3
2 - session 1 process 0
3 1 begin 10
4 3 w 1 1
5 3 r 2 nil
6 3 commit 20
7 5 begin 40
8 6 w 1 2
9 6 abort
10 - session 2 process 1
11 2 begin 12
12 4 r 1 1
13 4 w 2 1
14 4 commit 30
15 7 begin 50
16 8 w 2 2
17 8 unknown
18 - session 3 process 1
19 10 begin 60
20 11 r 2 2
21 11 commit 70
'''


def without_moments(log):
    return '\n'.join(line.split(' ')[0] if line[:5] in ('begin', 'commi') else line for line in log.split('\n'))


# the transactions of two processes, ops without :time and :f
LISTS = '''{:process 0, :type :invoke, :value [[:append :x 7] [:append :x 8]]}
{:process 0, :type :ok, :value [[:append :x 7] [:append :x 8]]}
{:process 1, :type :invoke, :value [[:r :x nil] [:append :x 9] [:r :x nil] [:append :y 7]]}
{:process 1, :type :ok, :value [[:r :x [7 8]] [:append :x 9] [:r :x [7 8 9]] [:append :y 7]]}
{:process 0, :type :invoke, :value [[:append :x 5]]}
{:process 0, :type :ok, :value [[:append :x 5]]}
{:process 1, :type :invoke, :value [[:r :y nil] [:r :z nil] [:r :w nil]]}
{:process 1, :type :ok, :value [[:r :y [7]] [:r :z []] [:r :w nil]]}
'''
# 7 stands behind nothing, 8 behind 7 (which the write before it says), 9 behind 8 (which the read before it says); nobody saw 5
LISTS_LOG = '''session 1
begin
r :x 0
w :x 1
w :x 2
commit
begin
w :x 5
commit
session 2
begin
r :x 2
w :x 3
r :x 3
r :y 0
w :y 4
commit
begin
r :y 4
r :z 0
r :w 0
commit
'''
# the third list has 2 before 1: the append of 1 reads 0 and 2, that of 2 reads 1 and 0
CONTRADICTION = '''{:process 0, :type :invoke, :value [[:append 1 1]]}
{:process 0, :type :ok, :value [[:append 1 1]]}
{:process 1, :type :invoke, :value [[:append 1 2]]}
{:process 1, :type :ok, :value [[:append 1 2]]}
{:process 0, :type :invoke, :value [[:r 1 nil]]}
{:process 0, :type :ok, :value [[:r 1 [1 2]]]}
{:process 1, :type :invoke, :value [[:r 1 nil]]}
{:process 1, :type :ok, :value [[:r 1 [2 1]]]}
'''
CONTRADICTION_LOG = '''session 1
begin
r 1 0
r 1 2
w 1 1
commit
begin
r 1 2
commit
session 2
begin
r 1 1
r 1 0
w 1 2
commit
begin
r 1 1
commit
'''
CONTRADICTION_MAP = '''1 - session 1 process 0
2 1 begin
3 6 r 1 nil
4 8 r 1 2
5 2 w 1 1
6 2 commit
7 5 begin
8 6 r 1 2
9 6 commit
10 - session 2 process 1
11 3 begin
12 6 r 1 1
13 8 r 1 nil
14 4 w 1 2
15 4 commit
16 7 begin
17 8 r 1 1
18 8 commit
'''
# Process 0 ends unknown, and its list counts, since process 1 saw its 3 of key 2; that of process 2 does not: nobody saw its 4. Nobody
# appended the 6, which gets the first number behind those of the five appends. Process 3 never ends.
UNLEARNT = '''[{:process 0, :type :invoke, :value [[:append 2 3] [:r 1 nil]]}
 {:process 0, :type :info, :value [[:append 2 3] [:r 1 [1 2]]]}
 {:process 1, :type :invoke, :value [[:r 2 nil] [:append 1 1] [:append 1 2]]}
 {:process 2, :type :invoke, :value [[:append 2 4] [:r 1 nil]]}
 {:process 3, :type :invoke, :value [[:r 1 nil] [:append 3 1]]}
 {:process 2, :type :info, :value [[:append 2 4] [:r 1 [2 1]]]}
 {:process 1, :type :ok, :value [[:r 2 [3]] [:append 1 1] [:append 1 2]]}
 {:process 1, :type :invoke, :value [[:r 3 nil]]}
 {:process 1, :type :ok, :value [[:r 3 [6]]]}]
'''
UNLEARNT_LOG = '''log 2
session 1
begin
r 2 0
w 2 1
r 1 3
unknown
session 2
begin
r 2 1
r 1 0
w 1 2
w 1 3
commit
begin
r 3 6
commit
session 3
begin
w 2 4
r 1 2
unknown
session 4
begin
w 3 5
unknown
'''
UNLEARNT_TOLD = ['5 transactions in 4 sessions: 2 committed, 0 aborted, 3 unknown', 'taken as :info: transactions that never end: 1, the first in line 5',
                 'left out: reads of transactions that ended in :fail, in :info or not at all, where nothing tells what they saw: 1, the first in line 5']
# all that EDN has, in the places where it means nothing, and keys and values of each kind
ODD = r''';; a comment with ] and " in it
#jepsen.history.Op{:index 0N, :type :invoke #_ (a discarded form), :process 0, :value [[:w "stock 7" "a\"b\u0041"] [:w "x" 1] [:w x 1]
  [:w [1 2] 1.5] [:w :k/x \a] [:w "5" true] [:w 5 #{1 2}] [:w 6 {:a 1}] [:w 7 #inst "2020-01-01"] [:w 8 -3] [:w -0 +4N]] :error "two
lines", :more (\newline \space 2/3 1e5M ##Inf #_ #_ two forms {} #{} nil false #my/tag [1 2N])}
{:type :ok, :process 0, :value [[:w "stock 7" "a\"bA"], [:w "x" 1], [:w x 1] [:w (1, 2) 1.5] [:w :k/x \a] [:w "5" true] [:w 5 #{2 1}]
  [:w 6 {:a 1}] [:w 7 #inst"2020-01-01"] [:w 8 -3] [:w 0 4]]}
{:type :invoke :process 0 :value [[:r "stock 7" nil] [:r "key:1" nil] [:r 9 nil]]}{:type :ok :process 0 :value [[:r "stock 7" "a\"bA"]
  [:r "key:1" nil] [:r 9 nil]]}#_{:type :ok}
{:type :invoke, :process 0, :f :read, :value nil}
{:type :ok, :process 0, :f :read, :value 1}
'''
ODD_LOG = '''session 1
begin
w key:1 1
w x 2
w key:2 3
w key:3 4
w :k/x 5
w 5 6
w key:4 7
w 6 8
w 7 9
w 8 10
w 0 11
commit
begin
r key:1 1
r key:5 0
r 9 0
commit
'''
ODD_TOLD = ['2 transactions in 1 sessions: 2 committed, 0 aborted, 0 unknown',
            'left out: ops with :f :read, which are no transactions; where they write, the log is wrong: 2, the first in line 9',
            'key:1 is the key "stock 7"', 'key:2 is the key x', 'key:3 is the key [1 2]', 'key:4 is the key 5', 'key:5 is the key "key:1"']

PLUME = '''w(1,5,0,0)
r(1,5,1,1)
w(2,5,0,0)
 w( 2 , 7 , 1 , 1 )

r(2,0,0,2)
r(-3,-1,0,2)
w(1,9,2,-1)
w(1,8,2,-1)
'''
PLUME_LOG = '''session 1
begin
w 1 1
w 2 2
commit
begin
r 2 %d
r -3 %d
commit
session 2
begin
r 1 1
w 2 3
commit
session 3
begin
w 1 4
w 1 5
%s
'''

EXAMPLE_LOG = '''log 3
session 1
begin 1000
r :x 0
r :y 0
w :y 1
commit 2000
begin 9000
r :y 3
r :x 2
commit 9100
session 2
begin 1200
r :y 0
r :x 0
w :x 2
commit 2100
session 3
begin 3000
r :y 1
w :y 3
unknown
'''
EXAMPLE_TOLD = ['4 transactions in 3 sessions: 3 committed, 0 aborted, 1 unknown',
                'left out: ops of the process :nemesis, which is no client: 1, the first in line 5',
                'left out: reads of transactions that ended in :fail, in :info or not at all, where nothing tells what they saw: 1, the first in line 7']
with open(os.path.join(os.path.dirname(HERE), 'examples', 'list_append.edn')) as example:
    EXAMPLE = example.read()

def invented(count, line):
    """What is told of appends before which the log has a read that was not made."""
    return ("appends to lists that their transactions did not read: %d, the first in line %d; the log has a read before each, so 'not kept' of a "
            'level below snapshot may be wrong: for these levels import with --blind' % (count, line))


def blind(log, *left_out):
    """A log without the first of each of these lines."""
    for line in left_out:
        log = log.replace('\n%s\n' % line, '\n', 1)
    return log


JEPSEN = ['--from', 'jepsen']
BY_HAND = [
    ('registers', JEPSEN, REGISTERS, REGISTERS_LOG, 'serializable', REGISTERS_TOLD, REGISTERS_MAP),
    ('registers, sessions alone', JEPSEN + ['--order', 'sessions'], REGISTERS,
     without_moments(REGISTERS_LOG).replace('log 3', 'log 2'), 'serializable', REGISTERS_TOLD, None),
    ('registers, no order', JEPSEN + ['--order', 'none'], REGISTERS,
     'log 2\nsession 1\nbegin\nw 1 1\nr 2 0\ncommit\nsession 2\nbegin\nr 1 1\nw 2 2\ncommit\nsession 3\nbegin\nw 1 3\nabort\n'
     'session 4\nbegin\nw 2 4\nunknown\nsession 5\nbegin\nr 2 4\ncommit\n', 'serializable',
     [REGISTERS_TOLD[0].replace('3 sessions', '5 sessions'), *REGISTERS_TOLD[1:]], None),
    ('lists', JEPSEN, LISTS, LISTS_LOG, 'serializable', ['4 transactions in 2 sessions: 4 committed, 0 aborted, 0 unknown', invented(2, 2)], None),
    ('blind appends', JEPSEN + ['--blind'], LISTS, blind(LISTS_LOG, 'r :x 0', 'r :y 0'), 'serializable',
     ['4 transactions in 2 sessions: 4 committed, 0 aborted, 0 unknown'], None),
    ('blind appends of lists that contradict each other', JEPSEN + ['--blind'], CONTRADICTION, blind(CONTRADICTION_LOG, 'r 1 0', 'r 1 2', 'r 1 1', 'r 1 0'),
     'not serializable: A9 pruning ends in a cycle', ['4 transactions in 2 sessions: 4 committed, 0 aborted, 0 unknown'], None),
    ('the example, blind', JEPSEN + ['--blind'], EXAMPLE, blind(EXAMPLE_LOG, 'r :y 0', 'r :x 0\nw :x 2', 'r :y 1').replace('commit 2100', 'w :x 2\ncommit 2100'),
     'not serializable: A8 cycle of known edges', EXAMPLE_TOLD, None),
    ('registers, blind', JEPSEN + ['--blind'], REGISTERS, REGISTERS_LOG, 'serializable', REGISTERS_TOLD, None),
    ('lists that contradict each other', JEPSEN, CONTRADICTION, CONTRADICTION_LOG, 'not serializable: A6 split read at 1.1 op 2',
     ['4 transactions in 2 sessions: 4 committed, 0 aborted, 0 unknown', invented(2, 2)], CONTRADICTION_MAP),
    ('lists and unknown outcomes', JEPSEN, UNLEARNT, UNLEARNT_LOG, 'not serializable: A1 unknown read at 2.2 op 1', UNLEARNT_TOLD + [invented(2, 2)], None),
    ('the example', JEPSEN, EXAMPLE, EXAMPLE_LOG, 'not serializable: A8 cycle of known edges', EXAMPLE_TOLD + [invented(3, 3)], None),
    ('odd EDN', JEPSEN, ODD, ODD_LOG, 'serializable', ODD_TOLD, None),
    ('an initial value', JEPSEN + ['--initial', '0'], '''{:type :invoke, :process 4, :value [[:r 1 nil] [:r 2 nil] [:append 3 0]]}
{:type :ok, :process 4, :value [[:r 1 0] [:r 2 nil] [:append 3 0]]}''', 'session 1\nbegin\nr 1 0\nr 2 0\nw 3 1\ncommit\n', 'serializable',
     ['1 transactions in 1 sessions: 1 committed, 0 aborted, 0 unknown'], None),
    ('plume', ['--from', 'plume', '--initial', '-1'], PLUME, PLUME_LOG % (6, 0, 'commit'), 'not serializable: A1 unknown read at 1.2 op 1',
     ['4 transactions in 3 sessions: 4 committed, 0 aborted, 0 unknown'], None),
    ('plume, aborted ones', ['--from', 'plume', '--aborted', '-1', '--initial', 'none'], PLUME, PLUME_LOG % (6, 7, 'abort'),
     'not serializable: A1 unknown read at 1.2 op 1', ['4 transactions in 3 sessions: 3 committed, 1 aborted, 0 unknown'], None),
    ('plume, numbers of their sessions', ['--from', 'plume'], 'w(1,1,5,0)\r\nr(1,1,6,0)\r\nr(2,0,6,0)', 'session 1\nbegin\nw 1 1\ncommit\nsession 2\n'
     'begin\nr 1 1\nr 2 0\ncommit\n', 'serializable', ['2 transactions in 2 sessions: 2 committed, 0 aborted, 0 unknown',
     'each taken by itself: transactions with a number that one of another session has: 1, the first in line 2'],
     '1 - session 1 session 5\n2 1 begin\n3 1 w 1 1\n4 1 commit\n5 - session 2 session 6\n6 2 begin\n7 2 r 1 1\n8 3 r 2 nil\n9 3 commit\n'),
]

# ---- lists that contradict each other: name, words of the command, the transactions, and what stands on standard error of it

def history_of(*transactions):
    """A history of transactions one behind the other: each is its process, how it ends, and its micro-ops."""
    ops = []
    for text in transactions:
        process, end, done = text.split(' ', 2)
        asked = re.sub(r'\[:r (\S+) (?:\[[^]]*\]|\S+)\]', r'[:r \1 nil]', done)
        ops += [(process, 'invoke', asked), (process, end, done)]
    return ''.join('{:process %s, :type :%s, :time %d, :value [%s]}\n' % (*op[:2], place, op[2]) for place, op in enumerate(ops))


APPENDS, TWENTY = ('0 ok [:append 4 1]', '1 ok [:append 4 2]'), ' '.join(map(str, range(1, 21)))
CONTRADICTING = [
    ('turned lists', [], (*APPENDS, '3 ok [:r 4 [2 1]]', '2 ok [:r 4 [1 2]]'),
     ['incompatible-order: list 4 is [2 1] by operation 5 (process 3), and [1 2] by operation 7 (process 2)']),
    ('long lists', [], ('0 ok ' + ' '.join('[:append 4 %d]' % n for n in range(1, 21)), '1 ok [:r 4 [%s]]' % TWENTY, '2 ok [:r 4 [%s]]' % TWENTY.replace('10 11', '11 10')),
     ['incompatible-order: list 4 is [.. 6 7 8 9 10 11 12 13 ..] by operation 3 (process 1), and [.. 6 7 8 9 11 10 12 13 ..] by operation 5 (process 2)']),
    ('an element twice', [], (*APPENDS, '2 ok [:r 4 [1 2 1]]'), ['duplicate-elements: list 4 has 1 twice by operation 5 (process 2): [1 2 1]']),
    ('an element of nobody', [], (*APPENDS, '2 ok [:r 4 [1 9 2]]'), ['garbage read: list 4 has 9 by operation 5 (process 2), which nobody appended: [1 9 2]']),
    ('an element that failed', [], ('0 fail [:append 4 1]', '1 ok [:r 4 [1]]'),
     ['G1a: list 4 has 1 by operation 3 (process 1), which operation 1 (process 0) appended, and failed: [1]']),
    ('own reads', [], ('0 ok [:r 4 []] [:append 4 1] [:r 4 []]',), ['internal: list 4 is [] by operation 1 (process 0), which had [1] itself']),
    ('a lost update', [], ('0 ok [:r 4 []] [:append 4 1]', '1 ok [:r 4 []] [:append 4 2]'),
     ['lost-update: operation 1 (process 0) and operation 3 (process 1) both read [] of list 4, and appended 1 and 2']),
    ('an append that is missing', ['--order', 'none'], (*APPENDS, '2 ok [:r 4 [1]] [:append 4 7]', '3 ok [:r 4 [1 2]]'),
     ['lost append: operation 5 (process 2) read [1] of list 4 and appended 7, and by operation 7 (process 3) the list is [1 2]']),
    ('one that is missing in time', [], (*APPENDS, '2 ok [:r 4 [2]]'),
     ['lost append: operation 1 (process 0) appended 1 to list 4 before operation 3 (process 1) appended 2, and by operation 5 (process 2) the list is [2]']),
    ('time that does not count', ['--order', 'sessions'], (*APPENDS, '2 ok [:r 4 [2]]'), []),
    ('one that is missing in a session', ['--order', 'sessions'], ('0 ok [:append 4 1]', '0 ok [:append 4 2]', '2 ok [:r 4 [2]]'),
     ['lost append: operation 1 (process 0) appended 1 to list 4 before operation 3 (process 0) appended 2, and by operation 5 (process 2) the list is [2]']),
    ('a session that does not count', ['--order', 'none'], ('0 ok [:append 4 1]', '0 ok [:append 4 2]', '2 ok [:r 4 [2]]'), []),
    ('lists that are right', [], (*APPENDS, '2 ok [:r 4 [1]]', '3 ok [:r 4 [1 2]] [:append 4 3] [:r 4 [1 2 3]]'), []),
    ('odd keys', [], ('0 ok [:append "100%s" 1]', '1 ok [:r "100%s" [1 "%d"]]'),
     ['garbage read: list "100%s" has "%d" by operation 3 (process 1), which nobody appended: [1 "%d"]']),
    ('many', [], ['0 ok [:append %d 1] [:r %d [2 1]]' % (n, n) for n in range(12)],
     ['garbage read: list %d has 2 by operation %d (process 0), which nobody appended: [2 1]' % (n, 2 * n + 1) for n in range(10)] + ['garbage read: 2 more']),
]
# what is said of a history, in its own words
BACK = [
    (EXAMPLE, ['not serializable: A8 cycle of known edges', 'cycle %s %s %s',
               'in short: %s did not see what %s wrote to :x; %s did not see what %s wrote to :y',
               '%s before %s: %s reads [] of list :x, and %s, which reads it too, appended 1 to list :x',
               '%s before %s: %s reads [] of list :y, and %s, which reads it too, appended 1 to list :y',
               'known as: write skew (G2-item)'],
     (2, 3, 2, 2, 3, 3, 2, 2, 3, 2, 3, 3, 2, 3, 2), {2: 0, 3: 1}),
    (CONTRADICTION, ['not serializable: A6 split read at %s', '%s appended 1 to list 1 behind nothing (as operation 5 read it)',
                     '%s then appended 1 to list 1 behind 2 (as operation 7 read it), which %s appended'], (1, 1, 1, 3), {1: 0, 3: 1}),
    (REGISTERS.replace('[:r 1 1]', '[:r 1 9]'), ['not serializable: A1 unknown read at %s', '%s reads 9 of 1, which no transaction wrote'], (3, 3), {3: 1}),
    (history_of('0 ok [:w 1 1]', '1 ok [:w 1 2]', '2 ok [:r 1 1]'),
     ['not serializable: A9 pruning ends in a cycle', 'in short: %s began after %s ended, but did not see what %s wrote to 1 (by [1])',
      'cycle from %s:', '%s before %s: %s ended at 3, %s began at 4',
      '%s before %s: %s reads 1 of 1 which %s wrote, which by [1] comes before 2, which %s wrote', 'known as: stale read (G-single-realtime)',
      'these orders of versions are forced:', '[1] 1: 1, which %s wrote, comes before 2, which %s wrote:',
      '    %s before %s: %s ended at 1, %s began at 2'],
     (5, 3, 3, 3, 3, 5, 3, 5, 5, 3, 5, 1, 3, 1, 3, 1, 3, 1, 3), {1: 0, 3: 1, 5: 2}),
]
CLAIM = re.compile(r"process (\d+)'s transaction \(index (\d+)\) (?:then )?(appended|wrote|reads) (\[[^]]*\]|\S+) (?:to|of) (?:list )?(\d+)(?: behind (\S+) \(as operation (\d+))?")

# ---- bad histories: the form, the history, and what is said of it, with the line

INVOKE = '{:type :invoke, :process 0, :time 5, :value [[:r 1 nil] [:append 1 1]]}\n'
BAD = [
    ('jepsen', '', '1: there is no transaction in it'),
    ('jepsen', '{:type :info, :process :nemesis, :f :start}\n',
     '1: there is no transaction in it; left out: ops of the process :nemesis, which is no client: 1, the first in line 1'),
    ('jepsen', INVOKE + '{:type :ok, :process 0, :value [[:r 1 nil] [:append 1 1]}\n', '2: op 2: } stands where the [ of line 2 is not closed'),
    ('jepsen', INVOKE + '{:type :ok, :process 0,\n:value [[:r 1 nil]', '3: op 2: the text ends within the [ of line 3'),
    ('jepsen', INVOKE + '{:type :ok, :process 0,\n:value [[:r 1 nil]]', '3: op 2: the text ends within the { of line 2'),
    ('jepsen', '[' + INVOKE, '1: op 2: the text ends within the [ of line 1'),
    ('jepsen', INVOKE + ']', '2: op 2: ] closes nothing'),
    ('jepsen', INVOKE + '"a\nb\\', '3: op 2: the text ends within the string of line 2'),
    ('jepsen', INVOKE + '#_', '2: op 2: the text ends within the #_ of line 2'),
    ('jepsen', INVOKE + '(#_)', '2: op 2: no value stands behind the #_ of line 2'),
    ('jepsen', INVOKE + '[#tag]', '2: op 2: no value stands behind the #tag of line 2'),
    ('jepsen', INVOKE + '{:type}', '2: op 2: the map of line 2 has a key without a value'),
    ('jepsen', INVOKE + '{:type :ok\n:type :info}', '3: op 2: the map of line 2 has a key twice'),
    ('jepsen', INVOKE + '#{1\n2\n1}', '4: op 2: the set of line 2 has a key twice'),
    ('jepsen', INVOKE + '{:process 007}', '2: op 2: 007 is no EDN'),
    ('jepsen', INVOKE + '{:process `a}', '2: op 2: `a is no EDN'),
    ('jepsen', INVOKE + '{:process # 5}', '2: op 2: # is no EDN'),
    ('jepsen', INVOKE + '{:process \\foo}', '2: op 2: \\foo is no EDN'),
    ('jepsen', INVOKE + '{:process "\\q"}', '2: op 2: a string has no escape \\q'),
    ('jepsen', INVOKE + '{:process ' + '9' * 5000 + '}', '2: op 2: '),
    ('jepsen', INVOKE + '[' * 100000, '2: op 2: more than 100 brackets within each other'),
    ('jepsen', INVOKE + '{:process \udcff}', '2: op 2: a byte that is no UTF-8'),
    ('jepsen', '\udcfd7zXZ\0\udcff', '1: op 1: it is compressed by xz: xz -dc HISTORY writes it as it was'),
    ('jepsen', 'PK\3\4\24\0\n', '1: op 1: it is compressed by zip: unzip -p HISTORY writes it as it was'),
    ('plume', 'PK\3\4\24\0\n', '1: it is compressed by zip: unzip -p HISTORY writes it as it was'),
    ('jepsen', INVOKE + ':ok', '2: op 2: an op is a map, and not :ok'),
    ('jepsen', INVOKE + '{:process 0, :value 1}', '2: op 2: an op has a :process, and as :type one of :invoke, :ok, :fail and :info'),
    ('jepsen', INVOKE + '{:process 0, :type :okay}', '2: op 2: an op has a :process, and as :type one of :invoke, :ok, :fail and :info'),
    ('jepsen', INVOKE + '{:type :ok}', '2: op 2: an op has a :process, and as :type one of :invoke, :ok, :fail and :info'),
    ('jepsen', INVOKE + '{:type :ok, :process 1, :value [[:r 1 nil]]}', '2: op 2: process 1 ends an op, of which the :invoke is missing'),
    ('jepsen', INVOKE + INVOKE, '2: op 2: process 0 begins an op, and its op of line 1 has not ended'),
    ('jepsen', INVOKE + '{:type :ok, :process 0, :value [[:r 1 []] [:append 1 2]]}', '2: op 2: other micro-ops than those of its :invoke, line 1'),
    ('jepsen', INVOKE + '{:type :ok, :process 0, :value [[:r 2 []] [:append 1 1]]}', '2: op 2: other micro-ops than those of its :invoke, line 1'),
    ('jepsen', INVOKE + '{:type :ok, :process 0, :value [[:r 1 []]]}', '2: op 2: other micro-ops than those of its :invoke, line 1'),
    ('jepsen', INVOKE + '{:type :ok, :process 0}', '2: op 2: the :value of a transaction is a vector of micro-ops, and not nil'),
    ('jepsen', INVOKE + '{:type :invoke, :process 1, :value [[:cas 1 [2 3]]]}',
     '2: op 2: a micro-op is [:r KEY VALUE], [:w KEY VALUE] or [:append KEY VALUE], and not [:cas 1 [2 3]]'),
    ('jepsen', INVOKE + '{:type :invoke, :process 1, :value [[:r 1]]}',
     '2: op 2: a micro-op is [:r KEY VALUE], [:w KEY VALUE] or [:append KEY VALUE], and not [:r 1]'),
    ('jepsen', INVOKE + '{:type :ok, :process 0, :time 4, :value [[:r 1 []] [:append 1 1]]}', '2: op 2: a :time before that of its :invoke, line 1'),
    ('jepsen', '{:type :invoke, :process 0, :time -1, :value []}', '1: op 1: a :time is an integer from 0 to 18446744073709551615, and not -1'),
    ('jepsen', '{:type :invoke, :process 0, :time 18446744073709551616, :value []}',
     '1: op 1: a :time is an integer from 0 to 18446744073709551615, and not 18446744073709551616'),
    ('jepsen', '{:type :invoke, :process 0, :time 1.5, :value []}', '1: op 1: a :time is an integer from 0 to 18446744073709551615, and not 1.5'),
    ('jepsen', INVOKE + '{:type :invoke, :process 1, :value [[:append 2 1] [:append 1 1]]}',
     '2: op 2: key 1 gets 1 a second time; the first stands in line 1'),
    ('jepsen', INVOKE + '{:type :invoke, :process 1, :value [[:w 1 2]]}',
     '2: op 2: key 1 is appended to and written, so that it is neither a list nor a register'),
    ('jepsen', INVOKE + '{:type :invoke, :process 1, :value [[:w 2 nil]]}', '2: op 2: key 2 gets nil, which is the initial value'),
    ('jepsen', INVOKE + '{:type :ok, :process 0, :value [[:r 1 5] [:append 1 1]]}', '2: key 1 is a list, and 5 is read of it, which is none'),
    ('jepsen', INVOKE + '{:type :fail, :process 0, :value [[:r 1 #{5}] [:append 1 1]]}', '2: key 1 is a list, and #{5} is read of it, which is none'),
    ('plume', '', '1: there is no transaction in it'),
    ('plume', 'w(1,1,1,1)\nr(1,1,1', '2: a line is r(KEY,VALUE,SESSION,TXN) or w(KEY,VALUE,SESSION,TXN), with integers'),
    ('plume', 'w(1,1,1,1)\nr(1,x,1,1)', '2: a line is r(KEY,VALUE,SESSION,TXN) or w(KEY,VALUE,SESSION,TXN), with integers'),
    ('plume', 'w(1,1,1,1)\nr(1,1,1,1) r(1,1,1,1)', '2: a line is r(KEY,VALUE,SESSION,TXN) or w(KEY,VALUE,SESSION,TXN), with integers'),
    ('plume', 'w(1,1,1,1)\nw(2,1,1,2)\nr(2,1,1,1)\n', '3: transaction 1 of session 1 goes on behind another one; it begins in line 1'),
    ('plume', 'w(1,1,1,1)\nw(2,1,1,2)\nw(1,1,2,3)\n', '3: key 1 gets 1 a second time; the first stands in line 1'),
    ('plume', 'w(1,0,1,1)\n', '1: key 1 gets 0, which is the initial value'),
    ('plume', ''.join('w(1,%d,%d,1)\n' % (n, n) for n in range(1, 65537)), '65536: a log has at most 65535 sessions'),
]
TOLD = [
    ('jepsen', INVOKE + '{:type :ok', '2: op 2: the text ends within the { of line 2'),
    ('jepsen', INVOKE + '{:process \x1b[0m}', '2: op 2: ? is no EDN'),
    ('jepsen', INVOKE + '[[' + '5 ' * 1000 + ']]', '2: op 2: an op is a map, and not [%s ..' % ('5 ' * 200)[:400 - len('-:2: op 2: an op is a map, and not [')]),
    ('plume', 'w(1,1,1,1)\n\nw(1,1,1,1)', '3: key 1 gets 1 a second time; the first stands in line 1'),
]
AROUND_IT = [
    ('no word', [], USAGE, 'the following arguments are required'),
    ('another form', ['--from', 'jepson', '-'], USAGE, "argument --from: invalid choice: 'jepson'"),
    ('an initial value', ['--from', 'plume', '--initial', 'x', '-'], USAGE, 'argument --initial: an integer or none, and not x'),
    ('aborted ones of jepsen', ['--from', 'jepsen', '--aborted', '-1', '-'], USAGE, '--aborted is for plume'),
    ('a file that is missing', ['--from', 'plume', '/nowhere/history'], AROUND, '/nowhere/history: No such file or directory'),
    ('a folder', ['--from', 'plume', '/'], AROUND, "Is a directory"),
    ('lists of plume', ['--from', 'plume', '--lists', '-'], USAGE, '--lists and --operations are for jepsen'),
    ('blind appends of plume', ['--from', 'plume', '--blind', '-'], USAGE, '--lists, --operations and --blind are for jepsen'),
    ('operations of plume', ['--from', 'plume', '--operations', 'x', '-'], USAGE, '--lists and --operations are for jepsen'),
    ('a history to go back to', ['--back', 'x', '--from', 'plume'], USAGE, '--back takes no history'),
    ('a map that cannot be written', ['--from', 'plume', '--map', '/nowhere/map', '-'], AROUND, '/nowhere/map: No such file or directory'),
]

# ---- made histories: transactions of processes, replayed in some order, and often disturbed

Op = collections.namedtuple('Op', 'kind key value')


class Transaction:
    def __init__(self, process, session, outcome, ops):
        self.process, self.session, self.outcome, self.ops = process, session, outcome, ops
        self.begun = self.ended = None
        self.has_end = True

    def is_before(self, other):
        """Whether an order has to keep these two as they are."""
        if self.session == other.session:
            return self.place < other.place
        return self.outcome == 'ok' and None not in (self.ended, other.begun) and self.ended < other.begun


def replayed(store, ops):
    """These operations on a plain store of lists and registers, with what their reads see; and the store behind them."""
    store, done = dict(store), []
    for kind, key, value in ops:
        if kind == 'append':
            store[key] = store.get(key, ()) + (value,)
        elif kind == 'w':
            store[key] = value
        done.append(Op(kind, key, store.get(key) if kind == 'r' else value))
    return store, done


def is_explained(transactions):
    """Whether some order of the committed and of some unknown transactions gives each read what it saw."""
    def goes_on(store, left):
        return not left or any(follows(store, it, left - {it}) for it in left)

    def follows(store, it, rest):
        if any(other.is_before(it) for other in rest):
            return False
        store, done = replayed(store, it.ops)
        met = all(was.kind != 'r' or was.value == 'unseen' or (was.value or ()) == (now.value or ()) for was, now in zip(it.ops, done))
        return met and goes_on(store, rest)

    committed, unknown = (frozenset(it for it in transactions if it.outcome == outcome) for outcome in ('ok', 'info'))
    return any(goes_on({}, committed | set(some)) for count in range(len(unknown) + 1) for some in itertools.combinations(unknown, count))


def made_transactions(r):
    """Up to six transactions of up to four processes. A process whose transaction ends unknown goes on in another session."""
    kinds = {key: r.choice(('append', 'append', 'w')) for key in range(r.choice((1, 1, 2)))}
    made, written, processes = [], collections.Counter(), r.randint(1, 4)
    outcomes = ['ok'] * r.choice((4, 8)) + ['info', 'info', 'fail']
    for place in range(r.randint(1, 6)):
        ops, process = [], r.randrange(processes)
        for _ in range(r.randint(1, 4)):
            key = r.randrange(len(kinds))
            kind = r.choice(('r', kinds[key]))
            written[key] += kind != 'r'
            ops.append(Op(kind, key, written[key] if kind != 'r' else None))
        unknown = sum(it.process == process and it.outcome == 'info' for it in made)
        made.append(Transaction(process, (process, unknown), r.choice(outcomes), ops))
        made[-1].place = place
    return kinds, written, made


def made_events(r, transactions):
    """When they begin and end, one behind the other: each with whether it is the end. Some say when that was."""
    left, events = {}, []
    for it in transactions:
        left.setdefault(it.process, []).extend([(it, False), (it, True)])
    for ending in left.values():
        ending[-1][0].has_end = ending[-1][0].outcome != 'info' or r.random() < 0.7
    while any(left.values()):
        queue = r.choice([queue for queue in left.values() if queue])
        events += [queue.pop(0) for _ in range(2 if not queue[0][1] and r.random() < 0.6 else 1)]
    timed = r.choice((0, 0, 0.5, 1))
    for moment, (it, is_end) in enumerate(events):
        if r.random() < timed:
            setattr(it, 'ended' if is_end else 'begun', moment)
    return events


def run(r, transactions, events):
    """Runs them in some order on a store that keeps the unknown ones now and then, and fills in what they read."""
    order = list(transactions)
    if r.random() < 0.5:
        at = {it: [moment for moment, event in enumerate(events) if event[0] is it] for it in order}
        order.sort(key=lambda it: r.uniform(*at[it]))
    else:
        r.shuffle(order)
    store = {}
    for it in order:
        behind, it.ops = replayed(store, it.ops)
        if it.outcome == 'ok' or r.random() < (0.6 if it.outcome == 'info' else 0.05):
            store = behind


def disturbed(r, key, value, is_list, written, others):
    """Another thing that a read of a key may have seen: of a list one that is shorter, longer, turned, or has an element twice or a strange
    one; of a register another value."""
    if not is_list:
        return r.choice((None, r.randint(1, written[key] + 1)))
    elements, way = list(value or ()), r.randrange(7)
    if way == 0:
        elements = list(r.choice(others) or ())
    elif way == 1:
        elements = r.sample(range(1, written[key] + 1), r.randint(0, written[key]))
    elif way == 2 or not elements:
        elements.append(r.randint(1, written[key] + 1))
    elif way == 3:
        elements.pop(r.randrange(len(elements)))
    elif way == 4:
        elements.insert(r.randint(0, len(elements)), r.choice(elements))
    elif way == 5:
        elements[r.randrange(len(elements))] = r.randint(1, written[key] + 1)
    else:
        at = r.randrange(len(elements))
        elements[at:at + 2] = reversed(elements[at:at + 2])
    return tuple(elements)


def made_history(seed):
    """A history, and whether some order explains it."""
    r = random.Random(seed)
    kinds, written, transactions = made_transactions(r)
    events = made_events(r, transactions)
    run(r, transactions, events)
    reads = [(it, place) for it in transactions for place, op in enumerate(it.ops) if op.kind == 'r']
    for it, place in r.sample(reads, min(len(reads), r.choice((0, 0, 1, 1, 2)))):
        op = it.ops[place]
        is_list = kinds[op.key] == 'append'
        others = [other.ops[n].value for other, n in reads if kinds[other.ops[n].key] == 'append']
        it.ops[place] = op._replace(value=disturbed(r, op.key, op.value, is_list, written, others))
    for it, place in reads:
        if it.outcome != 'ok' and (not it.has_end or it.ops[place].value is None or r.random() < 0.5):
            it.ops[place] = it.ops[place]._replace(value='unseen')
    return ''.join(op_text(*event) for event in events if event[0].has_end or not event[1]), is_explained(transactions)


def seen_text(value):
    return 'nil' if value in (None, 'unseen') else '[%s]' % ' '.join(map(str, value)) if isinstance(value, tuple) else str(value)


def op_text(it, is_end):
    """The line of Jepsen for a transaction's beginning or end."""
    ops = ['[:%s %d %s]' % (op.kind, op.key, op.value if op.kind != 'r' else seen_text(op.value) if is_end else 'nil') for op in it.ops]
    moment = it.ended if is_end else it.begun
    return '{:type :%s, :f :txn, :process %d, :value [%s]%s}\n' % (
        it.outcome if is_end else 'invoke', it.process, ' '.join(ops), '' if moment is None else ', :time %d' % moment)


def large_history():
    """A history of so many ops, and its log. The n-th append appends n; a key that has ten elements is read and not used again, and the last
    transaction reads all keys."""
    r, ops, sessions, keys, appended = random.Random(0), [], {}, {key: [] for key in range(20)}, itertools.count(1)
    for moment in range(0, OPS, 2):
        process, begun, ended, lines = r.randrange(10), [], [], ['begin %d' % moment]
        for key in list(keys) if moment + 2 == OPS else r.sample(sorted(keys), 3):
            elements = keys[key]
            lines.append('r %d %d' % (key, elements[-1] if elements else 0))
            if len(elements) == 10 or moment + 2 == OPS:
                begun.append('[:r %d nil]' % key)
                ended.append('[:r %d %s]' % (key, elements))
                del keys[key]
                keys[max(key, *keys) + 1 if keys else 0] = []
            else:
                elements.append(next(appended))
                lines.append('w %d %d' % (key, elements[-1]))
                begun.append('[:append %d %d]' % (key, elements[-1]))
                ended.append(begun[-1])
        for kind, at, value in (('invoke', moment, begun), ('ok', moment + 1, ended)):
            head = '{:index %d, :time %d, :type :%s, :process %d, :f :txn, :value [%s]}'
            ops.append(head % (at, at, kind, process, ' '.join(value)))
        sessions.setdefault(process, []).extend(lines + ['commit %d' % (moment + 1)])
    log = ['log 3'] + [line for number, lines in enumerate(sessions.values(), 1) for line in ['session %d' % number, *lines]]
    return ('\n'.join(ops) + '\n').encode(), ('\n'.join(log) + '\n').encode()


# ---- the runs

class Checks:
    def __init__(self, program, folder):
        self.program, self.map = program, os.path.join(folder, 'map')
        self.passed, self.failed, self.kinds, self.told_of_lists, self.claims = 0, 0, collections.Counter(), collections.Counter(), collections.Counter()
        spec = importlib.util.spec_from_file_location('importer', SCRIPT)
        self.importer = importlib.util.module_from_spec(spec)
        spec.loader.exec_module(self.importer)

    def expect(self, got, wanted, name):
        self.passed, self.failed = self.passed + (got == wanted), self.failed + (got != wanted)
        if got != wanted:
            print('FAILED %s: %r, wanted %r' % (name, got, wanted))

    def call(self, words, text, **to):
        ran = subprocess.run(words, input=text, stderr=subprocess.PIPE, timeout=LATE, **(to or {'stdout': subprocess.PIPE}))
        return ran.returncode, ran.stdout, ran.stderr.decode()

    def script(self, words, text=b'', **to):
        return self.call([sys.executable, '-B', SCRIPT, *words], text, **to)

    def explained(self, log):
        """What `explain` says, which begins as `check` does."""
        status, said, error = self.call([self.program, 'explain', '--strategy', 'forced', '--workers', '1'], log)
        return error if error.startswith('refused') else said.decode()

    def verdict(self, log):
        return self.explained(log).partition('\n')[0]

    def by_hand(self, case):
        name, words, history, log, verdict, told, places = case
        error = ''.join('import.py: %s\n' % line for line in told)
        yield self.script([*words, '-'], history.encode()), (0, log.encode(), error), name
        yield self.verdict(log.encode()), verdict, '%s, its verdict' % name
        if places:
            path = '%s %s' % (self.map, name)
            yield self.script([*words, '--map', path, '-'], history.encode()), (0, log.encode(), error), '%s, with a map' % name
            with open(path) as file:
                yield file.read(), places, '%s, its map' % name

    def contradicting(self, case):
        name, words, transactions, told = case
        history = history_of(*transactions).encode()
        status, log, error = self.script([*JEPSEN, *words, '-'], history)
        wanted = ''.join('import.py: %s\n' % line for line in told)
        yield self.script([*JEPSEN, *words, '--lists', '-'], history), (1 if told else 0, log, wanted + error), '%s, of lists' % name
        yield (status, told and self.verdict(log).split(':')[0]), (0, told and 'not serializable'), '%s, of lists, without a word' % name

    def back(self, case):
        history, lines, indexes, processes = case
        path, names = '%s back %d' % (self.map, len(history)), tuple("process %d's transaction (index %d)" % (processes[index], index) for index in indexes)
        status, log, error = self.script([*JEPSEN, '--operations', path, '-'], history.encode())
        explained = self.explained(log).encode()
        yield self.script(['--back', path], explained), (0, ('\n'.join(lines) % names + '\n').encode(), ''), 'the words of %.40r' % history
        told = self.script(['--back', path], self.call([self.program, 'audit', '--explain'], log)[1])[1].decode()
        yield (names[0] in told, re.search(r'\(line|[0-9]\.[0-9]', told)), (True, None), 'the words of audit of %.40r: %s' % (history, told)
        for file, text, wanted_status, wanted in ((path, explained.replace(b'(line ', b'(line 9'), UNREADABLE, 'another log'), ('/nowhere/map', b'', AROUND, '/nowhere/map: No such file'),
                                                  (SCRIPT, explained, UNREADABLE, 'does not write')):
            status, said, error = self.script(['--back', file], text)
            yield (status, said, wanted in error and 'Traceback' not in error), (wanted_status, b'', True), 'back by %s: %s' % (file, error)

    def read(self, form, history):
        """A history, by the functions of the script, in this process."""
        return self.importer.read_history(io.BytesIO(history.encode(errors='surrogateescape')), form)

    def log_of(self, form, history):
        return ''.join(line + '\n' for line in self.importer.log_of(self.read(form, history))[0])

    def bad(self, case):
        form, history, wanted = case
        try:
            said = self.log_of(form, history)
        except self.importer.Unreadable as wrong:
            said = '%d: %s' % (wrong.line, wrong)
        yield said[:len(wanted)], wanted, 'bad history %.60r' % history[-60:]

    def told(self, case):
        form, history, wanted = case
        yield self.script(['--from', form, '-'], history.encode()), (UNREADABLE, NO_LOG, 'import.py: -:%s\n' % wanted), 'told of %.40r' % history[-40:]

    def around(self, case):
        name, words, wanted_status, wanted = case
        status, said, error = self.script(words, PLUME.encode())
        yield (status, said, wanted in error), (wanted_status, NO_LOG, True), '%s: %s' % (name, error)

    def made(self, seed):
        text, explained = made_history(seed)
        history = self.read('jepsen', text)
        seen, counted = self.importer.lists_seen(history)
        told = lists.Lists(history, counted, self.importer.edn).found
        lines, places = self.importer.log_of(history, seen)
        log = ''.join(line + '\n' for line in lines)
        said = self.explained(log.encode())
        self.kinds[' '.join(said.split('\n')[0].split(' ')[:3])] += 1
        yield said.startswith('not serializable' if not explained else 'serializable'), True, 'made history %d: %s\n%s%s' % (seed, said, text, log)
        self.told_of_lists.update(name for name, *_ in told)
        named = [(text, about[2:3]) for text, (_, _, *about) in zip(lines, places)]
        without = self.importer.log_of(self.read('jepsen', text), self.importer.Lists())[0]
        yield without, [text for text, reader in named if reader in ([], [None])], 'made history %d, blind' % seed
        yield explained and self.verdict(''.join(line + '\n' for line in without).encode()) != 'serializable', False, 'made history %d, blind: %s' % (seed, text)
        yield bool(told and explained), False, 'what lists say of made history %d: %s\n%s' % (seed, told, text)
        if not explained:
            words = back.retold(said, self.importer.operation_lines(lines, places))
            yield self.wrong_claim(words, text.split('\n')), None, 'made history %d in its words: %s\n%s%s%s' % (seed, words, said, log, text)

    def wrong_claim(self, words, ops):
        """Something in these words of a history that is not so there, or that is still in the words of the log."""
        for process, index, verb, value, key, behind, reader in CLAIM.findall(words):
            self.claims[verb + ' behind' * bool(behind)] += 1
            op, micro = ops[int(index)], '[:%s %s %s]' % ({'appended': 'append', 'wrote': 'w'}.get(verb, 'r'), key, value)
            # of a long list the last elements are told
            if ':process %s,' % process not in op or not re.search(re.escape(micro).replace(re.escape('.. '), '([0-9]+ )+'), op):
                return 'no %s in %s' % (micro, op)
            if behind and not re.search(r'\[:r %s \[(.* )?%s\b' % (key, value if behind == 'nothing' else '%s %s' % (behind, value)), ops[int(reader)]):
                return '%s does not stand behind %s in %s' % (value, behind, ops[int(reader)])
        left = re.search(r'[0-9]\.[0-9]|\(line|session', words.replace('and sessions', '').replace('of sessions', '').replace('a session misses', ''))
        return left and 'the words of the log are left: %s' % left[0]

    def run(self):
        kinds = [(self.by_hand, BY_HAND), (self.contradicting, CONTRADICTING), (self.back, BACK), (self.bad, BAD), (self.told, TOLD), (self.around, AROUND_IT),
                 (self.made, range(MADE))]
        jobs = [(check, case) for check, cases in kinds for case in cases]
        with concurrent.futures.ThreadPoolExecutor() as pool:
            for found in pool.map(lambda job: list(job[0](job[1])), jobs):
                for it in found:
                    self.expect(*it)
        self.expect((len(self.told_of_lists), len(self.claims)), (7, 4), 'what was told: %s, %s' % (self.told_of_lists, self.claims))
        self.expect(self.verdict(NO_LOG), 'refused: L1 line 1', 'what stands in place of a log')
        with open('/dev/full', 'wb') as full:
            self.expect(self.script(['--from', 'plume', '-'], PLUME.encode(), stdout=full)[0], AROUND, 'a full device')
        closed = ['sh', '-c', 'exec "$@" >&-', 'sh', sys.executable, '-B', SCRIPT, '--from', 'plume', '-']
        self.expect(self.call(closed, PLUME.encode())[0], AROUND, 'a closed standard output')
        self.expect(str(UNREADABLE) in self.script(['--help'])[1].decode(), True, 'what --help says')
        self.large()

    def large(self):
        history, log = large_history()
        began = time.time()
        status, said, error = self.script(['--from', 'jepsen', '-'], history)
        print('importing: %d ops in %d s' % (history.count(b'\n'), time.time() - began))
        self.expect((status, said == log), (0, True), 'the large history: %s' % error)


def main():
    if '--help' in sys.argv:
        return print(__doc__)
    with tempfile.TemporaryDirectory() as folder:
        checks = Checks(os.path.abspath(sys.argv[1]), folder)
        checks.run()
    for found in (checks.kinds, checks.told_of_lists, checks.claims):
        print('importing: %s' % ', '.join('%s %d' % it for it in sorted(found.items())))
    print('importing: %d passed, %d failed' % (checks.passed, checks.failed))
    sys.exit(1 if checks.failed or len(checks.kinds) < 10 else 0)


if __name__ == '__main__':
    main()
