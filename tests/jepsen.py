#!/usr/bin/env python3
"""jepsen.py PROGRAM: the checker of docs/JEPSEN.md, word by word, run by Clojure.

Clojure and data.json are Debian's packages clojure and libdata-json-clojure; where they are not installed nothing is run, and a line says so.
Of Jepsen there are stand-ins: the protocol of a checker, the path of a file of a test, and the record of an op. Histories that are refused, that
are not, and that cannot be read must give a result as the page has it, and leave history and log beside it. Last line: 'jepsen: N passed,
M failed'."""
import json, os, re, shutil, subprocess, sys, tempfile

TOP = os.path.dirname(os.path.dirname(os.path.abspath(__file__)))
JARS = ['/usr/share/java/%s.jar' % name for name in ('clojure', 'spec.alpha', 'core.specs.alpha', 'data.json')]
STAND_INS = {
    'jepsen/checker.clj': '(ns jepsen.checker)\n(defprotocol Checker (check [checker test history opts]))\n',
    'jepsen/store.clj': '(ns jepsen.store (:require [clojure.java.io :as io]))\n'
                        '(defn path! [test & names] (let [file (apply io/file (:folder test) (remove nil? names))] (io/make-parents file) file))\n',
    'jepsen/history.clj': '(ns jepsen.history)\n(defrecord Op [index time type process f value])\n',
}
# Runs the checker on each history of a file, and prints its result as JSON: ops as maps, and then as records.
RUN = '''
(require '[cobra.checker :refer [cobra]] '[jepsen.checker :as checker] '[jepsen.history :as history] '[clojure.edn :as edn] '[clojure.data.json :as json])
(let [[folder & words] *command-line-args*]
  (doseq [[name order history] (edn/read-string (slurp (first words)))
          [form ops] [["maps" history] ["records" (map history/map->Op history)]]]
    (let [result (checker/check (apply cobra order) {:folder folder} ops {:subdirectory (str name "-" form)})]
      (prn-str result)
      (println (json/write-str (assoc result :name name))))))
(shutdown-agents)
'''


def op(index, kind, process, value):
    return '{:index %d, :time %d, :type :%s, :process %s, :f :txn, :value %s}' % (index, index * 1000, kind, process, value)


def history(*transactions):
    """Transactions one after the other, of process 0 and 1 in turn."""
    ops = []
    for number, value in enumerate(transactions):
        ops += [op(2 * number, 'invoke', number % 2, value), op(2 * number + 1, 'ok', number % 2, value)]
    return '[%s]' % ' '.join(ops)


def histories():
    """Names, words for the checker, histories, and what :valid? and :code are to be; or a part of :said."""
    with open(os.path.join(TOP, 'examples', 'list_append.edn'), encoding='utf-8') as file:
        yield 'example', '[]', '[%s]' % file.read(), False, 'A8'
    yield 'good', '[]', history('[[:append "x y" 1]]', '[[:r "x y" [1]] [:append "x y" 2]]', '[[:r "x y" [1 2]]]'), True, None
    stale = history('[[:w 1 1]]', '[[:r 1 1] [:w 1 2]]', '[[:r 1 1]]')
    yield 'stale', '[]', stale, False, 'A8'
    yield 'stale-sessions', '["--order" "sessions"]', stale, True, None
    yield 'counters', '[]', '[%s]' % op(0, 'invoke', 0, '[:add 1]'), 'unknown', 'cobra_poly-import: '
    yield 'nothing', '[]', '[]', 'unknown', 'cobra_poly-import: '


def main():
    if len(sys.argv) != 2 or sys.argv[1].startswith('-'):
        print(__doc__)
        return 0 if '--help' in sys.argv else 2
    if not shutil.which('java') or not all(map(os.path.exists, JARS)):
        print('jepsen: note: passed over, since Clojure (clojure, libdata-json-clojure, default-jre-headless) is not installed')
        print('jepsen: 0 passed, 0 failed')
        return 0
    with open(os.path.join(TOP, 'docs', 'JEPSEN.md'), encoding='utf-8') as file:
        checker = re.search(r'^```clojure\n(\(ns .*?)^```', file.read(), re.M | re.S)[1]
    passed, wrong = 0, []
    with tempfile.TemporaryDirectory() as folder:
        for name, text in {**STAND_INS, 'cobra/checker.clj': checker, 'run.clj': RUN}.items():
            os.makedirs(os.path.dirname(os.path.join(folder, name)), exist_ok=True)
            with open(os.path.join(folder, name), 'w', encoding='utf-8') as out:
                out.write(text)
        tools = os.path.join(folder, 'bin')
        os.mkdir(tools)
        os.symlink(os.path.abspath(sys.argv[1]), os.path.join(tools, 'cobra_poly'))
        os.symlink(os.path.join(TOP, 'tools', 'import.py'), os.path.join(tools, 'cobra_poly-import'))
        asked = list(histories())
        with open(os.path.join(folder, 'histories.edn'), 'w', encoding='utf-8') as out:
            out.write('[%s]' % '\n'.join('["%s" %s %s]' % (name, words, text) for name, words, text, *_ in asked))
        words = ['java', '-XX:+UseSerialGC', '-cp', os.pathsep.join([*JARS, folder]), 'clojure.main', os.path.join(folder, 'run.clj'), folder, os.path.join(folder, 'histories.edn')]
        ran = subprocess.run(words, stdin=subprocess.DEVNULL, stdout=subprocess.PIPE, stderr=subprocess.PIPE, timeout=600,
                             env={**os.environ, 'PATH': tools + os.pathsep + os.environ['PATH'], 'LC_ALL': 'C.UTF-8'})
        results = [json.loads(line) for line in ran.stdout.decode().splitlines()]
        if ran.returncode or len(results) != 2 * len(asked):
            wrong.append('%d results, status %d: %s' % (len(results), ran.returncode, ran.stderr.decode()[-2000:]))
        for result, (name, _, _, valid, told) in zip(results, [it for it in asked for _ in range(2)]):
            verdict = {True: 'serializable', False: 'not serializable'}.get(valid)
            holds = result['name'] == name and result['valid?'] == valid
            holds = holds and (told in result['said'] if valid == 'unknown' else (result['verdict'], result['code']) == (verdict, told))
            passed += bool(holds)
            if not holds:
                wrong.append('%s: wanted %s and %s: %s' % (name, valid, told, result))
        for name, *_ in asked:
            kept = [os.path.exists(os.path.join(folder, '%s-%s' % (name, form), 'cobra.' + end)) for form in ('maps', 'records') for end in ('edn', 'log')]
            passed += all(kept)
            if not all(kept):
                wrong.append('%s: history and log are not kept: %s' % (name, kept))
    for it in wrong:
        print('FAILED', it)
    print('jepsen: %d passed, %d failed' % (passed, len(wrong)))
    return 1 if wrong else 0


if __name__ == '__main__':
    sys.exit(main())
