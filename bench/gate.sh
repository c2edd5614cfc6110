#!/usr/bin/env bash
# Times the gate by its parts: bench/gate.sh [COMMAND..], which is ./check where none is given.
#
# `rt ci` prints no times. So each line goes out behind the minute at which it came; and what each run of the prover takes of the
# processors is looked up every second, by its crate and by whether it proves the crate, its tests, or the crate with an edit.
set -eu
cd "$(dirname "${BASH_SOURCE[0]}")/.."
[ $# -gt 0 ] || set -- ./check
exec python3 - "$@" <<'PY'
import os, re, resource, signal, subprocess, sys, threading, time
start, taken, marks, numbers = time.time(), {}, {}, {}
parts = {
    'proofs': r'rt: \w+ proved$',
    'tests': r'rt: \w+: its tests are proved$',
    'edits': r'rt: (\w+): trying its must-fail edits \((\d+)\)$|rt: must-fail ',  # the answers come once all edits are judged
    'runs': r'rt: \w+ ran\b|rt: \w+: its tests passed$|\d+ passed, \d+ failed$',
}
minutes = lambda: (time.time() - start) / 60


def watch(session):
    """Notes what each run of the prover under this gate has taken so far."""
    while True:
        for pid in filter(str.isdigit, os.listdir('/proc')):
            try:
                with open(f'/proc/{pid}/stat') as stat, open(f'/proc/{pid}/cmdline') as line:
                    fields, words = stat.read().rpartition(')')[2].split(), line.read().split('\0')
                if int(fields[3]) == session and '--crate-name' in words:
                    is_edit = '/rt-edit-' in os.readlink(f'/proc/{pid}/cwd')
                    part = 'edits' if is_edit else 'tests' if '--test' in words else 'proofs'
                    ticks = int(fields[11]) + int(fields[12])
                    taken[pid, fields[19]] = words[words.index('--crate-name') + 1], part, ticks / os.sysconf('SC_CLK_TCK')
            except OSError:
                pass  # it has ended
        time.sleep(1)


how = {'stdin': subprocess.DEVNULL, 'stdout': subprocess.PIPE, 'stderr': subprocess.STDOUT, 'text': True, 'errors': 'replace'}
ran = subprocess.Popen(sys.argv[1:], start_new_session=True, **how)
threading.Thread(target=watch, args=(ran.pid,), daemon=True).start()
try:
    for line in ran.stdout:
        print(f'{minutes():6.1f} {line}', end='', flush=True)
        for part, form in parts.items():
            if found := re.match(form, line.rstrip()):
                marks.setdefault(part, [minutes(), 0])[1] = minutes()
                numbers.update([found.groups()] if found.groups() and found[1] else [])
except KeyboardInterrupt:
    os.killpg(ran.pid, signal.SIGTERM)
status, used, all_taken = ran.wait(), resource.getrusage(resource.RUSAGE_CHILDREN), [*taken.values()]
spent = lambda part, crate='': sum(it[2] for it in all_taken if it[1] == part and crate in ('', it[0])) / 60
print(f'\n{os.cpu_count()} processors, {minutes():.1f} minutes, status {status}\npart     first   last  processor minutes')
for part, (first, last) in marks.items():
    print(f'{part:7}{first:7.1f}{last:7.1f}{spent(part):8.1f}')
print(f'all of it            {(used.ru_utime + used.ru_stime) / 60:8.1f}\n\nprocessor minutes   proof  tests  edits  (how many)')
for crate in sorted({it[0] for it in all_taken}, key=lambda it: -spent('edits', it)):
    print(f'{crate:18}{spent("proofs", crate):7.1f}{spent("tests", crate):7.1f}{spent("edits", crate):7.1f}  {numbers.get(crate, 0)}')
sys.exit(status)
PY
