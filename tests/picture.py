#!/usr/bin/env python3
"""picture.py PROGRAM: the pages of tools/picture.py, in a real browser.

The pages of each refuted example, and of made logs that are refuted, up to 1,000 transactions, are loaded in headless Chromium: of what
`audit --explain` tells, and of what `explain` tells. So is the page of a longer log. Each edge that
is told must be an arrow between its two boxes, bold, with the told line as its name, and there are no others but the thin ones; each
transaction that is told must be a box with those of its operations that are told. Nothing may stand in the browser's console. In the
browser itself are measured: that words stay in their boxes, that boxes do not meet, and that words on arrows cover no box; and tried: what is marked
where the mouse is, what is folded, and the switch for what arrows rest on. So are the pages of `--level`: at levels of snapshots each arrow
begins and ends at the snapshot or the commit that is told. Then come labels, logs and names that are hostile, units of moments,
and what must end with a status. Chromium is Debian's, and is installed where it is not there; where it cannot be had, a line says so and pages are read without it.
Last line: 'picture: N passed, M failed'."""
import collections, html, html.parser, json, os, re, shutil, subprocess, sys, tempfile

HERE = os.path.dirname(os.path.abspath(__file__))
TOP = os.path.dirname(HERE)
sys.path.insert(0, HERE)
import explained, generate, level_model, levels, told_points
from certificates import HEADING, TOO, WHY_NOT, Part

sys.path.insert(0, os.path.join(TOP, 'tools'))
import picture

PICTURE, TOLD = (os.path.join(TOP, 'tools', name) for name in ('picture.py', 'told.py'))
# A lost update of a key that looks like the name of a transaction.
LABELLED = 'session 1\nbegin\nr 1.1 0\nw 1.1 5\ncommit\nsession 2\nbegin\nr 1.1 0\nw 1.1 6\ncommit\n'
LONG = 3000
BROWSERS, AROUND = ('chromium-headless-shell', 'chromium'), 70
# Another test installs what it needs meanwhile, and of two that read the lists of packages at once one would fail.
ALONE = 'flock', '--no-fork', '/var/lib/apt'
# What `check` and the headline of `audit` say of a log of which every cube is refuted.
TREES = explained.EVERY_CUBE, 'not serializable: every order of its versions closes a cycle'
# The levels of which each reason has a form that is drawn; at `prefix` evidence against a weaker level may stand, of which lines are told.
STRONG = 'strict-serializable', 'serializable', 'strict-snapshot', 'snapshot'
# At levels of snapshots: an edge, also as a step; and what closes a circle of which a first committer is supposed.
POINTS = re.compile(r"^ *(?:\[[0-9]+\] )?(([0-9.]+)'s (snapshot|commit) before ([0-9.]+)'s (snapshot|commit): (?!.*cannot commit first:$).+)$", re.M)
NOT_FIRST, WOULD = re.compile('([0-9.]+) cannot commit first:$', re.M), "would have overwritten"
BEFORE, LINE = re.compile(r'^ *([0-9.]+) before ([0-9.]+): (.*)$', re.M), re.compile(r'\(line ([0-9]+)\)')
# Measures and tries what only a browser knows, in each page, which is a frame of this one, and leaves what is wrong, and the pages as they stand.
TRIED = r'''
const tried = (window, document) => {
  const {MouseEvent, getComputedStyle} = window, faults = [], told = (holds, what) => { if (!holds) faults.push(what); };
  const all = (selector, within = document) => [...within.querySelectorAll(selector)];
  const meet = (a, b) => a.left < b.right - 1 && b.left < a.right - 1 && a.top < b.bottom - 1 && b.top < a.bottom - 1;
  try {
    const details = all('details'), unfold = document.getElementById('unfold');
    told(details.every(it => !it.open), 'something is unfolded at first');
    if (unfold) { unfold.click(); told(details.every(it => it.open), 'not all is unfolded'); }
    for (const svg of all('.picture svg')) {
      const boxes = all('.box', svg).map(it => ({name: it.dataset.box, frame: it.querySelector('.frame').getBoundingClientRect(), it}));
      const whole = svg.getBoundingClientRect(), pills = all('.pill rect', svg).map(it => it.getBoundingClientRect());
      for (const {name, frame, it} of boxes) {
        told(frame.width > 0, name + ' is not seen');
        for (const words of all('text', it)) {
          const its = words.getBoundingClientRect();
          told(its.left >= frame.left - 1 && its.right <= frame.right + 1 && its.top >= frame.top - 2 && its.bottom <= frame.bottom + 2, name + ' is too small for ' + words.textContent);
        }
        for (const row of all('.row', it)) {
          const [operation, line] = ['.operation', '.line'].map(its => row.querySelector(its));
          told(!line || operation.getBoundingClientRect().right < line.getBoundingClientRect().left, name + ': words on words: ' + row.textContent);
        }
        for (const other of boxes) told(other.name === name || !meet(frame, other.frame), name + ' meets ' + other.name);
        for (const pill of pills) told(!meet(frame, pill), name + ' is covered by words');
      }
      for (const pill of all('.pill', svg)) {
        const its = pill.getBoundingClientRect(), words = pill.querySelector('text').getBoundingClientRect();
        told(its.left >= whole.left - 1 && its.right <= whole.right + 1 && its.top >= whole.top - 1 && its.bottom <= whole.bottom + 1, 'words are cut off: ' + pill.textContent);
        told(words.left >= its.left && words.right <= its.right, 'words are longer than their place: ' + pill.textContent);
      }
    }
    const point = it => it.dispatchEvent(new MouseEvent('mouseover', {bubbles: true}));
    for (const it of all('.row[data-key]').slice(0, 20)) {
      const {key, wid} = it.dataset;
      point(it);
      told(all('.same-key').every(its => its.dataset.key === key) && all('.row').every(its => its.dataset.key !== key || its.classList.contains('same-key')), 'wrong keys are marked: ' + key);
      told(all('.same-write').every(its => its.dataset.wid === wid && its.dataset.key === key) && it.classList.contains('same-write'), 'wrong identities are marked: ' + wid);
    }
    for (const it of all('.told-line').slice(0, 20)) {
      point(it);
      told(all('.pointed').length > 1 || !all('.arrow').some(its => its.dataset.edge === it.dataset.edge), 'no arrow is marked: ' + it.textContent);
      told(all('.pointed').every(its => its.dataset.edge === it.dataset.edge), 'another arrow is marked: ' + it.textContent);
    }
    point(document.body);
    told(!all('.pointed, .same-key').length, 'something stays marked');
    for (const it of all('input.support')) {
      const supports = all('.support', it.parentElement.querySelector('svg')), seen = () => supports.filter(its => getComputedStyle(its).display !== 'none').length;
      told(supports.length && seen() === supports.length, 'what arrows rest on is not seen');
      it.click();
      told(seen() === 0 && all('.arrow.bold', it.parentElement).every(its => getComputedStyle(its).display !== 'none'), 'what arrows rest on is still seen');
      it.click();
    }
    if (unfold) { document.getElementById('fold').click(); told(details.every(it => !it.open), 'not all is folded'); }
    for (const link of all('a[href^="#"]').slice(0, 3)) {
      const target = document.getElementById(link.getAttribute('href').slice(1));
      told(target && target.closest('details'), 'a link leads nowhere');
    }
  } catch (fault) { faults.push(String(fault)); }
  return [faults.slice(0, 5), document.documentElement.outerHTML];
};
addEventListener('load', () => {
  const frames = [...document.querySelectorAll('iframe')];
  document.querySelector('pre').textContent = JSON.stringify(frames.map(it => tried(it.contentWindow, it.contentDocument)));
  for (const it of frames) it.remove();
});
'''


class Tags(html.parser.HTMLParser):
    """What a page has: the names of its elements, and of each picture its boxes, with the lines in them that are marked, and its arrows."""

    def __init__(self, text):
        super().__init__()
        # of each arrow, by the number of its picture and its name, how far down it begins and ends
        self.names, self.pictures, self.box, self.heights = set(), [], None, {}
        self.feed(text)

    def handle_starttag(self, tag, pairs):
        about = dict(pairs)
        self.names.add(tag)
        looks = (about.get('class') or '').split()
        if tag == 'svg' and 'sample' not in looks:
            self.pictures.append(({}, []))
        if 'box' in looks:
            self.box = {'looks': looks, 'name': about['aria-label'], 'lines': set(), 'all': set()}
            self.pictures[-1][0][about['data-box']] = self.box
        if 'frame' in looks:
            self.box['top'], self.box['bottom'] = float(about['y']), float(about['y']) + float(about['height'])
        if 'stroke' in looks:
            numbers = [float(number) for number in re.findall('-?[0-9.]+', about['d'])]
            self.heights[len(self.pictures), self.pictures[-1][1][-1][1]] = numbers[1], numbers[-1]
        if 'row' in looks and 'data-line' in about:
            self.box['all'].add(int(about['data-line']))
            if 'told' in looks:
                self.box['lines'].add(int(about['data-line']))
        if 'arrow' in looks:
            self.pictures[-1][1].append((looks, about['aria-label'], about['data-first'], about['data-second'], about.get('data-edge')))


def find_browser():
    return next(filter(None, map(shutil.which, BROWSERS)), None)


def browser():
    """The command of headless Chromium, which is installed where it is not there; None where it cannot be had."""
    quiet = {'stdin': subprocess.DEVNULL, 'stdout': subprocess.DEVNULL, 'stderr': subprocess.DEVNULL, 'env': {**os.environ, 'DEBIAN_FRONTEND': 'noninteractive'}}
    try:
        if not find_browser():
            subprocess.run([*ALONE, 'apt-get', 'update'], timeout=600, **quiet)
        for name in BROWSERS if not find_browser() else ():
            if subprocess.run([*ALONE, 'apt-get', '-o', 'DPkg::Lock::Timeout=300', 'install', '-y', '--no-install-recommends', name, 'fonts-dejavu-core'], timeout=600, **quiet).returncode == 0:
                break
    except (OSError, subprocess.TimeoutExpired):
        pass
    return find_browser()


def loaded(command, folder, pages):
    """What is wrong in each of these pages, and how it stands, once a browser has loaded them all as frames of one; and the browser's console."""
    whole = os.path.join(folder, 'whole.html')
    with open(whole, 'w', encoding='utf-8') as out:
        frames = ''.join('<iframe width="1300" height="900" srcdoc="%s"></iframe>' % html.escape(page) for page in pages)
        out.write('<!DOCTYPE html><meta charset="utf-8"><script>%s</script><pre></pre>%s' % (TRIED, frames))
    # the sandbox is left out only where it cannot be, as for root
    for more in ([], ['--no-sandbox']) if os.geteuid() else (['--no-sandbox'],):
        words = [command, '--headless', *more, '--disable-gpu', '--no-first-run', '--window-size=1300,900', '--enable-logging=stderr', '--dump-dom',
                 '--user-data-dir=' + os.path.join(folder, 'browser'), 'file://' + whole]
        ran = subprocess.run(words, stdin=subprocess.DEVNULL, stdout=subprocess.PIPE, stderr=subprocess.PIPE, timeout=600)
        said = re.search('<pre>(.*?)</pre>', ran.stdout.decode(), re.S)
        if said:
            console = [line for line in ran.stderr.decode(errors='replace').split('\n') if 'CONSOLE' in line]
            return json.loads(html.unescape(said[1])), console
    raise RuntimeError('%s ends with %d and no page: %s' % (command, ran.returncode, ran.stderr.decode(errors='replace')[-500:]))


def cycles_of(said):
    """The edges of each run of them in what `explain` says, in its order: (first, second, reason)."""
    found, run = [], []
    for line in said.split('\n'):
        edge = BEFORE.fullmatch(line)
        if edge:
            run.append(edge.groups())
        elif run:
            found.append(run)
            run = []
    return found + [run] * bool(run)


def expected(said):
    """The edges that are bold arrows, and how many arrows else lead from one told line to another."""
    first, runs = said.split('\n')[0], cycles_of(said)
    if first in TREES:
        steps, tree = said.count('\n['), []
        behind = len(runs) - steps
        for run in runs[:behind]:
            if sorted(run) not in map(sorted, tree):
                tree.append(run)
        return tree[:picture.MOST_PICTURES] + runs[behind:][:picture.MOST_PICTURES], steps
    return runs, len(runs) - 1


def fault_of_picture(boxes, arrows, text):
    """What is wrong with the boxes at the ends of these arrows."""
    lines = text.split('\n')
    for looks, name, first, second, _ in arrows:
        if not {first, second} <= set(boxes):
            return 'an arrow without its box: %s' % name
        if first == second and 'read' not in looks:
            return 'an arrow to itself: %s' % name
        ends = re.sub(explained.BEHIND, '', name)
        for line in map(int, LINE.findall(name if 'bold' in looks else ends)) if 'otherwise' not in looks else ():
            if not any(line in boxes[it]['lines'] for it in ((first, second) if '(line %d)' % line in ends and 'no transaction' not in name else boxes)):
                return 'line %d is not marked: %s' % (line, name)
    for name, box in boxes.items():
        if not box['name']:
            return '%s has no name' % name
        if any(not re.match('[rw] |begin|commit|abort|unknown', lines[line - 1]) for line in box['all']):
            return '%s has a line that is no operation' % name
    return None


def fault(page, text, said):
    """What is wrong with the counts and names of a page, by what `explain` says."""
    runs, steps = expected(said)
    drawn = [(sorted((first, second, name) for looks, name, first, second, _ in arrows if 'bold' in looks)) for _, arrows in page.pictures]
    for boxes, arrows in page.pictures:
        wrong = fault_of_picture(boxes, arrows, text)
        if wrong:
            return wrong
    marked = {name: set().union(*(boxes[name]['lines'] for boxes, _ in page.pictures if name in boxes)) for boxes, _ in page.pictures for name in boxes}
    if runs == [[]] or not runs:
        arrows = page.pictures[0][1]
        lines, named = said.split('\n')[1:-1], set(map(int, LINE.findall(said)))
        wanted = {'A6': (1, 1), 'A7': (2, 2)}.get(said.split(' ')[2], (1, 0))
        counts = tuple(sum(look in looks for looks, *_ in arrows) for look in ('bold', 'thin'))
        if len(page.pictures) != 1 or counts != wanted or not named <= set().union(*marked.values()):
            return '%d pictures, bold and thin arrows %r, wanted %r; lines %r of %r' % (len(page.pictures), counts, wanted, marked, named)
        return None if all(said.split('\n')[int(edge) - 1] in lines for *_, edge in arrows) else 'an arrow of no line'
    wanted = [sorted((a, b, '%s before %s: %s' % (a, b, reason)) for a, b, reason in run) for run in runs]
    # a long cycle is drawn in parts
    if sorted(sum(drawn, [])) != sorted(sum(wanted, [])):
        return 'the bold arrows are %r, wanted %r' % (drawn, wanted)
    if drawn[0] != wanted[0] and not set(drawn[0]) < set(wanted[0]):
        return 'the first picture has %r, wanted %r' % (drawn[0], wanted[0])
    otherwise = sum('otherwise' in looks for _, arrows in page.pictures for looks, *_ in arrows)
    found = [name for form, at in ((explained.STEP, slice(2, 4)), (explained.SINCE, slice(2))) for it in form.finditer(said) for name in it.groups()[at]]
    told = set(found) - {None} if steps <= picture.MOST_PICTURES else set()
    if otherwise != min(steps, picture.MOST_PICTURES) or not told <= set(marked):
        return '%d arrows say otherwise, of %d steps; no box of %r' % (otherwise, steps, told - set(marked))
    return None


def fault_of_points(page, text, said):
    """What is wrong with a page at a level of snapshots, by what `audit --explain --level` says."""
    edges, supposed = POINTS.findall(said), len(NOT_FIRST.findall(said))
    lines, bold, dashed = text.split('\n'), [], 0
    for number, (boxes, arrows) in enumerate(page.pictures, 1):
        for looks, name, first, second, _ in arrows:
            if not {first, second} <= set(boxes):
                return 'an arrow without its box: %s' % name
            dashed += 'otherwise' in looks
            if 'bold' in looks:
                bold.append(name)
                marked = set().union(*(box['lines'] for box in boxes.values()))
                if not set(map(int, LINE.findall(name))) <= marked:
                    return 'its lines are not marked: %s' % name
            found = re.match(r"(?:supposed: )?[0-9.]+'s (snapshot|commit) before [0-9.]+'s (snapshot|commit): ", name)
            heights = page.heights[number, name]
            for box, end, height in zip((boxes[first], boxes[second]), found.groups() if found else (), heights):
                top, bottom = box['top'], box['bottom']
                if not (top - 1 <= height <= top + 70 if end == 'snapshot' else bottom - 45 <= height <= bottom + 1):
                    return 'the %s of %s is elsewhere: %r of %r, %s' % (end, first, height, (top, bottom), name)
        for name, box in boxes.items():
            if 'near' not in box['looks'] and not {'begin', 'commit', 'unknown'} >= {lines[min(box['all']) - 1].split(' ')[0], lines[max(box['all']) - 1].split(' ')[0]}:
                return '%s is no bar: %r' % (name, sorted(box['all']))
    if sorted(bold) != sorted(edge[0] for edge in edges):
        return 'the bold arrows are %r, wanted %r' % (bold, edges)
    return None if dashed == supposed + said.count(WOULD) else '%d dashed arrows, wanted %d' % (dashed, supposed + said.count(WOULD))


def fault_of_part(page, text, said):
    """What is wrong with a page of a part, by the names of its transactions and the lines that are told."""
    (boxes, arrows), = page.pictures
    names, marked = [line for line in said.split('\n') if re.fullmatch(r'[0-9]+[.][0-9]+', line)], set().union(*(box['lines'] for box in boxes.values()))
    if not set(names[:picture.MOST_EDGES]) <= set(boxes) or len(names) <= picture.MOST_EDGES and not set(map(int, LINE.findall(said))) <= marked:
        return 'boxes %s, lines %s' % (sorted(boxes), sorted(marked))
    return None if all({first, second} <= set(boxes) for _, _, first, second, _ in arrows) else 'an arrow without its box'


def explained_by_audit(program, path):
    """What `audit --explain` tells of the part of a log, behind its headline as a verdict; None where the log is not refuted."""
    ran = subprocess.run([program, 'audit', '--explain', '--workers', '1', path], stdout=subprocess.PIPE, stderr=subprocess.PIPE, timeout=120)
    first, *lines = ran.stdout.decode().split('\n')
    if ran.returncode != 1:
        return None
    start = next(place for place, line in enumerate(lines) if HEADING.fullmatch(line))
    end = next(place for place, line in enumerate(lines) if re.match('%s$|sessions [0-9]+$' % WHY_NOT % '.+', line))
    part = Part(*lines[start:start + 2], lines[start + 2:end])
    return ''.join(line + '\n' for line in ['not serializable: ' + part.title, *part.why])


class Checks:
    def __init__(self, program, folder):
        self.program, self.folder, self.passed, self.failed, self.met = program, folder, 0, 0, collections.Counter()

    def expect(self, holds, what):
        self.passed, self.failed = self.passed + bool(holds), self.failed + (not holds)
        if not holds:
            print('FAILED', what)

    def call(self, *words):
        ran = subprocess.run([sys.executable, PICTURE, *words], stdin=subprocess.DEVNULL, stdout=subprocess.PIPE, stderr=subprocess.PIPE, timeout=300)
        return ran.returncode, ran.stdout.decode(), ran.stderr.decode()

    def put(self, name, text):
        path = os.path.join(self.folder, name)
        with open(path, 'wb') as file:
            file.write(text if isinstance(text, bytes) else text.encode())
        return path

    def failing(self, name, said, status):
        """A program that says this."""
        path = self.put(name, "#!/bin/sh\necho '%s'\nexit %d\n" % (said, status))
        os.chmod(path, 0o755)
        return path

    def audit(self, *words):
        return subprocess.run([self.program, 'audit', *words], stdout=subprocess.PIPE, stderr=subprocess.PIPE).stdout

    def pages(self, logs, unit=None):
        """The pages of each of these logs that is refuted, with its name, the log, and what `audit` or `explain` says of it."""
        for name, text in logs:
            path, lines = self.put('page.log', text), text.decode().splitlines()
            said = explained_by_audit(self.program, path)
            if said:
                report = picture.scripts.audited(self.program, path)
                page = picture.page_of_part(lines, report, name, unit).html()
                self.expect(('Without the order of sessions' in page) == (report['without_sessions'] is not None), '%s: the order of sessions' % name)
                if TOO.fullmatch(report['explanation'][0]):
                    self.expect('; they break' in page, '%s: told by a weaker level, and the page does not say so' % name)
                else:
                    yield name, text.decode(), said, page
            ran = subprocess.run([self.program, 'explain', '--workers', '1', path], stdout=subprocess.PIPE, stderr=subprocess.PIPE, timeout=120)
            self.expect((ran.returncode == 1) == bool(said) or len(lines) > LONG, '%s: explain ends with %d, and audit says %r' % (name, ran.returncode, said))
            if ran.returncode == 1:
                yield name + ', by explain', text.decode(), ran.stdout.decode(), picture.page_of(lines, ran.stdout.decode(), name, unit).html()

    def pages_of_levels(self, logs):
        """The pages of each of these logs at each level that it does not keep."""
        for name, text in logs:
            path = self.put('page.log', text)
            for level in list(levels.LEVELS)[:5]:  # of serial orders and of points
                try:
                    report = picture.scripts.audited(self.program, path, level)
                except picture.scripts.Stop:
                    continue
                about, told = '%s at %s' % (name, level), picture.told.of_part(report)
                self.expect(told.code != picture.told.PART or level not in STRONG or report['explanation'] == [picture.told.BY_SEARCH] or TOO.fullmatch(report['explanation'][0]), '%s: %r' % (about, report['explanation']))
                page = picture.page_of_part(text.decode().splitlines(), report, about).html()
                self.expect('<h1>%s: not kept' % levels.LEVELS[level] in page, '%s: no heading' % about)
                self.met[told.code] += 1
                if told.code == picture.told.PART:
                    yield about, text.decode(), '\n'.join([it['transaction'] for it in report['part']] + told.lines[told.behind - 1:]), page
                    continue
                is_of_points = told.code in (picture.told.CIRCLE, picture.told.TWO_WRITERS)
                title = 'not serializable: ' + picture.told.FAULTS[None if told.code == picture.told.TREE else told.code] if not is_of_points else levels.LEVELS[level]
                yield about, text.decode(), '\n'.join([title, *told.lines[1:], '']), page

    def look(self, command, pages):
        """Holds these pages against what `explain` says, as they stand in the browser where there is one."""
        broken = '<script>throw new Error("broken on purpose")</script>'
        seen, console = loaded(command, self.folder, [page for *_, page in pages] + [HOSTILE[2], broken]) if command else ([([], page) for *_, page in pages], [])
        for (name, text, said, page), (faults, stands) in zip(pages, seen):
            outside = re.findall(r'(?:src|href)="(?!#)[^"]*"|https?:|@import|url\(', page)
            judge = fault if said.startswith('not serializable') else fault_of_part if said[0].isdigit() else fault_of_points
            faults = ['it names something outside: %r' % outside] * bool(outside) + faults + list(filter(None, [judge(Tags(stands), text, said)]))
            known = re.search('^known as: .*', said, re.M)
            faults += ['it does not say %r' % known[0]] if known and html.escape(known[0][1:]) not in page else []
            self.expect(not faults, '%s: %s' % (name, '; '.join(faults)))
        hostile = Tags(seen[len(pages)][1] if command else HOSTILE[2])
        self.expect('img' not in hostile.names and len(hostile.pictures[0][1]) == 2, 'hostile keys are elements: %r' % sorted(hostile.names))
        if command:
            self.expect(len(console) == 1 and 'broken on purpose' in console[0], 'the console has, beside the error that is made: %r' % console)

    def lanes(self):
        """A session whose first transaction was aborted has one lane, also if the next one states the same moment."""
        text = 'log 3\nsession 1\nbegin 5\nw x 1\nabort\nbegin 5\nr x 0\nw x 2\ncommit 8\nsession 2\nbegin 5\nr x 0\nw x 3\ncommit 9\n'
        for _, _, _, page in self.pages([('one moment', text.encode())]):
            self.expect(page.count('>session 1</text>') == 1 and 'data-box="1.1"' in page, 'session 1 has %d lanes' % page.count('>session 1</text>'))

    def units(self):
        """Moments have the unit that is asked for: what is drawn of them counts from the first."""
        with open(os.path.join(generate.EXAMPLES, 'stale_in_time.log'), 'rb') as file:
            text = file.read()
        for unit, words in (('us', ' µs'), ('ns', ' ns'), ('s', ' s'), (None, '')):
            for name, _, _, page in self.pages([('units', re.sub(rb'(begin|commit) ', rb'\1 70000000', text))], unit):
                begun = re.search(r'>(commit [^<]*)</text><text[^>]*>line 13<', page)[1]
                self.expect(begun == ('commit at 5' + words if unit else 'commit 700000006'), '%s, unit %s: %r' % (name, unit, begun))
                self.expect(('count from the moment 700000001' in page) == bool(unit) and 'ended 1%s before' % words in page, '%s, unit %s' % (name, unit))
        history = picture.History([], 'us')
        for moments, words in ((0, '0 µs'), (999, '999 µs'), (1500, '1.5 ms'), (1234567, '1.23457 s')):
            self.expect(history.time(moments) == words, '%d: %s' % (moments, history.time(moments)))

    def labels(self):
        """Labels stand behind the names that they are of, and behind nothing that looks like one."""
        path, page, words = self.put('labelled.log', LABELLED), os.path.join(self.folder, 'labelled.html'), ['--program', self.program]
        plain = self.call(path, '-o', page, *words)
        self.expect(plain[0] == 0 and 'transfer' not in content(page), 'without labels: %r' % (plain,))
        self.put('labelled.log.labels', '1 1 transfer, <b>thread</b> 4\n2 1 audit of 1.1\n9 9 nothing\n')
        for more, told in (([], '2.1 (audit of 1.1) reads 1.1 0 (line'), (['--level', 'snapshot'], "2.1 (audit of 1.1)'s snapshot before 1.1 (transfer")):
            self.expect(self.call(path, '-o', page, *words, *more)[0] == 0, 'labelled %r' % more)
            text = content(page)
            self.expect('1.1 (transfer, &lt;b&gt;thread&lt;/b&gt; 4)</text>' in text and '2.1 (audit of 1.1)</text>' in text and '<b>thread' not in text, 'labels in boxes')
            said = html.unescape(re.sub('<[^>]*>', '', text))
            self.expect(told in said and 'reads 1.1 (' not in said, 'labels in lines: %r' % said[-2000:])
        for at in (['audit', '--explain'], ['audit', '--explain', '--level', 'snapshot'], ['explain']):
            said = subprocess.run([self.program, *at, path], stdout=subprocess.PIPE).stdout.decode()
            ran = subprocess.run([sys.executable, TOLD, path], input=said.encode(), stdout=subprocess.PIPE, stderr=subprocess.PIPE)
            got = ran.stdout.decode()
            self.expect(ran.returncode == 0 and re.sub(r' \((transfer, <b>thread</b> 4|audit of 1\.1)\)', '', got) == said, 'told %r: %r' % (at, got))
            named, keys = re.compile('1[.]1 .transfer'), re.compile(r"(?:reads|wrote|writes|write|version of|update of|see 2[.]1's|\]) 1[.]1 \(tr")
            self.expect(all(named.search(line) for line in got.split('\n') if re.search('which 1[.]1|1[.]1 and|1[.]1 before|by 1[.]1', line)) and not keys.search(got), 'told %r: %r' % (at, got))
        told = subprocess.run([self.program, 'audit', '--explain', path], stdout=subprocess.PIPE).stdout
        other = self.put('shifted.log', 'session 7\nbegin\nr x 0\ncommit\n' + LABELLED)
        self.put('shifted.log.labels', '1 1 transfer\n')
        ran = subprocess.run([sys.executable, TOLD, other], input=told, stdout=subprocess.PIPE, stderr=subprocess.PIPE)
        self.expect(ran.returncode == AROUND and b'standard input tells another log: 1.1 does not stand in these lines' in ran.stderr, 'told of another log: %r' % ran)
        for more in ([], ['--level', 'snapshot']):
            graph = subprocess.run([self.program, 'explain', '--format', 'dot', *more, path], stdout=subprocess.PIPE).stdout.decode()
            ran = subprocess.run([sys.executable, TOLD, path], input=graph.encode(), stdout=subprocess.PIPE, stderr=subprocess.PIPE)
            got = ran.stdout.decode()
            quoted = r'transfer, \\<b\\>thread\\</b\\> 4' if more else 'transfer, <b>thread</b> 4'
            self.expect(ran.returncode == 0 and re.sub(r' \((transfer, (\\?)<b\2>thread\2</b\2> 4|audit of 1\.1)\)', '', got) == graph, 'a graph %r: %r' % (more, got))
            self.expect(re.search(r'\n"(?:1[.]1|anomaly)" \[.*["| ]1[.]1 \(%s\)' % quoted, got) and 'r 1.1 (' not in got and 'w 1.1 (' not in got, 'a graph %r: %r' % (more, got))
        reader, writer = os.pipe()
        os.close(reader)
        ran = subprocess.run([sys.executable, TOLD, path], input=said.encode(), stdout=writer, stderr=subprocess.PIPE)
        os.close(writer)
        self.expect(ran.returncode == AROUND and not ran.stderr, 'nobody reads: %r' % ran)
        for text, said in (('1 1\n', 'labels:1: not a label'), ('1 1 x\n1 1 y\n', 'labels:2: a second label of 1.1'), ('1 1 x\x1b[1m\n', 'labels:1: '), ('0 1 x\n', 'labels:1: ')):
            self.put('labelled.log.labels', text)
            answer = self.call(path, '-o', os.path.join(self.folder, 'none.html'), *words)
            self.expect(answer[0] == AROUND and said in answer[2], 'labels %r: %r' % (text, answer))
        os.remove(path + '.labels')
        ran = subprocess.run([sys.executable, TOLD, path], stdin=subprocess.DEVNULL, stdout=subprocess.PIPE, stderr=subprocess.PIPE)
        self.expect(ran.returncode == AROUND and b'No such file' in ran.stderr, 'no labels: %r' % ran)

    def statuses(self):
        log = dict(generate.examples((1, 2, 3)))
        page, whole = os.path.join(self.folder, 'none.html'), lambda name: os.path.join(generate.EXAMPLES, name)
        skew = whole('write_skew.log')
        for words, status, said in (
            ([whole('two_writers.log')], 0, 'this log is serializable'), ([whole('unknown_not_last.log')], 2, 'unknown_not_last.log:6: '),
            ([whole('there_is_none.log')], AROUND, 'there_is_none.log'), ([skew, '--program', '/there/is/none'], AROUND, '/there/is/none'),
            ([skew, '--program', shutil.which('false')], AROUND, 'ends with 1'), ([skew, '--explained', skew], AROUND, 'not serializable'),
            ([skew, '--program', self.failing('unknown', '{"verdict":"unknown","reason":"1 closed"}', 3)], 3, '1 closed'),
            ([skew, '--program', self.failing('device', '', 5)], 5, 'ends with 5'),
            ([skew, '--program', self.failing('silent', '{"verdict":"not serializable","code":null,"part":[],"explanation":[]}', 1)], AROUND, 'nothing to draw'),
            ([skew, '--level', 'snapshot'], 0, 'snapshot isolation is kept'), ([skew, '--level', 'none'], 2, 'possible values'),
            ([skew, '--level', 'snapshot', '--explained', skew], 2, 'without a level'),
            ([skew, '--explained', self.put('audited', self.audit(skew))], AROUND, 'this is what audit says'),
            ([skew, '--explained', self.put('json', self.audit(skew, '--format', 'json'))], AROUND, 'this is what audit says'),
            ([skew, '--explained', self.put('cut', 'not serializable: A8 cycle of known edges\n')], AROUND, 'breaks off'),
            ([skew, '--explained', self.put('more', 'not serializable: A9 pruning ends in a cycle\nso it is\n')], AROUND, 'so it is'),
            ([skew, '--explained', self.put('other', subprocess.run([self.program, 'explain', '-'], input=log['long_fork.log'], stdout=subprocess.PIPE).stdout)], AROUND, 'another log'),
            ([skew, '-o', os.path.join(self.folder, 'no', 'folder')], AROUND, 'No such file'), ([], 2, 'usage'), ([skew, '--what'], 2, 'usage'),
        ):
            words = words + ['--program', self.program] * ('--program' not in words) * bool(words)
            answer = self.call(*words, *['-o', page] * ('-o' not in words) * bool(words))
            self.expect(answer[0] == status and said in answer[2] and not os.path.exists(page), '%r: %r, wanted status %d and %r' % (words, answer, status, said))
        answer = self.call('--help')
        self.expect(answer[0] == 0 and '--explained' in answer[1], '--help: %r' % (answer,))
        strange = self.put("it's $(touch ran) <b>.log", log['write_skew.log'])
        answer = self.call(strange, '--program', self.program)
        self.expect(answer[0] == 0 and '<b>.log' not in open(strange[:-len('log')] + 'html').read() and not os.path.exists('ran'), 'a strange name: %r' % (answer,))
        itself = self.put('log.html', log['write_skew.log'])
        for words in ([itself], [skew, '--explained', itself, '-o', itself]):
            answer = self.call(*words, '--program', self.program)
            self.expect(answer[0] == AROUND and open(itself, 'rb').read() == log['write_skew.log'], 'a page in place of its log: %r' % (answer,))
        # by ./run's way: the program is asked, and two pages of one log are the same
        pages = [os.path.join(self.folder, name) for name in ('one.html', 'two.html')]
        self.expect(all(self.call(whole('long_fork.log'), '-o', page, '--program', self.program)[0] == 0 for page in pages), 'no page')
        self.expect(open(pages[0], 'rb').read() == open(pages[1], 'rb').read(), 'two pages of one log differ')


def content(path):
    with open(path, encoding='utf-8') as file:
        return file.read()


def hostile():
    """A log, and what would be said of it, whose keys would be elements of the page and scripts, and its page."""
    evil = '"><img/src=x/onerror=throw/1>'
    text = 'session 1\nbegin\nw %s 1\ncommit\nsession 2\nbegin\nr %s 1\nw y 2\ncommit\n' % (evil, evil)
    said = ('not serializable: A8 cycle of known edges\ncycle 1.1 2.1 1.1\n1.1 before 2.1: 2.1 reads %s 1 (line 7), which 1.1 wrote (line 3)\n'
            '2.1 before 1.1: %s</script>\n' % (evil, evil))
    return text, said, picture.page_of(text.splitlines(), said, evil).html()


HOSTILE = hostile()


def long_log():
    """A log of more transactions than `explain` takes, of four sessions; two in the middle are a write skew."""
    lines, held = [[] for _ in range(4)], {}
    for turn in range(LONG):
        key = 'k%d' % (turn % 7)
        lines[turn % 4] += ['begin', 'r %s %d' % (key, held.get(key, 0)), 'w %s %d' % (key, turn + 1), 'commit']
        held[key] = turn + 1
        if turn == LONG // 2:
            for session, (one, other) in enumerate((('a', 'b'), ('b', 'a'))):
                lines[session] += ['begin', 'r %s 0' % one, 'w %s %d' % (other, LONG + 1 + session), 'commit']
    return ''.join('session %d\n%s' % (number, ''.join(line + '\n' for line in its)) for number, its in enumerate(lines, 1)).encode()


def logs():
    """Logs of which most are refuted: their names and texts."""
    yield from generate.examples((1, 2, 3))
    yield 'a large tree', explained.large_tree(8)
    for version, seeds in ((1, (1, 4)), (3, (0, 1))):
        for seed in seeds:
            yield 'stale_log %d of 1,000, version %d' % (seed, version), generate.stale_log(seed, 1000, 40, 150, version)
    for made, seeds in ((explained.run_log, 8), (explained.forced_log, 5), (explained.searched_log, 4), (generate.small_log, 8)):
        for seed in range(seeds):
            yield '%s %d' % (made.__name__, seed), made(seed, 1 + seed % 3)
    long = [[('w', 'x', 1)]] + [[('r', 'k%d' % n, n), ('w', 'k%d' % (n + 1), n + 1)] for n in range(100, 140)] + [[('r', 'k140', 140), ('r', 'x', 0)]]
    long[0].append(('w', 'k100', 100))
    yield 'a long cycle', generate.text_of([(number, [generate.Transaction(ops, 'commit')]) for number, ops in enumerate(long, 1)])
    key, wid = 'a.long:key/' + 'k' * 53, generate.LAST
    wide = [[('r', key, 0), ('w', key, wid)], [('r', key, 0), ('w', key, wid - 1)]]
    yield 'long keys and identities', generate.text_of([(65535 - n, [generate.Transaction(ops * 1 + [('w', '%s%d' % (key[:-2], n), wid - 5 - n)] * 1, 'commit')]) for n, ops in enumerate(wide)])
    yield 'a long log', long_log()
    many = [[('r', 'x', 0)] + [('w', 'y%d' % n, n + 1) for n in range(40)] + [('w', 'x', 99)], [('r', 'x', 0), ('w', 'x', 100)]]
    yield 'many operations', generate.text_of([(n + 1, [generate.Transaction(ops, 'commit')]) for n, ops in enumerate(many)])


def logs_of_levels():
    """Logs of which most break a level of snapshots, and a long one."""
    yield from generate.examples((1, 2, 3))
    yield from (('made log %d' % seed, level_model.points_text(seed)) for seed in range(1, 41))
    yield from (('log of replicas %d' % seed, told_points.replicas_text(seed)) for seed in range(1, 31))
    text = long_log()
    last = text.decode().rstrip().split('\n')[-2].split(' ')[1]
    yield 'a long log', text + ('session 9\nbegin\nr %s 0\nw %s 9999999\ncommit\n' % (last, last)).encode()


def main():
    if '--help' in sys.argv:
        return print(__doc__)
    with tempfile.TemporaryDirectory() as folder:
        checks, command = Checks(os.path.abspath(sys.argv[1]), folder), browser()
        if not command:
            print('picture: no page is looked at in a browser, since Chromium (%s) cannot be had here' % ' or '.join(BROWSERS))
        pages = list(checks.pages(logs()))
        print('picture: %d pages' % len(pages))
        checks.look(command, pages)
        of_levels = list(checks.pages_of_levels(logs_of_levels()))
        print('picture: %d pages of levels: %s' % (len(of_levels), ', '.join('%s %d' % it for it in checks.met.most_common())))
        checks.expect({picture.told.CIRCLE, picture.told.TWO_WRITERS} <= set(checks.met), 'nothing met: %r' % checks.met)
        for at in range(0, len(of_levels), 100):
            checks.look(command, of_levels[at:at + 100])
        checks.lanes()
        checks.units()
        checks.labels()
        checks.statuses()
    print('picture: %d passed, %d failed' % (checks.passed, checks.failed))
    sys.exit(1 if checks.failed else 0)


if __name__ == '__main__':
    main()
