// Package recorder writes the log of a test for cobra_poly, as collect/recorder.py does: put this file into a folder "recorder" of your module.
// docs/COLLECTING.md says what must be in a log, and why.
//
//	run, err := recorder.New("run.log", recorder.Options{})
//	session := run.Session()                             // one for each client, which is a goroutine
//	txn := session.Begin()                               // before its first statement is sent
//	txn.Read("stock/7", recorder.Identity(store.Get("stock/7")))   // behind the answer: a text, and whether there was one
//	wid := txn.Write("stock/7")                          // before the statement: an identity to keep beside the value
//	store.Put("stock/7", fmt.Sprintf("%d red", wid))
//	txn.Commit()                                         // behind the store's answer; or txn.Abort(), or txn.Unknown()
//	warnings, err := run.Close()                         // writes run.log
//
// A run that does not end is written in rounds, each a log by itself. A harness that does something of which no true log can be written hears it by a panic with a Misuse. Nothing of this is proved; it needs Go's
// standard library alone, 1.18 or later.
package recorder

import (
	"bufio"
	"bytes"
	"crypto/sha256"
	"encoding/hex"
	"errors"
	"fmt"
	"io"
	"os"
	"path/filepath"
	"regexp"
	"sort"
	"strconv"
	"strings"
	"sync"
	"time"
	"unicode"
	"unicode/utf8"
)

const (
	// An identity is a count times clients plus its client's number: its last three digits are the client. Of N processes that write one log
	// the K-th has every N-th count and every N-th session, from K on.
	clients, maxSession = 1000, 65535
	// So many bytes of a client may stand in memory before they go to its file.
	buffer = 1 << 16
	// And for so long, as long as transactions end; or for longer, where files are slow, so that this takes some hundredth of the time.
	mostHeld, mostSwept = time.Second, 20 * time.Millisecond
	// The keeper opens and closes rounds, under this number of a session, by fences: keys that begin so.
	keeper, fence = maxSession, "fence/"
	// So many rounds a transaction of unknown outcome is carried into, as long as nobody reads what it wrote.
	mostCarried = 10
	// What the store did not do at once is asked for again after so long, and for so many times a client's patience.
	again, mostPatience = 20 * time.Millisecond, 30
)

// RolledBack is what a Transact gives back of a transaction that was not committed; behind any other error nobody knows.
var RolledBack = errors.New("rolled back")

var (
	plainKey  = regexp.MustCompile(`\A[A-Za-z0-9_.:/-]{1,64}\z`)
	firstWord = regexp.MustCompile(`\A[0-9]+(?: |\z)`)
)

// Misuse says that the harness does something of which no true log can be written.
type Misuse string

func (it Misuse) Error() string { return string(it) }

// Unseen says that the store does not show what it said to be committed, so no round can begin or end.
type Unseen string

func (it Unseen) Error() string { return string(it) }

// Write is a key, and the identity of a write of it.
type Write struct {
	Key      string
	Identity uint64
}

// Transact runs one transaction of the recorder's own, which reads these keys, writes these, and is committed. It gives back the identities that
// it read, in this order. Where its connection is gone, it connects anew.
type Transact func(reads []string, writes []Write) ([]uint64, error)

func misuse(form string, words ...any) { panic(Misuse(fmt.Sprintf(form, words...))) }

// Name gives the log's word for a key, which is text or bytes: its own bytes where a log has these, else "hex:" and its bytes in hexadecimal,
// or "sha:" and a part of their SHA-256. No two keys have one name.
func Name(key string) string {
	if plainKey.MatchString(key) && !strings.HasPrefix(key, "hex:") && !strings.HasPrefix(key, "sha:") {
		return key
	}
	if len(key) <= 30 {
		return "hex:" + hex.EncodeToString([]byte(key))
	}
	sum := sha256.Sum256([]byte(key))
	return "sha:" + hex.EncodeToString(sum[:])[:60]
}

// Identity gives the identity with which a text begins that a store gave back; 0 where it found nothing.
func Identity(text string, found bool) uint64 {
	if !found {
		return 0
	}
	wid, err := strconv.ParseUint(strings.TrimSuffix(firstWord.FindString(text), " "), 10, 64)
	if err != nil {
		misuse("a value begins with its identity, and not as %q", text)
	}
	return wid
}

// ClockOfDay gives microseconds since 1970, by this machine's clock.
func ClockOfDay() int64 { return time.Now().UnixMicro() }

// Options of a recorder, of which all may be absent.
type Options struct {
	// With Moments the log says when each transaction began and was committed, for a store that promises strict serializability.
	Moments bool
	// Whether a file that stands at the path may be replaced.
	Overwrite bool
	// Share is {K, N} for the K-th of N processes that write one log, each to a path of its own; join.py joins them.
	Share [2]int
	// With Durable what a client writes is in its file before the store hears of it: a harness that is killed loses nothing that another
	// client could have read.
	Durable bool
	// Rounds is for a run of any length: behind so many transactions of all clients together they pause, and go on in a new round, which is a
	// log by itself; the path is the folder of these logs. It goes with Transact, which is called in the goroutine of a client whose session
	// has none of its own, and in one of the recorder's.
	Rounds   int
	Transact Transact
	// Patience of rounds: how long they wait for a client, whose transaction is unknown then; 10 seconds where it is not given.
	Patience time.Duration
	// Bound of rounds: how many keys the recorder reads in one transaction; 1000 where it is not given.
	Bound int
	// Clock gives whole numbers that never fall: microseconds since now where it is not given, and of a share ClockOfDay.
	Clock func() int64
}

// Recorder has the log of one run, which Close writes. It may be used by any number of goroutines.
type Recorder struct {
	path, folder     string
	options          Options
	turn             sync.Mutex
	clock            func() int64
	last             int64
	due              time.Time
	number, turns    int
	parts, idle      []*part
	open             map[*Transaction]bool
	counts           map[string]int
	strange          string
	leftOpen, labels []string
	warnings         []string
	closed, isShared bool
	// Of rounds: the one that goes on; what keys hold behind the last closing; transactions of unknown outcome that nobody read yet; by how
	// much the fences of a session have other keys; numbers that sessions have; parts that wait for the end of the round.
	round     *round
	held      map[string]uint64
	carried   []*unlearnt
	worn      map[int]int
	sessions  map[*Session]bool
	taken     map[int]bool
	late      []*part
	dropped   []string
	fences    *part
	fault     error
	ended     chan bool
	lastRound int
}

// part is one client's part of the log: a file, the lines that are not in it yet, and how many identities this client has given out.
type part struct {
	number int
	path   string
	size   int64
	lines  bytes.Buffer
	writes int
}

// move says to which folder goes what comes.
func (its *part) move(folder string) {
	its.path, its.size = filepath.Join(folder, strconv.Itoa(its.number)), 0
}

func holdsSomething(path string, isFolder bool) bool {
	found, err := os.Stat(path)
	if err == nil && isFolder && found.IsDir() {
		names, err := os.ReadDir(path)
		return err != nil || len(names) > 0
	}
	return err == nil && (!found.Mode().IsRegular() || found.Size() > 0)
}

// New makes the recorder of a run, whose log is to stand at this path.
func New(path string, options Options) (*Recorder, error) {
	path, err := filepath.Abs(path)
	if err != nil {
		return nil, err
	}
	run := &Recorder{path: path, options: options, clock: options.Clock, open: map[*Transaction]bool{}, counts: map[string]int{}}
	run.isShared, run.due = options.Share != [2]int{}, time.Now().Add(mostHeld)
	if !run.isShared {
		run.options.Share = [2]int{1, 1}
	}
	if first, all := run.options.Share[0], run.options.Share[1]; first < 1 || first > all || all > maxSession {
		misuse("a share is {K, N} for the K-th of N processes, and not %v", options.Share)
	}
	if run.clock == nil && run.isShared {
		run.clock = ClockOfDay
	} else if run.clock == nil {
		began := time.Now()
		run.clock = func() int64 { return time.Since(began).Microseconds() }
	}
	run.checkFreePath("")
	run.number = run.options.Share[0] - run.options.Share[1]
	if (options.Rounds > 0) != (options.Transact != nil) || options.Rounds < 0 || options.Bound < 0 || run.isShared && options.Rounds > 0 {
		misuse("rounds are made by transactions of the recorder, in one process: Rounds goes with Transact, and without Share")
	}
	if options.Rounds > 0 {
		return run, run.beginRounds()
	}
	run.folder, err = os.MkdirTemp(filepath.Dir(path), filepath.Base(path)+".*")
	if err != nil {
		return nil, err
	}
	return run, nil
}

func (run *Recorder) checkFreePath(told string) {
	if !run.options.Overwrite && holdsSomething(run.path, run.options.Rounds > 0) {
		misuse("%s is there already, and may be a log that is still needed: take another name, or Overwrite%s", run.path, told)
	}
}

// Session gives one client, which does one thing after the other.
func (run *Recorder) Session() *Session {
	run.turn.Lock()
	defer run.turn.Unlock()
	run.checkOpen()
	if len(run.idle) == 0 {
		if len(run.parts) == clients-1 {
			misuse("more than %d sessions at once: leave a session when its client ends", len(run.parts))
		}
		number := len(run.parts) + 1
		run.parts = append(run.parts, &part{number: number})
		run.parts[number-1].move(run.folder)
		run.idle = append(run.idle, run.parts[number-1])
	}
	its := run.idle[len(run.idle)-1]
	run.idle = run.idle[:len(run.idle)-1]
	return &Session{run: run, part: its, firstWrite: its.writes + 1}
}

// Close writes the log, and gives what makes it worth little, which is also told on standard error. A transaction that is still open ends
// as unknown.
func (run *Recorder) Close() ([]string, error) {
	run.turn.Lock()
	defer run.turn.Unlock()
	if run.warnings != nil {
		return run.warnings, nil
	}
	run.closed = true
	left := []*Transaction{}
	for txn := range run.open {
		left = append(left, txn)
	}
	sort.Slice(left, func(a, b int) bool { return left[a].began < left[b].began })
	for _, txn := range left {
		run.cutOff(txn)
	}
	finish := run.join
	if run.options.Rounds > 0 {
		finish = run.endRounds
	}
	if err := finish(); err != nil {
		return nil, err
	}
	run.warnings = run.worthLittle()
	for _, text := range run.warnings {
		fmt.Fprintf(os.Stderr, "recorder: %s: %s\n", run.path, text)
	}
	return run.warnings, nil
}

func (run *Recorder) join() error {
	joined := filepath.Join(run.folder, "log")
	out, err := os.Create(joined)
	if err != nil {
		return err
	}
	defer out.Close()
	if _, err = out.WriteString("log 3\n"); err != nil {
		return err
	}
	for _, its := range run.parts {
		if err = its.flush(nil); err == nil {
			err = its.copyTo(out)
		}
		if err != nil {
			return err
		}
	}
	run.checkFreePath("; this run is in " + joined)
	if err = os.Rename(joined, run.path); err != nil {
		return err
	}
	if len(run.labels) > 0 {
		err = writeLabels(run.path, run.labels)
	} else if run.options.Overwrite {
		_ = os.Remove(run.path + ".labels") // of the log that stood there
	}
	if err != nil {
		return err
	}
	return os.RemoveAll(run.folder)
}

func writeLabels(path string, labels []string) error {
	return os.WriteFile(path+".labels", []byte(strings.Join(labels, "")), 0o666)
}

func lineOfLabel(name, label string) string {
	return fmt.Sprintf("%s %s\n", strings.Replace(name, ".", " ", 1), label)
}

func (its *part) copyTo(out io.Writer) error {
	file, err := os.Open(its.path)
	if err != nil {
		return err
	}
	defer file.Close()
	_, err = io.Copy(out, file)
	return err
}

// flush puts lines into the part's file, and behind them those of a transaction that is still open, which the next call writes anew. Where an
// earlier write failed midway, it is made again; what stands there is never gone in between.
func (its *part) flush(open []string) error {
	file, err := os.OpenFile(its.path, os.O_WRONLY|os.O_CREATE, 0o644)
	if err != nil {
		return err
	}
	defer file.Close()
	data := append(its.lines.Bytes(), strings.Join(open, "")...)
	if _, err = file.WriteAt(data, its.size); err != nil {
		return err
	}
	if err = file.Truncate(its.size + int64(len(data))); err != nil {
		return err
	}
	its.size += int64(its.lines.Len())
	its.lines.Reset()
	return nil
}

func (run *Recorder) identityOf(its *part, count int) uint64 {
	return uint64(((count-1)*run.options.Share[1]+run.options.Share[0])*clients + its.number)
}

// countOf says the how manyth identity of this client it is, or 0 where it is none.
func (run *Recorder) countOf(its *part, wid uint64) int {
	count := int(wid/clients) - run.options.Share[0]
	if int(wid%clients) != its.number || count < 0 || count%run.options.Share[1] != 0 {
		return 0
	}
	return count/run.options.Share[1] + 1
}

func (run *Recorder) worthLittle() []string {
	counts, found := run.counts, []string{}
	warn := func(form string, words ...any) { found = append(found, fmt.Sprintf(form, words...)) }
	ended := counts["commit"] + counts["abort"] + counts["unknown"]
	switch {
	case counts["commit"] == 0:
		warn("no transaction was committed, so there is nothing to judge")
	case run.isShared: // where clients meet, the other processes may tell
	case counts["sessions"] < 2:
		warn("there is one session alone: a fault shows where clients meet")
	case counts["reads"] == 0:
		warn("no read names a write, so few faults can be seen: read keys that others write")
	case counts["reads of others"] == 0:
		warn("no client read what another one wrote: let them use the same keys, fewer of them")
	case counts["overlaps"] == 0:
		warn("no two transactions were open at once, so nothing was at risk: let the clients run side by side, with pauses")
	}
	if ended > 10 && counts["abort"]*10 > ended*9 {
		warn("%d of %d transactions were aborted", counts["abort"], ended)
	}
	if counts["unknown"] > 10 && counts["unknown"]*10 > ended {
		warn("of %d transactions %d have an unknown outcome: faults that need a true one go unseen", ended, counts["unknown"])
	}
	if run.strange != "" {
		warn("%s, which nobody wrote in this run: the keys must be empty before it, and each value keep its identity", run.strange)
	}
	if counts["late"] > 0 {
		warn("%d times a fence of a round was not seen at once: the store shows late what it committed, and keeps no strict level", counts["late"])
	}
	if counts["waited for"] > 0 {
		warn("%d times a client did not come to the end of a round within %g seconds, and the recorder wrote its fence", counts["waited for"], run.options.Patience.Seconds())
	}
	unread := "what %d transactions of unknown outcome wrote was read by nobody%s: %s"
	if counts["dropped"] > 0 {
		warn(unread, counts["dropped"], fmt.Sprintf(" in %d rounds, so they are carried no more", mostCarried), strings.Join(run.dropped, ", "))
	}
	if len(run.carried) > 0 {
		names := []string{}
		for _, it := range run.carried[:min(10, len(run.carried))] {
			names = append(names, it.name)
		}
		warn(unread, len(run.carried), "", strings.Join(names, ", "))
	}
	if len(run.leftOpen) > 0 {
		warn("transactions were open when their thread or the run ended, and are unknown: %s", strings.Join(run.leftOpen[:min(10, len(run.leftOpen))], ", "))
	}
	return found
}

func min(a, b int) int {
	if a < b {
		return a
	}
	return b
}

// What follows is called with the lock held.

func (run *Recorder) checkOpen() {
	if run.closed {
		misuse("the recorder is closed: let all clients end before Close()")
	}
}

// moment is a reading of the clock, greater than each one before. Where other processes read it too, a beginning is not said to be later than it
// was, and an end not to be earlier.
func (run *Recorder) moment(isEnd bool) int64 {
	now := run.clock()
	if run.isShared {
		if run.last < now+1 {
			run.last = now + 1
		}
		if !isEnd {
			return now
		}
		return run.last
	}
	if run.last++; run.last < now {
		run.last = now
	}
	return run.last
}

func (run *Recorder) end(txn *Transaction, outcome string) {
	session := txn.session
	txn.Outcome, session.txn = outcome, nil
	delete(run.open, txn)
	if run.options.Rounds == 0 || outcome != "unknown" {
		txn.lines = append(txn.lines, run.lineOfEnd(outcome))
		session.part.put(txn.lines)
	}
	if run.options.Rounds > 0 {
		run.endInRound(txn)
	} else if txn.label != "" {
		run.labels = append(run.labels, lineOfLabel(txn.Name, txn.label))
	}
	run.counts[outcome]++
	if outcome == "commit" {
		run.counts["reads"] += len(txn.reads)
		for _, wid := range txn.reads {
			if run.countOf(session.part, wid) < session.firstWrite {
				run.counts["reads of others"]++
			}
		}
	} else if outcome == "unknown" && run.options.Rounds == 0 {
		session.Number = 0
	}
	if session.part.lines.Len() > buffer {
		// what cannot be written stays in memory, and Close tells where it still cannot be
		_ = session.part.flush(nil)
	}
	if now := time.Now(); now.After(run.due) {
		run.due = now.Add(mostHeld)
		for left := len(run.parts); left > 0 && time.Since(now) < mostSwept; left-- {
			its := run.parts[run.turns%len(run.parts)]
			run.turns++
			// of one without lines an open transaction may stand in the file, where it is durable
			if its.lines.Len() > 0 {
				_ = its.flush(nil)
			}
		}
	}
}

func (its *part) put(lines []string) {
	for _, line := range lines {
		its.lines.WriteString(line)
	}
}

func (run *Recorder) lineOfBegin() string {
	if !run.options.Moments {
		return "begin\n"
	}
	return fmt.Sprintf("begin %d\n", run.moment(false))
}

func (run *Recorder) lineOfEnd(outcome string) string {
	if outcome == "commit" && run.options.Moments {
		return fmt.Sprintf("commit %d\n", run.moment(true))
	}
	return outcome + "\n"
}

// nextNumber gives a session's number that nobody has; in rounds nobody of this one.
func (run *Recorder) nextNumber() int {
	most := maxSession
	if run.options.Rounds > 0 {
		most--
	}
	next := run.number + run.options.Share[1]
	for run.taken[next] {
		next += run.options.Share[1]
	}
	if next > most {
		misuse("a log has at most %d sessions, those of all processes together", maxSession)
	}
	run.number = next
	run.counts["sessions"]++
	return next
}

// cutOff ends a transaction for which nobody waits any longer.
func (run *Recorder) cutOff(txn *Transaction) {
	run.leftOpen = append(run.leftOpen, txn.Name)
	txn.isCutOff = run.options.Rounds > 0
	run.end(txn, "unknown")
}

// What follows is of rounds, and is called with the lock held too. The keeper is a goroutine of its own, which opens and closes them; clients read
// and write fences in theirs.

// unlearnt is a transaction of unknown outcome: its name, its label, the round in which it began, its lines but for the last, and its keys.
type unlearnt struct {
	name, label, begin string
	round              int
	lines              []string
	keys               map[string]string
}

// text gives its lines in a session of its own, where it has read the fence first; behind the round in which it began its writes alone.
func (it *unlearnt) text(session int, line string, isCarried bool) string {
	begin := it.begin
	if isCarried {
		begin = "begin\n"
	}
	text := fmt.Sprintf("session %d\n", session) + begin + line
	for _, its := range it.lines {
		if its[0] == 'w' || !isCarried {
			text += its
		}
	}
	return text + "unknown\n"
}

// round is what is known of a round: whether clients may begin and whether they have to end it, the keeper's fence, the keys that were written in it
// and the names that were read, who has come into it, the fences that its clients left, labels, and what ended unknown.
type round struct {
	number, ended, committed int
	isOpen, isDue            bool
	fence                    Write
	keeper, labels           []string
	keys                     map[string]string
	seen                     map[string]bool
	come                     map[*Session]*part
	numbers                  map[int]bool
	fences                   []Write
	unknown                  []*unlearnt
}

func (its *round) line() string { return fmt.Sprintf("r %s %d\n", its.fence.Key, its.fence.Identity) }

var roundFile = regexp.MustCompile(`\A(?:[0-9]{6,}\.(?:log|log\.labels|part)|1\.lock|end)\z`)

func (run *Recorder) beginRounds() error {
	if run.options.Patience == 0 {
		run.options.Patience = 10 * time.Second
	}
	if run.options.Bound == 0 {
		run.options.Bound = 1000
	}
	if err := os.MkdirAll(run.path, 0o777); err != nil {
		return err
	}
	names, err := os.ReadDir(run.path)
	for _, name := range names {
		if err == nil && roundFile.MatchString(name.Name()) {
			err = os.RemoveAll(filepath.Join(run.path, name.Name()))
		}
	}
	if err != nil {
		return err
	}
	run.held, run.worn, run.sessions, run.fences, run.ended = map[string]uint64{}, map[int]int{}, map[*Session]bool{}, &part{}, make(chan bool)
	if err = run.beginRound(1); err == nil {
		go run.keep()
	}
	return err
}

func (run *Recorder) beginRound(number int) error {
	run.round = &round{number: number, keys: map[string]string{}, seen: map[string]bool{}, come: map[*Session]*part{}, numbers: map[int]bool{}}
	run.folder = filepath.Join(run.path, fmt.Sprintf("%06d.part", number))
	for _, its := range append(run.parts, run.fences) {
		its.move(run.folder)
	}
	run.number, run.taken = run.options.Share[0]-run.options.Share[1], map[int]bool{}
	for session := range run.sessions {
		run.taken[session.Number] = true
	}
	run.idle, run.late = append(run.idle, run.late...), nil
	return os.Mkdir(run.folder, 0o777)
}

// without calls something that needs no lock.
func (run *Recorder) without(call func()) {
	run.turn.Unlock()
	defer run.turn.Lock()
	call()
}

func (run *Recorder) rest(time_ time.Duration) { run.without(func() { time.Sleep(time_) }) }

func (run *Recorder) keep() {
	run.turn.Lock()
	defer func() {
		if fault := recover(); fault != nil {
			err, is := fault.(error)
			if !is {
				err = fmt.Errorf("%v", fault)
			}
			run.fault = err
		}
		run.turn.Unlock()
		close(run.ended)
	}()
	must := func(err error) {
		if err != nil {
			panic(err)
		}
	}
	for {
		must(run.openRound())
		for !run.round.isDue && !run.closed {
			run.rest(2 * time.Millisecond)
		}
		its, folder := run.round, run.folder
		its.isDue = true
		run.gather(its)
		unknown := append(append([]*unlearnt{}, run.carried...), its.unknown...)
		var closings [][]string
		var reads map[string]uint64
		if its.committed > 0 || !run.closed {
			closings, reads = run.readClosing(its, unknown)
		}
		for _, part := range run.parts {
			must(part.flush(nil))
		}
		isLast := run.closed
		if !isLast {
			must(run.beginRound(its.number + 1))
		}
		// what became known of the round is written while the next one goes on, but for what that one needs
		paths := []string{}
		for _, part := range run.parts {
			path := filepath.Join(folder, strconv.Itoa(part.number))
			if _, err := os.Stat(path); err == nil {
				paths = append(paths, path)
			}
		}
		if isLast {
			must(run.writeRound(its, folder, paths, closings, reads, unknown))
			return
		}
		must(run.openRound())
		must(run.writeRound(its, folder, paths, closings, reads, unknown))
	}
}

func (run *Recorder) endRounds() error {
	run.without(func() { <-run.ended })
	if run.fault != nil {
		return run.fault
	}
	return os.WriteFile(filepath.Join(run.path, "end"), []byte(fmt.Sprintf("%d\n", run.lastRound)), 0o666)
}

// enter lets a client begin a transaction when it has come into a round that is open.
func (run *Recorder) enter(session *Session) {
	for {
		session.checkFree()
		its := run.round
		mayBegin := its.isOpen && !its.isDue
		switch {
		case run.fault != nil:
			panic(run.fault)
		case mayBegin && session.come == its:
			return
		case mayBegin:
			run.comeIn(session)
		case session.come == its && session.left != its:
			run.leaveRound(session)
		default:
			run.rest(2 * time.Millisecond)
		}
	}
}

func (run *Recorder) ask(transact Transact, reads []string, writes []Write) (seen []uint64, err error) {
	run.without(func() { seen, err = transact(reads, writes) })
	if err == nil && len(seen) != len(reads) {
		misuse("a Transact gives back what it read, one for each of %d keys, and not %v", len(reads), seen)
	}
	return
}

// tries gives what is called behind each try that failed: it goes on for as long as the store may need.
func (run *Recorder) tries(form string, words ...any) func() {
	began, pause := time.Now(), again
	return func() {
		run.rest(pause)
		if pause *= 2; pause > time.Second {
			pause = time.Second
		}
		most := run.options.Patience
		if !run.closed {
			most *= mostPatience
		} else if most < 10*time.Second {
			most = 10 * time.Second
		}
		if time.Since(began) > most {
			panic(Unseen(fmt.Sprintf(form, words...) + fmt.Sprintf(", for %d seconds", int(time.Since(began).Seconds()))))
		}
	}
}

func (run *Recorder) wear(number int) {
	if run.worn[number] == 0 {
		run.worn[number] = 1
	}
	run.worn[number]++
}

// putFence writes the fence of a session, and gives its lines, or none where that is over. A fence of which nobody knows whether it was written is
// written no more: it has another key from then on.
func (run *Recorder) putFence(number int, its *part, transact Transact, isOver func() bool) ([]string, Write) {
	next := run.tries("the store commits no fence of session %d", number)
	for !isOver() {
		key := fence + strconv.Itoa(number)
		if run.worn[number] > 0 {
			key += "." + strconv.Itoa(run.worn[number])
		}
		its.writes++
		write, begin := Write{key, run.identityOf(its, its.writes)}, run.lineOfBegin()
		_, err := run.ask(transact, nil, []Write{write})
		if err == nil {
			return []string{begin, fmt.Sprintf("w %s %d\n", key, write.Identity), run.lineOfEnd("commit")}, write
		}
		if !errors.Is(err, RolledBack) {
			run.wear(number)
		}
		next()
	}
	return nil, Write{}
}

func never() bool { return false }

func (run *Recorder) openRound() (err error) {
	if run.round.isOpen {
		return nil
	}
	its := run.round
	its.keeper, its.fence = run.putFence(keeper, run.fences, run.options.Transact, never)
	if run.options.Durable {
		err = run.fences.flush(append([]string{fmt.Sprintf("session %d\n", keeper)}, its.keeper...))
	}
	its.isOpen = true
	return err
}

func (session *Session) transact() Transact {
	if session.Transact != nil {
		return session.Transact
	}
	return session.run.options.Transact
}

// comeIn has a client read the keeper's fence, until it sees it, and is in the round.
func (run *Recorder) comeIn(session *Session) {
	its, next := run.round, run.tries("session %d does not see the fence of round %d", session.Number, run.round.number)
	for {
		begin := run.lineOfBegin()
		seen, err := run.ask(session.transact(), []string{its.fence.Key}, nil)
		if run.round != its || its.isDue || run.fault != nil {
			return
		}
		if err == nil && seen[0] == its.fence.Identity {
			end := run.lineOfEnd("commit")
			if session.Number == 0 {
				session.Number = run.nextNumber()
			}
			run.sessions[session] = true
			session.come, session.place = its, 1
			session.part.put([]string{fmt.Sprintf("session %d\n", session.Number), begin, its.line(), end})
			its.come[session], its.numbers[session.Number] = session.part, true
			return
		}
		if err == nil {
			run.counts["late"]++
		}
		next()
	}
}

// leaveRound has a client write its fence, as its last transaction of the round, if it came into it.
func (run *Recorder) leaveRound(session *Session) {
	its := session.come
	isOver := func() bool {
		return its == nil || session.left == its || run.round != its || run.closed || run.fault != nil
	}
	lines, write := run.putFence(session.Number, session.part, session.transact(), isOver)
	if lines != nil && !isOver() {
		run.hasLeft(session, its, lines, write)
	}
}

func (run *Recorder) hasLeft(session *Session, its *round, lines []string, write Write) {
	its.come[session].put(lines)
	its.fences = append(its.fences, write)
	session.left = its
}

// gather waits until each client has left the round; for one that does not come the keeper writes its fence.
func (run *Recorder) gather(its *round) {
	began, waiting := time.Now(), []*Session{}
	for {
		waiting = waiting[:0]
		for session := range its.come {
			if session.left != its {
				waiting = append(waiting, session)
			}
		}
		if len(waiting) == 0 || run.closed || time.Since(began) > run.options.Patience {
			break
		}
		run.rest(2 * time.Millisecond)
	}
	sort.Slice(waiting, func(a, b int) bool { return waiting[a].Number < waiting[b].Number })
	for _, session := range waiting {
		if !run.closed {
			run.counts["waited for"]++
		}
		if session.txn != nil {
			run.cutOff(session.txn)
		}
		// its own try may still be under way
		session.left = its
		run.wear(session.Number)
	}
	for _, session := range waiting {
		lines, write := run.putFence(session.Number, run.fences, run.options.Transact, never)
		run.hasLeft(session, its, lines, write)
	}
}

func (run *Recorder) endInRound(txn *Transaction) {
	its := run.round
	if txn.Outcome == "unknown" {
		// it stands in a session of its own, and its client goes on in the old one
		txn.unlearnt = &unlearnt{name: fmt.Sprintf("%06d: %s", its.number, txn.Name), label: txn.label, begin: txn.lines[0], round: its.number, lines: txn.lines[1:], keys: txn.keys}
		its.unknown = append(its.unknown, txn.unlearnt)
		txn.session.place--
		if run.options.Durable {
			_ = run.keepUnknown(its, txn.unlearnt, false)
		}
	} else if txn.label != "" {
		its.labels = append(its.labels, lineOfLabel(txn.Name, txn.label))
	}
	if txn.Outcome == "commit" {
		its.committed++
		for name := range txn.looked {
			its.seen[name] = true
		}
	}
	for name, key := range txn.keys {
		its.keys[name] = key
	}
	its.ended++
	its.isDue = its.isDue || its.ended >= run.options.Rounds
}

func (run *Recorder) keepUnknown(its *round, it *unlearnt, isCarried bool) error {
	file, err := os.OpenFile(filepath.Join(run.folder, "unknown"), os.O_WRONLY|os.O_CREATE|os.O_APPEND, 0o666)
	if err != nil {
		return err
	}
	defer file.Close()
	_, err = file.WriteString(it.text(run.nextNumber(), its.line(), isCarried))
	return err
}

// readClosing reads the fences that clients left, and what the keys of the round hold: the closing's transactions, and what they read last. Where
// one shows a transaction of unknown outcome, what that wrote is read behind it.
func (run *Recorder) readClosing(its *round, unknown []*unlearnt) (closings [][]string, reads map[string]uint64) {
	keys, writes, behind, reads := map[string]string{}, map[string]*unlearnt{}, map[*unlearnt]bool{}, map[string]uint64{}
	for name, key := range its.keys {
		keys[name] = key
	}
	for _, it := range unknown {
		for name, key := range it.keys {
			keys[name] = key
		}
		for _, line := range it.lines {
			if line[0] == 'w' {
				writes[line[2:]] = it
			}
		}
	}
	wanted, asked := map[string]uint64{}, []string{}
	for _, write := range its.fences {
		wanted[write.Key], keys[write.Key] = write.Identity, write.Key
		asked = append(asked, write.Key)
	}
	fences := len(asked)
	for name := range keys {
		if _, is := wanted[name]; !is {
			asked = append(asked, name)
		}
	}
	sort.Strings(asked[fences:])
	for place := 0; place < len(asked) || len(closings) == 0; {
		some := asked[place:min(len(asked), place+run.options.Bound)]
		earlier := asked[:place]
		place += len(some)
		lines, seen := run.readOnce(its, some, keys, wanted)
		closings = append(closings, lines)
		for number, name := range some {
			reads[name] = seen[number]
			it := writes[fmt.Sprintf("%s %d\n", name, seen[number])]
			if it == nil || behind[it] {
				continue
			}
			behind[it] = true
			for _, before := range earlier {
				if _, is := it.keys[before]; is {
					asked = append(asked[:len(asked):len(asked)], before)
				}
			}
		}
	}
	for name := range wanted {
		delete(reads, name)
	}
	return
}

func (run *Recorder) readOnce(its *round, some []string, keys map[string]string, wanted map[string]uint64) ([]string, []uint64) {
	next := run.tries("the fences of round %d are not seen", its.number)
	for {
		lines, asked, seen := []string{run.lineOfBegin()}, []string{}, []uint64{}
		for _, name := range some {
			asked = append(asked, keys[name])
		}
		var err error
		if len(asked) > 0 {
			seen, err = run.ask(run.options.Transact, asked, nil)
		}
		isSeen := err == nil
		for number, name := range some {
			if isSeen {
				wid, is := wanted[name]
				isSeen = !is || wid == seen[number]
				lines = append(lines, fmt.Sprintf("r %s %d\n", name, seen[number]))
			}
		}
		if isSeen {
			return append(lines, run.lineOfEnd("commit")), seen
		}
		if err == nil {
			run.counts["late"]++
		}
		next()
	}
}

// writeRound writes the log of a round that has ended, and finds which transactions of unknown outcome took part in it.
func (run *Recorder) writeRound(its *round, folder string, paths []string, closings [][]string, reads map[string]uint64, unknown []*unlearnt) error {
	var taken map[*unlearnt]bool
	var err error
	run.without(func() { taken, err = takenIn(paths, closings, its, unknown) })
	if err != nil {
		return err
	}
	run.carried = nil
	for _, it := range unknown {
		if !taken[it] && it.round <= its.number-mostCarried {
			run.counts["dropped"]++
			run.dropped = append(run.dropped, it.name)[:min(10, len(run.dropped)+1)]
		} else if !taken[it] {
			run.carried = append(run.carried, it)
		}
		for _, line := range it.lines {
			if taken[it] && it.round == its.number && line[0] == 'r' {
				its.seen[strings.Fields(line)[1]] = true
			}
		}
	}
	if closings != nil {
		for name := range reads {
			its.seen[name] = true
		}
		names := []string{}
		for name := range its.seen {
			if run.held[name] != 0 {
				names = append(names, name)
			}
		}
		sort.Strings(names)
		text := "log 3\n" + fmt.Sprintf("session %d\n", keeper) + its.keeper[0]
		for _, name := range names {
			text += fmt.Sprintf("w %s %d\n", name, run.held[name])
		}
		text += strings.Join(its.keeper[1:], "")
		for _, lines := range closings {
			text += strings.Join(lines, "")
		}
		behind, number := "", 0
		for _, it := range unknown {
			if taken[it] {
				for number++; its.numbers[number]; number++ {
				}
				behind += it.text(number, its.line(), it.round < its.number)
				if it.label != "" {
					its.labels = append(its.labels, fmt.Sprintf("%d 1 %s\n", number, it.label))
				}
			}
		}
		run.without(func() { err = writeLog(filepath.Join(folder, "log"), text, paths, behind) })
		path := filepath.Join(run.path, fmt.Sprintf("%06d.log", its.number))
		if err == nil && len(its.labels) > 0 {
			err = writeLabels(path, its.labels)
		}
		if err == nil {
			err = os.Rename(filepath.Join(folder, "log"), path)
		}
		if err != nil {
			return err
		}
		run.lastRound = its.number
	}
	for name, wid := range reads {
		run.held[name] = wid
	}
	// a client that idles knows the round that it left, which must not know those who go on
	its.come = nil
	for _, it := range run.carried {
		if run.options.Durable && run.round != its && err == nil {
			err = run.keepUnknown(run.round, it, true)
		}
	}
	if err != nil {
		return err
	}
	return os.RemoveAll(folder)
}

func writeLog(path, text string, paths []string, behind string) error {
	out, err := os.Create(path)
	if err != nil {
		return err
	}
	defer out.Close()
	_, err = out.WriteString(text)
	for _, from := range paths {
		if err == nil {
			err = (&part{path: from}).copyTo(out)
		}
	}
	if err == nil {
		_, err = out.WriteString(behind)
	}
	return err
}

// takenIn gives those of these transactions of which a committed one of the round read a write, or one that is taken itself.
func takenIn(paths []string, closings [][]string, its *round, unknown []*unlearnt) (map[*unlearnt]bool, error) {
	wanted, found, taken := map[string]*unlearnt{}, []*unlearnt{}, map[*unlearnt]bool{}
	for _, it := range unknown {
		for _, line := range it.lines {
			if line[0] == 'w' {
				wanted["r"+line[1:]] = it
			}
		}
	}
	if len(wanted) == 0 {
		return taken, nil
	}
	for _, lines := range closings {
		for _, line := range lines {
			if it := wanted[line]; it != nil {
				found = append(found, it)
			}
		}
	}
	for _, path := range paths {
		file, err := os.Open(path)
		if err != nil {
			return nil, err
		}
		some := []*unlearnt{}
		for lines := bufio.NewReader(file); err == nil; {
			var line string
			line, err = lines.ReadString('\n')
			if it := wanted[line]; it != nil {
				some = append(some, it)
			} else if strings.HasPrefix(line, "commit") {
				found, some = append(found, some...), some[:0]
			} else if line == "abort\n" {
				some = some[:0]
			}
		}
		file.Close()
		if err != io.EOF {
			return nil, err
		}
	}
	for len(found) > 0 {
		it := found[len(found)-1]
		found = found[:len(found)-1]
		if taken[it] {
			continue
		}
		taken[it] = true
		for _, line := range it.lines {
			if other := wanted[line]; other != nil && it.round == its.number {
				found = append(found, other)
			}
		}
	}
	return taken, nil
}

// Session is one client, which does one thing after the other. Its number in the log is 0 until it begins a transaction, and behind one of an
// unknown outcome, where it goes on under a new one.
type Session struct {
	Number int
	// Transact is called for this session in place of the recorder's, where it is set: on its own connection.
	Transact          Transact
	come, left        *round
	run               *Recorder
	part              *part
	txn               *Transaction
	place, firstWrite int
}

// Begin begins a transaction: before its first statement is sent. A label, where one is given, says on a line what it is for, beside the log in a
// file of its own.
func (session *Session) Begin(label ...string) *Transaction {
	run, its := session.run, strings.Join(label, "")
	if len(label) > 1 || len(label) == 1 && !isLabel(its) {
		misuse("a label is a printable text on one line, and a transaction has one at most, and not %q", label)
	}
	run.turn.Lock()
	defer run.turn.Unlock()
	session.checkFree()
	if run.options.Rounds > 0 {
		run.enter(session)
	}
	txn := &Transaction{session: session, run: run, label: its, written: map[uint64]string{}, reads: map[string]uint64{}, keys: map[string]string{}, looked: map[string]bool{}}
	if session.Number == 0 {
		session.Number, session.place = run.nextNumber(), 0
		txn.lines = append(txn.lines, fmt.Sprintf("session %d\n", session.Number))
	}
	session.place++
	txn.Name = fmt.Sprintf("%d.%d", session.Number, session.place)
	txn.lines = append(txn.lines, run.lineOfBegin())
	if len(run.open) > 0 {
		run.counts["overlaps"]++
	}
	run.counts["begun"]++
	txn.began, session.txn, run.open[txn] = run.counts["begun"], txn, true
	return txn
}

func isLabel(text string) bool {
	isOther := func(it rune) bool { return !unicode.IsPrint(it) }
	return strings.Trim(text, " ") != "" && utf8.ValidString(text) && strings.IndexFunc(text, isOther) < 0
}

func (session *Session) checkFree() {
	session.run.checkOpen()
	if session.part == nil {
		misuse("this session is closed: each client opens one of its own")
	}
	if session.txn != nil {
		misuse("%s is still open: end it first; clients that run at once have a session each", session.txn.Name)
	}
}

// Leave ends the client; a transaction that is open ends as unknown.
func (session *Session) Leave() {
	run := session.run
	run.turn.Lock()
	defer run.turn.Unlock()
	if session.txn != nil {
		run.cutOff(session.txn)
	}
	if session.part == nil {
		return
	}
	if run.options.Rounds > 0 {
		run.leaveRound(session)
	}
	delete(run.sessions, session)
	// another client may have its part; in rounds not before its fence stands there
	if session.come != nil && session.come == run.round && session.left != run.round {
		run.late = append(run.late, session.part)
	} else {
		run.idle = append(run.idle, session.part)
	}
	session.part = nil
}

// Transaction has what one transaction did: Name is its name in the log, SESSION.PLACE, and Outcome is "" while it is open, then "commit", "abort"
// or "unknown".
type Transaction struct {
	Name, Outcome string
	label         string
	session       *Session
	run           *Recorder
	lines         []string
	written       map[uint64]string
	reads         map[string]uint64
	began         int
	// of rounds: the keys of its writes, the names that it read, and what nobody waits for any longer
	keys     map[string]string
	looked   map[string]bool
	isCutOff bool
	unlearnt *unlearnt
}

// Read says that it read the key, and saw the write of this identity: 0 where there was nothing.
func (txn *Transaction) Read(key string, wid uint64) { txn.ReadBefore(key, wid, 0) }

// ReadBefore is for a statement that reads and writes at once: it has read before its write of the identity `before`.
func (txn *Transaction) ReadBefore(key string, wid, before uint64) {
	name, run := Name(key), txn.run
	run.turn.Lock()
	defer run.turn.Unlock()
	if txn.isCutOff {
		return
	}
	txn.checkOpen()
	place := len(txn.lines)
	if before != 0 {
		place = txn.placeOf(before)
	}
	txn.lines = append(txn.lines, "")
	copy(txn.lines[place+1:], txn.lines[place:])
	txn.lines[place] = fmt.Sprintf("r %s %d\n", name, wid)
	txn.looked[name] = true
	if wid == 0 {
		return
	}
	txn.reads[name] = wid
	client := int(wid % clients)
	known := client > 0 && client <= len(run.parts)
	if known {
		count := run.countOf(run.parts[client-1], wid)
		known = count > 0 && count <= run.parts[client-1].writes
	}
	if !known && !run.isShared && run.strange == "" {
		run.strange = fmt.Sprintf("%s read %s as %d", txn.Name, name, wid)
	}
}

// Write gives an identity for a write of the key, to be kept with the value: it is asked for directly before the statement is sent.
func (txn *Transaction) Write(key string) uint64 {
	name, run := Name(key), txn.run
	run.turn.Lock()
	defer run.turn.Unlock()
	if run.options.Rounds > 0 && strings.HasPrefix(name, fence) {
		misuse("'%s' begins as the fences of rounds do", name)
	}
	its := run.fences
	if !txn.isCutOff {
		txn.checkOpen()
		its = txn.session.part
	}
	its.writes++
	wid := run.identityOf(its, its.writes)
	txn.written[wid] = fmt.Sprintf("w %s %d\n", name, wid)
	txn.keys[name] = key
	if txn.isCutOff {
		// it goes on, and its outcome stays unknown
		txn.unlearnt.lines = append(txn.unlearnt.lines, txn.written[wid])
		return wid
	}
	txn.lines = append(txn.lines, txn.written[wid])
	if run.options.Durable {
		_ = its.flush(txn.lines)
	}
	return wid
}

// Refused says that the write of this identity was not done: the store said so, or it was never sent; and the transaction goes on.
func (txn *Transaction) Refused(wid uint64) {
	txn.run.turn.Lock()
	defer txn.run.turn.Unlock()
	if txn.isCutOff {
		return
	}
	txn.checkOpen()
	place := txn.placeOf(wid)
	txn.lines = append(txn.lines[:place], txn.lines[place+1:]...)
	delete(txn.written, wid)
}

// Commit says that it is committed: the store has said so.
func (txn *Transaction) Commit() { txn.endAs("commit") }

// Abort says that it was rolled back, by the client or by the store.
func (txn *Transaction) Abort() { txn.endAs("abort") }

// Unknown says that nobody learnt whether it was committed. The session goes on under another number, and should do so on a new connection.
func (txn *Transaction) Unknown() { txn.endAs("unknown") }

func (txn *Transaction) endAs(outcome string) {
	txn.run.turn.Lock()
	defer txn.run.turn.Unlock()
	if txn.isCutOff {
		return
	}
	txn.checkOpen()
	txn.run.end(txn, outcome)
}

func (txn *Transaction) placeOf(wid uint64) int {
	for place, line := range txn.lines {
		if line == txn.written[wid] {
			return place
		}
	}
	misuse("%s did not write with identity %d", txn.Name, wid)
	return 0
}

func (txn *Transaction) checkOpen() {
	if txn.Outcome != "" {
		misuse("%s has ended (%s): begin another transaction", txn.Name, txn.Outcome)
	}
}
