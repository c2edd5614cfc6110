// Does to collect/recorder.go what the lines of standard input say, and prints for each line what came of it. tests/writers.py says what the
// lines are.
package main

import (
	"bufio"
	"encoding/hex"
	"errors"
	"fmt"
	"math/rand"
	"os"
	"strings"
	"sync"
	"time"

	"writers/recorder"
)

var (
	run          *recorder.Recorder
	now          int64
	sessions     = map[string]*recorder.Session{}
	transactions = map[string]*recorder.Transaction{}
	identities   = map[string]uint64{}
)

func key(word string) string {
	bytes, _ := hex.DecodeString(strings.TrimPrefix(word, "-"))
	return string(bytes)
}

func identity(name string) uint64 {
	if wid, found := identities[name]; found {
		return wid
	}
	return 999
}

func seen(word string) uint64 {
	switch {
	case word == "none":
		return recorder.Identity("", false)
	case word[0] == '@':
		return identity(word[1:])
	}
	return recorder.Identity(key(strings.TrimPrefix(word, "text:")), true)
}

func do(words []string) string {
	switch words[0] {
	case "open":
		var k, n int
		fmt.Sscan(words[3]+" "+words[4], &k, &n)
		options := recorder.Options{Moments: words[2] == "all", Overwrite: words[5] == "yes", Clock: func() int64 { return now }}
		if n > 0 {
			options.Share = [2]int{k, n}
		}
		opened, err := recorder.New(words[1], options)
		if err != nil {
			return "fault"
		}
		run = opened
	case "clock":
		fmt.Sscan(words[1], &now)
	case "name":
		return recorder.Name(key(words[1]))
	case "text":
		return recorder.Name(key(words[2]))
	case "session":
		sessions[words[1]] = run.Session()
	case "begin":
		labels := []string{}
		for _, label := range words[2:] {
			labels = append(labels, key(label))
		}
		transactions[words[1]] = sessions[words[1]].Begin(labels...)
		return transactions[words[1]].Name
	case "read":
		transactions[words[1]].Read(key(words[2]), seen(words[3]))
	case "before":
		transactions[words[1]].ReadBefore(key(words[2]), seen(words[3]), identity(words[4]))
	case "write":
		identities[words[3]] = transactions[words[1]].Write(key(words[2]))
		return fmt.Sprint(identities[words[3]])
	case "refused":
		transactions[words[1]].Refused(identity(words[2]))
	case "commit":
		transactions[words[1]].Commit()
	case "abort":
		transactions[words[1]].Abort()
	case "unknown":
		transactions[words[1]].Unknown()
	case "leave":
		sessions[words[1]].Leave()
	case "close":
		warnings, err := run.Close()
		if err != nil {
			return "fault"
		}
		return "warnings: " + strings.Join(warnings, " | ")
	case "load":
		var threads, count int
		fmt.Sscan(words[2]+" "+words[3], &threads, &count)
		load(words[1], threads, count, recorder.Options{Moments: true}, store{values: map[string]string{}})
	case "rounds":
		var threads, count, every int
		fmt.Sscan(words[2]+" "+words[3]+" "+words[4], &threads, &count, &every)
		its := store{values: map[string]string{}, lock: &sync.Mutex{}}
		load(words[1], threads, count, recorder.Options{Moments: true, Rounds: every, Bound: 3, Transact: its.transact, Durable: true}, its)
	}
	return "ok"
}

type store struct {
	values map[string]string
	lock   *sync.Mutex
}

// transact fails now and then, and may have been done all the same.
func (its store) transact(reads []string, writes []recorder.Write) ([]uint64, error) {
	its.lock.Lock()
	defer its.lock.Unlock()
	switch rand.Intn(12) {
	case 0:
		return nil, recorder.RolledBack
	case 1:
		return nil, errors.New("lost")
	}
	seen := []uint64{}
	for _, key := range reads {
		value, found := its.values[key]
		seen = append(seen, recorder.Identity(value, found))
	}
	for _, write := range writes {
		its.values[write.Key] = fmt.Sprintf("%d fence", write.Identity)
	}
	if rand.Intn(12) == 0 {
		return nil, errors.New("lost")
	}
	return seen, nil
}

// load has goroutines use a small store at once, in which a transaction holds all others back, but not while it begins and ends.
func load(path string, threads, count int, options recorder.Options, small store) {
	its, err := recorder.New(path, options)
	if err != nil {
		panic(err)
	}
	lock, values := small.lock, small.values
	if lock == nil {
		lock = &sync.Mutex{}
	}
	var all sync.WaitGroup
	for number := 0; number < threads; number++ {
		all.Add(1)
		go func(dice *rand.Rand) {
			defer all.Done()
			session := its.Session()
			defer session.Leave()
			for turn := 0; turn < count; turn++ {
				key := fmt.Sprint("k", dice.Intn(5))
				txn := session.Begin("first " + key)
				time.Sleep(time.Duration(dice.Intn(200)) * time.Microsecond)
				lock.Lock()
				for operation := 0; operation < 3; operation++ {
					value, found := values[key]
					txn.Read(key, recorder.Identity(value, found))
					if dice.Intn(2) == 0 {
						values[key] = fmt.Sprintf("%d red", txn.Write(key))
					}
					key = fmt.Sprint("k", dice.Intn(5))
				}
				lock.Unlock()
				if dice.Intn(20) == 0 {
					txn.Unknown()
				} else {
					txn.Commit()
				}
			}
		}(rand.New(rand.NewSource(int64(number))))
	}
	all.Wait()
	if _, err := its.Close(); err != nil {
		panic(err)
	}
}

func told(words []string) (answer string) {
	defer func() {
		if fault := recover(); fault != nil {
			if _, is := fault.(recorder.Misuse); !is {
				panic(fault)
			}
			answer = "misuse"
		}
	}()
	return do(words)
}

func main() {
	lines := bufio.NewScanner(os.Stdin)
	for lines.Scan() {
		fmt.Println(told(strings.Split(lines.Text(), " ")))
	}
}
