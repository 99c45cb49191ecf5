package escrow

// Over the real program, which stands still, and is asked more than its pipe holds: no call hangs, and what each is told is true.

import (
	"errors"
	"fmt"
	"sync"
	"syscall"
	"testing"
	"time"
)

// returns makes a call, which returns long before this gives it up.
func returns(t *testing.T, site *Site, what string, call func()) {
	t.Helper()
	done := make(chan struct{})
	go func() { defer close(done); call() }()
	select {
	case <-done:
	case <-time.After(3 * time.Minute):
		site.command.Process.Kill()
		t.Fatal(what, " hangs")
	}
}

// books have each id that was told ahead of its change, what was told as sold, and what is in doubt.
type books struct {
	tally
	ids     []string
	unasked int
}

func (own *books) write(id string) error {
	own.Lock()
	defer own.Unlock()
	own.ids = append(own.ids, id)
	return nil
}

// take notes what a sale was told.
func (own *books) take(t *testing.T, id string, err error) {
	own.Lock()
	defer own.Unlock()
	var doubt InDoubt
	switch {
	case err == nil:
		own.sold[id] = true
	case errors.As(err, &doubt):
		own.doubt = append(own.doubt, doubt.ID)
	case err == ErrBusy || err == ErrStopped:
		own.unasked++
	default:
		t.Error(err)
	}
}

// check compares them with the site, which had 20000 to sell: what wasn't asked is never kept.
func (own *books) check(t *testing.T, site *Site) {
	t.Helper()
	asked := map[string]bool{}
	for _, id := range own.doubt {
		asked[id] = true
	}
	for _, id := range append(own.ids, own.doubt...) {
		isKept, err := site.Kept(id)
		if err != nil || (isKept && !own.sold[id] && !asked[id]) || (!isKept && own.sold[id]) {
			t.Fatal(id, isKept, err)
		}
		if isKept {
			own.sold[id] = true
		}
	}
	if lower, _, err := site.Share("stock"); lower != 20000-uint64(len(own.sold)) || err != nil {
		t.Error(lower, len(own.sold), err)
	}
}

// sellAtOnce sells from so many goroutines at once, every other one with its id in the books ahead.
func (own *books) sellAtOnce(t *testing.T, site *Site, many int) {
	var all sync.WaitGroup
	for at := 0; at < many; at++ {
		all.Add(1)
		go func(at int) {
			defer all.Done()
			if at%2 == 0 {
				id, err := site.Change("stock", -1)
				own.take(t, id, err)
			} else {
				id, err := site.ChangeBefore("stock", -1, own.write)
				own.take(t, id, err)
			}
		}(at)
	}
	all.Wait()
}

// raising has so many transactions open, each of one more.
func raising(t *testing.T, site *Site, many int) (all []*Transaction) {
	t.Helper()
	for at := 0; at < many; at++ {
		begun, err := site.Begin("stock", 1)
		if err != nil {
			t.Fatal(at, err)
		}
		all = append(all, begun)
	}
	return all
}

// again ends the site, which stands still, and starts a new one.
func again(t *testing.T, site *Site, program, folder string) *Site {
	t.Helper()
	returns(t, site, "End", func() {
		if err := site.End(); err != error(Ended{-1}) {
			t.Error(err)
		}
	})
	site = started(t, program, folder)
	t.Cleanup(func() { site.End() })
	return site
}

func TestManyOverASiteThatStandsStill(t *testing.T) {
	program, folder := made(t)
	site := started(t, program, folder)
	own := books{tally: tally{sold: map[string]bool{}}}
	own.sellAtOnce(t, site, 100)
	both := raising(t, site, 2)
	site.Timeout = inTime
	standStill(t, site.command.Process.Pid)
	returns(t, site, "a sale", func() { own.sellAtOnce(t, site, 3000) })
	returns(t, site, "a look", func() {
		_, _, read := site.Read("stock")
		_, kept := site.KeptKey("order", "")
		_, byKey := site.ChangeByKey("stock", -1, "order", "")
		for _, err := range []error{read, kept, byKey} {
			if err != ErrStopped && err != ErrBusy {
				t.Error(err)
			}
		}
		if _, err := site.Position(); err != nil {
			t.Error(err)
		}
	})
	returns(t, site, "the end of a transaction", func() {
		if both[0].Abort(); both[1].Commit() != error(Lost{both[1].ID}) {
			t.Error("it isn't lost")
		}
	})
	if len(own.sold) != 100 || len(own.doubt) < 500 || own.unasked < 500 {
		t.Error(len(own.sold), len(own.doubt), own.unasked)
	}
	site = again(t, site, program, folder)
	own.check(t, site)
	for _, it := range both {
		if isKept, err := site.Kept(it.ID); isKept || err != nil {
			t.Error(isKept, err)
		}
	}
}

func TestOneCallerFillsThePipe(t *testing.T) {
	program, folder := made(t)
	site := started(t, program, folder)
	site.Timeout = time.Millisecond
	standStill(t, site.command.Process.Pid)
	own := books{tally: tally{sold: map[string]bool{}}}
	for count := 0; own.unasked == 0 && count < 5000; count++ {
		returns(t, site, fmt.Sprint("call ", count), func() {
			id, err := site.ChangeBefore("stock", -1, own.write)
			own.take(t, id, err)
		})
	}
	if len(own.doubt) < 500 || own.unasked != 1 || len(own.ids) != len(own.doubt)+1 {
		t.Error(len(own.doubt), own.unasked, len(own.ids))
	}
	until(t, func() bool { return !site.Up() }) // it was killed
	own.check(t, again(t, site, program, folder))
}

// One that goes on in time isn't killed, and all is answered.
func TestASiteThatStandsForAWhile(t *testing.T) {
	program, folder := made(t)
	site := started(t, program, folder)
	defer site.End()
	site.Timeout = 2 * time.Minute
	begun := raising(t, site, 1)[0]
	standStill(t, site.command.Process.Pid)
	time.AfterFunc(500*time.Millisecond, func() { site.command.Process.Signal(syscall.SIGCONT) })
	own := books{tally: tally{sold: map[string]bool{}}}
	returns(t, site, "a sale", func() { own.sellAtOnce(t, site, 3000) })
	if len(own.sold) != 3000 || !site.Up() {
		t.Error(len(own.sold), site.Up())
	}
	begun.Abort()
	own.check(t, site)
}

// What waits for the caller's own books waits no longer than its time, and aborts behind it.
func TestBooksThatTakeLong(t *testing.T) {
	program, folder := made(t)
	site := started(t, program, folder)
	ends := raising(t, site, 3)
	site.Timeout = inTime // in which the first trip of a sale is answered
	writing, written, told := make(chan bool), make(chan bool), make(chan error, 1)
	sell := func() {
		_, err := site.ChangeBefore("stock", -1, func(string) error { writing <- true; <-written; return nil })
		told <- err
	}
	go sell()
	<-writing
	site.Timeout = inTime / 2 // all that follows takes longer than the sale has
	returns(t, site, "a call", func() {
		if _, _, err := site.Read("stock"); err != ErrBusy || !site.Up() {
			t.Error(err, site.Up())
		}
		ends[0].Abort()
		if err := ends[1].Commit(); err != error(Lost{ends[1].ID}) {
			t.Error(err)
		}
		if err := ends[2].Change("stock", 1); err != error(Lost{ends[2].ID}) {
			t.Error(err)
		}
	})
	written <- true
	if err := <-told; err != nil && !errors.As(err, &InDoubt{}) {
		t.Error(err)
	}
	until(t, func() bool {
		lower, raise, err := site.Share("stock")
		return lower == 19999 && raise == 25001 && err == nil
	})
	site.Timeout = time.Minute
	end(raising(t, site, 63)) // each place came back
	site.Timeout = inTime
	go sell()
	<-writing
	site.Timeout = 500 * time.Millisecond
	site = again(t, site, program, folder)
	written <- true
	if err := <-told; err != ErrStopped {
		t.Error(err)
	}
	share(t, site, 19999, 25001)
}

// A watchdog aborts beside a commit: one of them ends it, once.
func TestAbortBesideCommit(t *testing.T) {
	program, folder := made(t)
	site := started(t, program, folder)
	site.Timeout = time.Minute
	returns(t, site, "a commit or an abort", func() {
		for round := 0; round < 200; round++ {
			begun := raising(t, site, 1)[0]
			told := make(chan error, 1)
			go func() { told <- begun.Commit() }()
			if round%3 == 0 {
				time.Sleep(time.Duration(round) * time.Microsecond)
			}
			begun.Abort()
			err := <-told
			if isKept, fault := site.Kept(begun.ID); fault != nil || isKept != (err == nil) || (err != nil && err != error(Lost{begun.ID})) {
				t.Error(isKept, fault, err)
			}
		}
		end(raising(t, site, 63)) // each place came back once
	})
	begun := raising(t, site, 1)[0]
	site.Timeout = inTime
	standStill(t, site.command.Process.Pid)
	returns(t, site, "a commit or an abort", func() {
		told := make(chan error, 1)
		go func() { told <- begun.Commit() }()
		until(t, func() bool { return isAsked(site) })
		begun.Abort()
		if err := <-told; err != error(InDoubt{begun.ID}) {
			t.Error(err)
		}
	})
	if isKept, err := again(t, site, program, folder).Kept(begun.ID); isKept || err != nil {
		t.Error(isKept, err)
	}
}
