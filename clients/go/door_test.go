package escrow

// Over a real door, which is killed and stands still, and by keys and as transactions, over a process too. The door is that of
// clients/python.

import (
	"bufio"
	"context"
	"errors"
	"fmt"
	"io"
	"net"
	"os"
	"os/exec"
	"path/filepath"
	"strconv"
	"strings"
	"sync"
	"sync/atomic"
	"syscall"
	"testing"
	"time"
)

// A door serves a folder of site 1, which has 20 of each of 40 to sell, and room for 30 more.
type door struct {
	t            *testing.T
	folder, path string
	words        []string
	process      *exec.Cmd
}

const two = `{"sites":2,"fields":[{"name":"stock","floor":0,"ceiling":100,"value":40},{"name":"seats","floor":0,"ceiling":100,"value":40}]}`

func opened(t *testing.T, schema string, words ...string) *door {
	return openedIn(t, t.TempDir(), schema, words...)
}

func openedIn(t *testing.T, place, schema string, words ...string) *door {
	_, folder := madeIn(t, place, schema)
	it := &door{t: t, folder: folder, path: folder + ".door", words: words}
	it.start()
	t.Cleanup(func() {
		it.signal(syscall.SIGCONT)
		it.signal(syscall.SIGTERM)
		it.process.Wait()
	})
	return it
}

func (it *door) start() {
	words := append([]string{"-S", "-m", "escrow.door", it.folder, "--socket", it.path, "--program", os.Getenv("ESCROW_SITE")}, it.words...)
	interpreter := os.Getenv("ESCROW_INTERPRETER")
	if interpreter == "" {
		interpreter = "python3"
	}
	it.process = exec.Command(interpreter, words...)
	packages, _ := filepath.Abs("../python")
	it.process.Env = append(os.Environ(), "PYTHONPATH="+packages)
	if err := it.process.Start(); err != nil {
		it.t.Fatal(err)
	}
	until(it.t, func() bool {
		peer, err := net.Dial("unix", it.path)
		if err != nil {
			return false
		}
		defer peer.Close()
		peer.SetReadDeadline(time.Now().Add(20 * time.Second))
		_, err = peer.Read(make([]byte, 8))
		return err == nil
	})
}

func (it *door) signal(which syscall.Signal) { it.process.Process.Signal(which) }

func (it *door) standStill() { standStill(it.t, it.process.Process.Pid) }

// standStill has a process do nothing from now on, and returns once that is so.
func standStill(t *testing.T, pid int) {
	t.Helper()
	syscall.Kill(pid, syscall.SIGSTOP)
	until(t, func() bool {
		told, _ := os.ReadFile(fmt.Sprintf("/proc/%d/stat", pid))
		return strings.HasPrefix(string(told[strings.LastIndex(string(told), ")")+1:]), " T ")
	})
}

// isAsked tells whether a call of this site is taken, and not answered yet.
func isAsked(site *Site) bool {
	site.lines.mutex.Lock()
	defer site.lines.mutex.Unlock()
	return len(site.lines.pending) > 0
}

func (it *door) kill() {
	it.process.Process.Kill()
	it.process.Wait()
}

// served is the process of escrow_site serve, or 0.
func (it *door) served() int {
	pid := it.process.Process.Pid
	told, _ := os.ReadFile(fmt.Sprintf("/proc/%d/task/%d/children", pid, pid))
	found, _ := strconv.Atoi(strings.TrimSpace(string(told)))
	return found
}

func (it *door) site(timeout time.Duration) *Site {
	site, err := Connect(it.path)
	if err != nil {
		it.t.Fatal(err)
	}
	site.Timeout = timeout
	it.t.Cleanup(func() { site.End() })
	return site
}

// inTime is so long that, also on a busy machine, who is there has taken a line, or answered it.
const inTime = 4 * time.Second

func until(t *testing.T, holds func() bool) {
	t.Helper()
	for end := time.Now().Add(3 * time.Minute); !holds(); time.Sleep(5 * time.Millisecond) {
		if time.Now().After(end) {
			t.Fatal("it didn't come in time")
		}
	}
}

func share(t *testing.T, site *Site, lower, raise uint64) {
	t.Helper()
	if low, high, err := site.Share("stock"); low != lower || high != raise || err != nil {
		t.Error("the share is", low, high, err)
	}
}

func tryCalls(t *testing.T, site *Site) {
	first, err := site.Change("stock", -3)
	if err != nil || !strings.HasSuffix(first, "-1-1.1") {
		t.Fatal(first, err)
	}
	if _, err := site.Change("stock", -18); err != error(Refused{"refused 7 short 17"}) {
		t.Error(err)
	}
	for _, name := range []string{"stick", "stock\n1 begin", "", strings.Repeat("x", 300)} {
		if _, err := site.Change(name, -1); !errors.As(err, &Refused{}) {
			t.Error(name, err)
		}
		if _, _, err := site.Read(name); !errors.As(err, &Refused{}) {
			t.Error(name, err)
		}
	}
	var book string
	sold, err := site.ChangeBefore("stock", -1, func(id string) error { book = id; return nil })
	full := errors.New("the books are full")
	if _, none := site.ChangeBefore("stock", -1, func(string) error { return full }); err != nil || sold != book || none != full {
		t.Error(sold, book, err, none)
	}
	func() {
		defer func() { recover() }()
		site.ChangeBefore("stock", -1, func(string) error { panic("the books are gone") })
	}()
	share(t, site, 16, 34)
	order, err := site.ChangeByKey("stock", -2, "order-1", "")
	for _, change := range []int64{-2, -15} { // there are 14
		if again, other := site.ChangeByKey("stock", change, "order-1", ""); again != order || err != nil || other != nil {
			t.Error(again, order, err, other)
		}
	}
	if _, err := site.ChangeByKey("stock", -15, "order-2", ""); err != error(Refused{"refused 7 short 14"}) {
		t.Error(err)
	}
	if kept, err := site.KeptKey("order-1", ""); kept != order || err != nil {
		t.Error(kept, err)
	}
	if kept, err := site.KeptKey("order-2", ""); kept != "" || err != nil {
		t.Error(kept, err)
	}
	for _, key := range []string{"", "a b", "a\n1 begin", "a/b", strings.Repeat("x", 65)} {
		_, keyed := site.ChangeByKey("stock", -1, key, "")
		if _, err := site.KeptKey(key, ""); !errors.Is(err, ErrKey) || !errors.Is(keyed, ErrKey) {
			t.Error(key, err, keyed)
		}
	}
	both, err := site.Begin("stock", -4)
	if err != nil {
		t.Fatal(err)
	}
	if err := both.Change("seats", -21); err != error(Refused{"refused 7 short 20"}) {
		t.Error(err)
	}
	if _, err := site.Kept(both.ID); err != ErrOpen {
		t.Error(err)
	}
	if _, err := both.CommitByKey("a b", ""); !errors.Is(err, ErrKey) {
		t.Error(err)
	}
	changed, committed := both.Change("seats", -20), both.Commit()
	both.Abort()
	if kept, err := site.Kept(both.ID); !kept || changed != nil || committed != nil || err != nil {
		t.Error(kept, changed, committed, err)
	}
	if err := both.Commit(); err != error(Lost{both.ID}) && err != nil {
		t.Error(err)
	}
	again, _ := site.Begin("stock", -10)
	if id, err := again.CommitByKey("order-1", ""); id != order || err != nil {
		t.Error(id, err)
	}
	if kept, err := site.Kept(again.ID); kept || err != nil {
		t.Error(kept, err)
	}
	more, _ := site.Begin("stock", -10)
	more.Abort()
	more.Abort()
	share(t, site, 10, 40)
	front := strings.TrimSuffix(first, "1.1")
	for _, id := range []string{front + "1.99", front + "9.1", front + "1", front + "1.1\n1 begin", "01234567-1-1.1"} {
		if _, err := site.Kept(id); !errors.Is(err, ErrID) {
			t.Error(id, err)
		}
	}
	if err := site.End(); err != nil {
		t.Error(err)
	}
	if _, err := site.Change("stock", -1); err != ErrStopped {
		t.Error(err)
	}
}

func TestCalls(t *testing.T) {
	program, folder := madeOf(t, two)
	tryCalls(t, started(t, program, folder))
	it := opened(t, two)
	tryCalls(t, it.site(0))
	share(t, it.site(0), 10, 40) // nothing is left open
}

func held(t *testing.T, site *Site, many int) (all []*Transaction) {
	t.Helper()
	for at := 0; at < many; at++ {
		change := int64(1)
		if at >= 60 {
			change = -1
		}
		begun, err := site.Begin([]string{"stock", "seats"}[at%2], change)
		if err != nil {
			t.Fatal(at, err)
		}
		all = append(all, begun)
	}
	return all
}

func end(all []*Transaction) {
	for _, it := range all {
		it.Abort()
	}
}

func tryPlaces(t *testing.T, site *Site, many int) {
	all := held(t, site, many)
	there := make(chan error)
	go func() {
		begun, err := site.Begin("stock", -1)
		if err == nil {
			err = begun.Commit()
		}
		there <- err
	}()
	select {
	case err := <-there:
		t.Error("it had a place", err)
	case <-time.After(200 * time.Millisecond):
	}
	if _, err := site.Change("stock", -1); err != nil { // it needs none
		t.Error(err)
	}
	all[0].Abort()
	if err := <-there; err != nil {
		t.Error(err)
	}
	end(all)
	var sells sync.WaitGroup
	for at := 0; at < 4*many; at++ {
		sells.Add(1)
		go func(key string) {
			defer sells.Done()
			_, err := site.ChangeByKey("seats", -1, key, "")
			for ; err == ErrBusy; _, err = site.ChangeByKey("seats", -1, key, "") { // the other has it
			}
			if err != nil {
				t.Error(key, err)
			}
		}(fmt.Sprint(at % 20))
	}
	sells.Wait()
	if lower, _, err := site.Share("seats"); lower != 0 || err != nil {
		t.Error(lower, err) // each key once
	}
}

func TestPlaces(t *testing.T) {
	program, folder := madeOf(t, two)
	site := started(t, program, folder)
	tryPlaces(t, site, 63)
	site.End()
	it := opened(t, two)
	tryPlaces(t, it.site(0), 32)
}

func TestWaitsEnd(t *testing.T) {
	program, folder := madeOf(t, two)
	it := opened(t, two)
	own := started(t, program, folder)
	own.Timeout = inTime
	defer own.End()
	for site, many := range map[*Site]int{own: 63, it.site(inTime): 32} {
		all := held(t, site, many)
		for range [2]int{} {
			began := time.Now()
			if _, err := site.Begin("stock", 1); err != ErrBusy || time.Since(began) > inTime+7500*time.Millisecond || !site.Up() {
				t.Error(err, time.Since(began), site.Up())
			}
		}
		end(all)
		end(held(t, site, many))
	}
	// Waits that end as the place comes.
	site, left := it.site(3*time.Millisecond), int64(1000)
	var all sync.WaitGroup
	for range [40]int{} {
		all.Add(1)
		go func() {
			defer all.Done()
			for atomic.AddInt64(&left, -1) > 0 && site.Up() {
				if begun, err := site.Begin("stock", 1); err == nil {
					time.Sleep(3 * time.Millisecond)
					begun.Abort()
				}
			}
		}()
	}
	all.Wait()
	if site.Up() {
		site.Timeout = time.Minute
		end(held(t, site, 32))
	}
	end(held(t, it.site(time.Minute), 32))
}

func TestDoorStandsStill(t *testing.T) {
	it := opened(t, two)
	site := it.site(inTime)
	begun := held(t, site, 1)[0]
	it.standStill()
	began := time.Now()
	if _, err := site.Change("stock", -1); err != ErrBusy {
		t.Error(err)
	}
	if _, err := site.ChangeByKey("stock", -1, "a", ""); err != ErrStopped && err != ErrBusy {
		t.Error(err)
	}
	if _, err := site.KeptKey("a", ""); err != ErrStopped {
		t.Error(err)
	}
	if changed, err := begun.Change("seats", -1), begun.Commit(); changed != error(Lost{begun.ID}) || err != error(Lost{begun.ID}) {
		t.Error(changed, err)
	}
	if err := site.End(); !errors.Is(err, ErrDoor) || time.Since(began) > inTime+7500*time.Millisecond {
		t.Error(err, time.Since(began))
	}
	it.signal(syscall.SIGCONT)
	site = it.site(0)
	share(t, site, 20, 30)
	if kept, err := site.Kept(begun.ID); kept || err != nil {
		t.Error(kept, err)
	}
	if id, err := site.Change("stock", -1); err != nil || !strings.HasSuffix(id, "-1-1.2") { // the one that wasn't taken has no number
		t.Error(id, err)
	}
}

func TestTakenIsInDoubt(t *testing.T) {
	it := opened(t, two)
	site := it.site(inTime)
	begun := held(t, site, 1)[0]
	served := it.served()
	standStill(t, served)
	var doubt InDoubt
	if _, err := site.Change("stock", -1); !errors.As(err, &doubt) || !strings.HasSuffix(doubt.ID, "-1-1.2") || !site.Up() {
		t.Error(err, site.Up())
	}
	if _, err := begun.CommitByKey("order", ""); err != error(InDoubt{begun.ID}) {
		t.Error(err)
	}
	var lost Lost
	if _, err := site.ChangeByKey("stock", -1, "third", ""); !errors.As(err, &lost) {
		t.Error(err)
	}
	syscall.Kill(served, syscall.SIGCONT)
	until(t, func() bool { _, _, err := site.Share("stock"); return err == nil })
	keptFirst, err := site.Kept(doubt.ID)
	keptLost, other := site.Kept(lost.ID)
	if !keptFirst || keptLost || err != nil || other != nil {
		t.Error(keptFirst, keptLost, err, other)
	}
	if id, err := site.ChangeByKey("stock", 1, "order", ""); id != begun.ID || err != nil {
		t.Error(id, err)
	}
	share(t, site, 20, 30)
	// A door that dies once it has taken it.
	standStill(t, served)
	other2, told := it.site(0), make(chan error)
	go func() { _, err := other2.Change("stock", -1); told <- err }()
	until(t, func() bool { return isAsked(other2) })
	it.kill()
	syscall.Kill(served, syscall.SIGCONT)
	if err := <-told; !errors.As(err, &doubt) {
		t.Fatal(err)
	}
	if _, err := other2.Change("stock", -1); err != ErrStopped || other2.Up() {
		t.Error(err)
	}
	it.start()
	site = it.site(0)
	if kept, err := site.Kept(doubt.ID); err != nil {
		t.Error(err)
	} else if kept {
		share(t, site, 19, 31)
	} else {
		share(t, site, 20, 30)
	}
}

func TestStopOfTheProcess(t *testing.T) {
	program, folder := madeOf(t, two)
	site := started(t, program, folder)
	site.Timeout = inTime
	begun := held(t, site, 1)[0]
	standStill(t, site.command.Process.Pid)
	var doubt InDoubt
	if _, err := site.Change("stock", -1); !errors.As(err, &doubt) {
		t.Error(err)
	}
	if _, err := site.KeptKey("a", ""); err != ErrBusy {
		t.Error(err)
	}
	if err := site.End(); err != error(Ended{-1}) { // by force
		t.Error(err)
	}
	if _, err := begun.CommitByKey("a", ""); err != error(Lost{begun.ID}) {
		t.Error(err)
	}
	site = started(t, program, folder)
	defer site.End()
	if kept, err := site.Kept(begun.ID); kept || err != nil {
		t.Error(kept, err)
	}
	if kept, err := site.Kept(doubt.ID); err != nil {
		t.Error(err)
	} else if kept {
		share(t, site, 19, 31)
	} else {
		share(t, site, 20, 30)
	}
}

func TestDeadReader(t *testing.T) {
	it := opened(t, two, "--slow", "12")
	site := it.site(time.Minute)
	dead, err := net.Dial("unix", it.path) // it asks, and never reads
	if err != nil {
		t.Fatal(err)
	}
	defer dead.Close()
	dead.SetWriteDeadline(time.Now().Add(200 * time.Millisecond))
	if _, err := io.WriteString(dead, strings.Repeat("1 share stock\n", 1<<16)); err == nil {
		t.Error("all was taken")
	}
	began := time.Now()
	for range [10]int{} {
		if _, err := site.Change("stock", -2); err != nil {
			t.Fatal(err)
		}
	}
	if time.Since(began) > 10*time.Second { // while it is there
		t.Error(time.Since(began))
	}
	until(t, func() bool {
		dead.SetWriteDeadline(time.Now().Add(50 * time.Millisecond))
		_, err := io.WriteString(dead, "1 share stock\n")
		return errors.Is(err, syscall.EPIPE)
	})
	share(t, site, 0, 50)
}

func TestFullDisk(t *testing.T) {
	disk := filepath.Join(t.TempDir(), "disk")
	os.Mkdir(disk, 0o755)
	if err := syscall.Mount("tmpfs", disk, "tmpfs", 0, "size=512k"); err != nil {
		t.Skip("no disk may be mounted here: ", err)
	}
	t.Cleanup(func() { syscall.Unmount(disk, syscall.MNT_DETACH) })
	it := openedIn(t, disk, two)
	site := it.site(time.Minute)
	if _, err := site.Change("stock", -1); err != nil {
		t.Fatal(err)
	}
	filler, err := os.Create(filepath.Join(disk, "filler"))
	for piece := make([]byte, 512); err == nil; {
		_, err = filler.Write(piece)
	}
	filler.Close()
	net, change, doubt := int64(-1), int64(1), InDoubt{}
	for count := 0; count < 20000; count, change = count+1, -change { // what there is still room for, and no more
		if _, err = site.Change("stock", change); err != nil {
			break
		}
		net += change
	}
	if !errors.As(err, &doubt) && err != ErrStopped {
		t.Fatal(err)
	}
	if _, err := site.ChangeByKey("seats", -1, "order", ""); err != ErrStopped || site.Up() {
		t.Error(err) // the door waits until there is room
	}
	os.Remove(filler.Name())
	site = it.site(time.Minute)
	if kept := false; doubt.ID != "" {
		if kept, err = site.Kept(doubt.ID); err != nil {
			t.Error(err)
		} else if kept {
			net += change
		}
	}
	first, err := site.ChangeByKey("seats", -1, "order", "")
	if again, other := site.ChangeByKey("seats", -1, "order", ""); err != nil || other != nil || again != first {
		t.Error(first, again, err, other)
	}
	share(t, site, uint64(20+net), uint64(30-net))
	if lower, _, err := site.Share("seats"); lower != 19 || err != nil {
		t.Error(lower, err)
	}
}

func TestBetween(t *testing.T) {
	it := opened(t, two)
	it.site(0)
	listener, err := net.Listen("unix", it.path+".far")
	if err != nil {
		t.Fatal(err)
	}
	defer listener.Close()
	go func() {
		for {
			near, err := listener.Accept()
			if err != nil {
				return
			}
			far, _ := net.Dial("unix", it.path)
			for _, ends := range [][2]net.Conn{{near, far}, {far, near}} {
				go func(from, to net.Conn) { io.Copy(to, from); to.Close() }(ends[0], ends[1])
			}
		}
	}()
	site, err := Connect(it.path + ".far")
	if err != nil {
		t.Fatal(err)
	}
	site.Timeout = time.Minute
	first, err := site.Change("stock", -1)
	begun := held(t, site, 1)[0]
	site.Timeout = 1500 * time.Millisecond
	it.standStill()
	if told := begun.Commit(); err != nil || told != error(InDoubt{begun.ID}) {
		t.Error(err, told)
	}
	if _, err := site.Change("stock", -1); err != ErrBusy && err != ErrStopped {
		t.Error(err)
	}
	it.signal(syscall.SIGCONT)
	site = it.site(0)
	if kept, err := site.Kept(first); !kept || err != nil {
		t.Error(kept, err)
	}
	until(t, func() bool { _, err := site.Kept(begun.ID); return err == nil })
	if kept, err := site.Kept(begun.ID); err != nil {
		t.Error(err)
	} else if kept {
		share(t, site, 20, 30)
	} else {
		share(t, site, 19, 31)
	}
}

func TestNoWayIn(t *testing.T) {
	path := filepath.Join(t.TempDir(), "other")
	listener, err := net.Listen("unix", path)
	if err != nil {
		t.Fatal(err)
	}
	go func() {
		for _, text := range []string{"escrow door 2\na\nb\nc\nd\n", "SSH-2.0\n\n\n\n\n", "escrow door 1\nnumber 0\n"} {
			peer, _ := listener.Accept()
			io.WriteString(peer, text)
			peer.Close()
		}
		listener.Close()
	}()
	for range [2]int{} {
		if _, err := Connect(path); err == nil || errors.Is(err, ErrDoor) || !strings.Contains(err.Error(), "another version") {
			t.Error(err)
		}
	}
	if _, err := Connect(path); !errors.Is(err, ErrDoor) || !strings.Contains(err.Error(), "start one") {
		t.Error(err)
	}
}

// connected comes in by a door, which may be away for longer than Connect waits, on a busy machine.
func connected(t *testing.T, path string) (site *Site) {
	until(t, func() bool {
		found, err := Connect(path)
		if err != nil && !errors.Is(err, ErrDoor) {
			t.Fatal(err)
		}
		site = found
		return err == nil
	})
	return site
}

// TestSells is a process of its own, where TestTwoProcesses starts it: it sells so many, through stops of the door, and prints the
// ids.
func TestSells(t *testing.T) {
	path := os.Getenv("ESCROW_SELL")
	if path == "" {
		t.Skip("TestTwoProcesses starts it")
	}
	told := tally{sold: map[string]bool{}}
	for len(told.sold) < 3000 || len(told.doubt) > 0 {
		site := connected(t, path)
		doubt := told.doubt
		told.doubt = nil
		for _, id := range doubt {
			if isKept, err := site.Kept(id); err == ErrStopped {
				told.doubt = append(told.doubt, id) // it is asked anew
			} else if err != nil {
				t.Fatal(err)
			} else if isKept {
				told.sold[id] = true
			}
		}
		told.sell(t, site, 380)
		site.End()
	}
	for id := range told.sold {
		fmt.Println("sold", id)
	}
}

// TestLatePlaces has a program in the place of the door, which tells of a place once nobody waits for one.
func TestLatePlaces(t *testing.T) {
	path := filepath.Join(t.TempDir(), "other")
	listener, err := net.Listen("unix", path)
	if err != nil {
		t.Fatal(err)
	}
	defer listener.Close()
	none, heard, tell := heard{}, make(chan string, 9), make(chan string)
	go func() {
		peer, _ := listener.Accept()
		io.WriteString(peer, "escrow door 1\nnumber 1\nworld 0123456789\n"+two+"\nready 1 1 4\n")
		go func() {
			for text := range tell {
				io.WriteString(peer, text)
			}
		}()
		for in := bufio.NewReader(peer); ; {
			line, err := in.ReadString('\n')
			if err != nil {
				return
			}
			heard <- line
		}
	}()
	site, err := Connect(path)
	if err != nil {
		t.Fatal(err)
	}
	site.Timeout = inTime
	hears := func(line string) {
		t.Helper()
		select {
		case told := <-heard:
			if told != line {
				t.Errorf("%q, and not %q", told, line)
			}
		case <-time.After(time.Minute):
			t.Errorf("nothing, and not %q", line)
		}
	}
	told := make(chan error)
	go func() { _, err := site.Begin("stock", -1); told <- err }()
	hears("1 open stock -1\n")
	tell <- "door busy\n"
	if err := <-told; err != ErrBusy || !site.Up() {
		t.Error(err, site.Up())
	}
	tell <- "door place\n"
	hears("leave\n")
	tell <- "door took 1 1.1\nleave -> left\n"
	// It comes as the wait ends.
	it := newCall([]string{"1 begin", "1 escrow # stock -1"})
	site.lines.send(context.Background(), "1 open stock -1", it)
	hears("1 open stock -1\n")
	tell <- "door busy\ndoor place\n"
	until(t, func() bool { return len(it.words) == 1 })
	if site.lines.withdraw(it) || site.lines.rest(context.Background(), it, none).isTaken {
		t.Error("it was taken")
	}
	hears("leave\n")
}

// through is the site of a door, made anew where it has ended.
type through struct {
	sync.Mutex
	path string
	site *Site
}

func (it *through) now(t *testing.T) *Site {
	it.Lock()
	defer it.Unlock()
	if it.site != nil && it.site.Up() {
		return it.site
	}
	site := connected(t, it.path)
	site.Timeout, it.site = 5*time.Second, site
	return site
}

// TestOrders is a process of its own, where TestTwoProcesses starts it: it asks for each order, by its key, until it is told an id.
func TestOrders(t *testing.T) {
	path := os.Getenv("ESCROW_ORDERS")
	if path == "" {
		t.Skip("TestTwoProcesses starts it")
	}
	door, next := through{path: path}, int64(0)
	var all sync.WaitGroup
	for range [8]int{} {
		all.Add(1)
		go func() {
			defer all.Done()
			for order := atomic.AddInt64(&next, 1); order <= 1500; order = atomic.AddInt64(&next, 1) {
				id, err := "", error(ErrBusy)
				for err != nil { // whatever became of it: it is done once
					if id, err = door.now(t).ChangeByKey("stock", -1, fmt.Sprint("order-", order), ""); errors.As(err, &Refused{}) {
						t.Error(order, err)
						return
					}
				}
				fmt.Printf("sold %d %s\n", order, id)
			}
		}()
	}
	all.Wait()
	door.now(t).End()
}

// told starts two processes, kills the door and its site meanwhile, and returns the words behind sold of each line of each.
func (it *door) told(test, variable string) (lines [2][]string) {
	var outs [2]strings.Builder
	var sellers [2]*exec.Cmd
	for at := range sellers {
		sellers[at] = exec.Command(os.Args[0], "-test.run=^"+test+"$", "-test.v")
		sellers[at].Env, sellers[at].Stdout = append(os.Environ(), variable+"="+it.path), &outs[at]
		if err := sellers[at].Start(); err != nil {
			it.t.Fatal(err)
		}
	}
	for kill := 0; kill < 6; kill++ {
		time.Sleep(150 * time.Millisecond)
		if served := it.served(); kill%2 == 1 && served != 0 {
			syscall.Kill(served, syscall.SIGKILL)
		} else {
			it.kill()
			it.start()
		}
	}
	for at, seller := range sellers {
		if err := seller.Wait(); err != nil {
			it.t.Fatal(err, outs[at].String())
		}
		for _, line := range strings.Split(outs[at].String(), "\n") {
			if strings.HasPrefix(line, "sold ") {
				lines[at] = append(lines[at], line[len("sold "):])
			}
		}
	}
	return lines
}

func TestTwoProcesses(t *testing.T) {
	it := opened(t, header)
	sold := map[string]bool{}
	for _, lines := range it.told("TestSells", "ESCROW_SELL") {
		for _, id := range lines {
			if sold[id] {
				t.Error("both have sold", id)
			}
			sold[id] = true
		}
	}
	logged := commits(t, it.folder)
	for id := range sold {
		if !logged[id] {
			t.Errorf("%s was told as sold, and isn't in the log", id)
		}
	}
	if len(logged) != len(sold) || len(sold) < 6000 {
		t.Errorf("%d are told, and the log has %d", len(sold), len(logged))
	}
}

func TestTwoProcessesByKey(t *testing.T) {
	it := opened(t, header)
	told := it.told("TestOrders", "ESCROW_ORDERS")
	ids, orders := map[string]bool{}, map[string]string{}
	for _, lines := range told {
		for _, line := range lines {
			order, id, _ := strings.Cut(line, " ")
			if orders[order] != "" && orders[order] != id {
				t.Error(order, "is", orders[order], "and", id)
			}
			orders[order], ids[id] = id, true
		}
	}
	logged := commits(t, it.folder)
	for id := range logged {
		if !ids[id] {
			t.Errorf("the log has %s, and no order is told that", id)
		}
	}
	if len(told[0]) != 1500 || len(told[1]) != 1500 || len(orders) != 1500 || len(ids) != 1500 || len(logged) != 1500 {
		t.Error(len(told[0]), len(told[1]), len(orders), len(ids), len(logged))
	}
}
