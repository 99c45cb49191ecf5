package escrow

import (
	"bufio"
	"context"
	"errors"
	"fmt"
	"io"
	"net"
	"os"
	"strconv"
	"strings"
	"sync"
	"sync/atomic"
	"time"
)

const places = 63 // transactions that are open at most: a site has 64 places, and one is left for changes in one trip

// leastWrite is the time that a write has at least, also where that of its call is shorter or up: who takes nothing for so long is ended.
const leastWrite = time.Second

// A call is lines whose answers one goroutine waits for. In them # stands for the id of the transaction that the first begins.
type call struct {
	lines []string
	words chan word // it has room for all that it is told
}

// A word is what a call is told: taken, by the door, with the id of what it begins; place, there is one now; or a reply.
type word struct{ what, text string }

// heard is what came of a call.
type heard struct {
	id      string // of the transaction that it begins, as lines name it
	isTaken bool   // whether it was asked, or a part of it: else it never is
	isLate  bool
	replies []string // fewer than its lines where a stop left them out, or its time was up
}

type answer struct {
	line string
	of   *call
}

// An output is the pipe to a process, or the connection to a door.
type output interface {
	io.WriteCloser
	SetWriteDeadline(time.Time) error
}

// lines are those of a process, or of a connection to a door.
type lines struct {
	limit    atomic.Int64 // the time of each call, as a time.Duration; 0: none
	epoch    uint64
	door     *net.UnixConn // nil over a process
	kill     func()        // ends the process; nil over a door
	isDirect bool          // no program is between this one and the door. Only under the mutex
	isRead   chan struct{} // closed at the end of what comes
	fault    error         // why that was, once it is read
	open     chan struct{} // the transactions of a process

	writing  chan struct{} // who has put one in writes lines, and notes each, in the same order
	to       output
	isClosed atomic.Bool // no more lines are written

	mutex   sync.Mutex // the reader waits for it, so nobody writes who holds it
	begun   uint64     // transactions of the process: only who writes lines changes it
	untaken []*call    // the door hasn't told that it took them
	pending []answer   // taken, and not answered
	waiting []*call    // for these the door had no place
	ids     map[string]bool
}

func newLines(epoch uint64, to output) *lines {
	return &lines{epoch: epoch, to: to, isRead: make(chan struct{}), open: make(chan struct{}, places), writing: make(chan struct{}, 1),
		ids: map[string]bool{}}
}

// timer is the time of a call that begins now.
func (own *lines) timer() (context.Context, context.CancelFunc) {
	if limit := time.Duration(own.limit.Load()); limit > 0 {
		return context.WithTimeout(context.Background(), limit)
	}
	return context.Background(), func() {}
}

func (own *lines) isUp() bool {
	select {
	case <-own.isRead:
		return false
	default:
		return true
	}
}

func (own *lines) isSure() bool {
	own.mutex.Lock()
	defer own.mutex.Unlock()
	return own.isDirect
}

func newCall(lines []string) *call { return &call{lines, make(chan word, len(lines)+3)} }

// lock waits until this call alone writes lines: false where its time is up before.
func (own *lines) lock(ctx context.Context) bool {
	select {
	case own.writing <- struct{}{}:
		return true
	default:
	}
	select {
	case own.writing <- struct{}{}:
		return true
	case <-ctx.Done():
		return false
	}
}

func (own *lines) unlock() { <-own.writing }

// mayWrite tells whether the other end takes lines still, as far as is known.
func (own *lines) mayWrite() bool { return !own.isClosed.Load() && own.isUp() }

// write writes whole lines, and tells how much of them was written. Where that isn't all nothing more is: who takes nothing for the
// time of a call is ended by force, so that nothing is read behind a torn line.
func (own *lines) write(ctx context.Context, text string) (many int, err error) {
	end, isLimited := ctx.Deadline()
	if least := time.Now().Add(leastWrite); isLimited && end.Before(least) {
		end = least
	}
	own.to.SetWriteDeadline(end)
	if many, err = io.WriteString(own.to, text); err != nil {
		own.isClosed.Store(true)
		if own.door != nil || isLate(err) { // a process that has ended is still to tell its status
			own.stop()
		}
	}
	return many, err
}

func isLate(err error) bool { return errors.Is(err, os.ErrDeadlineExceeded) }

// ask asks these lines, which stand together. A door is told the one line toDoor in their place.
func (own *lines) ask(ctx context.Context, toDoor string, lines []string) heard {
	if own.door != nil {
		it := newCall(lines)
		if err := own.send(ctx, toDoor, it); err != nil {
			return heard{isLate: err == ErrBusy}
		}
		return own.hear(ctx, it, heard{}, strings.Replace(toDoor, " open ", " enter ", 1))
	}
	begins := uint64(0)
	if strings.HasSuffix(lines[0], " begin") {
		begins = 1
	}
	told, _ := own.askProgram(ctx, begins, func(_ uint64, id string) ([]string, error) { return named(lines, id), nil })
	return told
}

func named(lines []string, id string) []string {
	made := make([]string, len(lines))
	for at, line := range lines {
		made[at] = strings.ReplaceAll(line, "#", id)
	}
	return made
}

// askProgram asks the process lines that are made of the number and the id of the last transaction that begins with them. What make
// fails with is returned: nothing was sent.
func (own *lines) askProgram(ctx context.Context, begins uint64, make func(begun uint64, id string) ([]string, error)) (heard, error) {
	it, told, err := own.writeProgram(ctx, begins, make)
	if err != nil || !told.isTaken {
		return told, err
	}
	return own.hear(ctx, it, told, ""), nil
}

// writeProgram is askProgram, but for the answers.
func (own *lines) writeProgram(ctx context.Context, begins uint64, make func(begun uint64, id string) ([]string, error)) (*call, heard, error) {
	if !own.lock(ctx) {
		return nil, heard{isLate: true}, nil
	}
	defer own.unlock()
	if !own.mayWrite() {
		return nil, heard{}, nil
	}
	id := fmt.Sprintf("%d.%d", own.epoch, own.begun+begins)
	lines, err := make(own.begun+begins, id)
	if err != nil {
		return nil, heard{}, err
	}
	it := newCall(lines)
	own.note(it, lines, begins)
	if many, err := own.write(ctx, strings.Join(lines, "\n")+"\n"); err != nil && many == 0 {
		return nil, heard{isLate: isLate(err)}, nil // and none has this id later: nothing more is written
	}
	return it, heard{id: id, isTaken: true}, nil
}

func (own *lines) note(it *call, lines []string, begins uint64) {
	own.mutex.Lock()
	defer own.mutex.Unlock()
	own.begun += begins
	for _, line := range lines {
		own.pending = append(own.pending, answer{line, it})
	}
}

// send writes a line to the door. An error is ErrStopped, where the connection has ended, or ErrBusy, where the time is up before.
func (own *lines) send(ctx context.Context, line string, it *call) error {
	if !own.lock(ctx) {
		return ErrBusy
	}
	defer own.unlock()
	if !own.mayWrite() {
		return ErrStopped
	}
	own.mutex.Lock()
	own.untaken = append(own.untaken, it)
	own.mutex.Unlock()
	own.write(ctx, line+"\n") // where it fails the connection ends, and what the door has taken it has told
	return nil
}

// tell has a line asked whose answer nobody waits for, and then calls behind: in a goroutine of its own where its time is up before.
func (own *lines) tell(ctx context.Context, line string, behind func()) {
	if !own.isTold(ctx, line) {
		go func() {
			later, cancel := own.timer()
			defer cancel()
			own.tell(later, line, behind)
		}()
		return
	}
	behind()
}

// isTold asks it: false where its time is up before, true where it never can be, too.
func (own *lines) isTold(ctx context.Context, line string) bool {
	if own.door != nil {
		return own.send(ctx, line, newCall([]string{line})) != ErrBusy
	}
	_, told, _ := own.writeProgram(ctx, 0, func(uint64, string) ([]string, error) { return []string{line}, nil })
	return !told.isLate
}

// leave gives back the place that the door has offered.
func (own *lines) leave(ctx context.Context) { own.tell(ctx, "leave", func() {}) }

// hear has what came until its time is up. What the door hasn't taken by then is called back, by the end of the connection.
func (own *lines) hear(ctx context.Context, it *call, told heard, enter string) heard {
	late := ctx.Done()
	for len(told.replies) < len(it.lines) {
		var next word
		select { // what has come goes before the time
		case next = <-it.words:
		default:
			select {
			case next = <-it.words:
			case <-late:
				told.isLate = true
				if late = nil; !own.withdraw(it) {
					return own.rest(ctx, it, told)
				}
				continue
			case <-own.isRead:
				return own.rest(ctx, it, told)
			}
		}
		if told.take(next); next.what != "place" {
			continue
		}
		if err := own.send(ctx, enter, it); err != nil {
			told.isLate = err == ErrBusy
			own.leave(ctx)
			return told
		}
	}
	return told
}

// rest has what has come to a call, for which nobody waits any more.
func (own *lines) rest(ctx context.Context, it *call, told heard) heard {
	for {
		select {
		case next := <-it.words:
			if told.take(next); next.what == "place" {
				own.leave(ctx)
			}
		default:
			return told
		}
	}
}

func (told *heard) take(next word) {
	switch next.what {
	case "reply":
		told.replies = append(told.replies, next.text)
	case "taken":
		told.id, told.isTaken = next.text, true
	}
}

// withdraw has nobody wait for a place for it. Where the door hasn't taken it, that ends the connection: true, it then is to be
// heard to the end.
func (own *lines) withdraw(it *call) bool {
	own.mutex.Lock()
	defer own.mutex.Unlock()
	for at, other := range own.waiting {
		if other == it {
			own.waiting = append(own.waiting[:at], own.waiting[at+1:]...)
			return false
		}
	}
	for _, other := range own.untaken {
		if other == it {
			own.stop()
			return true
		}
	}
	return false
}

// takePlace waits for one of the places of a process; a door has its own.
func (own *lines) takePlace(ctx context.Context) error {
	if own.door != nil {
		return nil
	}
	select {
	case own.open <- struct{}{}:
		return nil
	default:
	}
	select {
	case own.open <- struct{}{}:
		return nil
	case <-ctx.Done():
		return ErrBusy
	case <-own.isRead:
		return ErrStopped
	}
}

func (own *lines) givePlace() {
	if own.door == nil {
		<-own.open
	}
}

// read hands each reply to whom asked, to the end. A last line without a line feed is torn, and no answer.
func (own *lines) read(in *bufio.Reader) {
	defer close(own.isRead)
	for {
		line, err := in.ReadString('\n')
		if err != nil {
			break
		}
		if own.fault = own.take(strings.TrimSuffix(line, "\n")); own.fault != nil {
			break
		}
	}
	own.mutex.Lock()
	defer own.mutex.Unlock()
	if _, isDoors := own.fault.(doorFault); own.door != nil && own.fault != nil && !isDoors {
		own.isDirect = false // what the door took may be unread
	}
	if own.door != nil || own.fault != nil { // nobody reads what it writes
		own.stop()
	}
}

func (own *lines) take(line string) error {
	own.mutex.Lock()
	defer own.mutex.Unlock()
	if words := strings.Split(line, " "); own.door != nil && words[0] == "door" {
		return own.takeWord(line, words[1:])
	}
	if len(own.pending) == 0 {
		return fmt.Errorf("escrow: an answer that nobody asked for: %q", line)
	}
	it := own.pending[0]
	own.pending = own.pending[1:]
	reply, isOne := replyTo(it.line, line)
	if !isOne {
		return fmt.Errorf("escrow: the answer of %q is %q", it.line, line)
	}
	it.of.words <- word{"reply", reply}
	return nil
}

// replyTo tells what a line was answered; of a bad one what is wrong.
func replyTo(asked, line string) (reply string, isOne bool) {
	if strings.HasPrefix(line, "bad line") {
		return line, !strings.HasSuffix(asked, " begin")
	}
	front, told, isKeyed := strings.Cut(asked, " key ")
	key, _, _ := strings.Cut(told, " ") // behind it may stand its position
	for _, other := range []string{asked, front, "kept key " + key} {
		if strings.HasPrefix(line, other+" -> ") && (other == asked || isKeyed) {
			return line[len(other)+4:], true
		}
	}
	return "", false
}

// takeWord takes what the door tells by itself.
func (own *lines) takeWord(line string, words []string) error {
	odd := fmt.Errorf("escrow: no line of a door here: %q", line)
	switch {
	case len(words) == 3 && words[0] == "took":
		epoch, first, _ := strings.Cut(words[2], ".")
		many, manyFault := strconv.Atoi(words[1])
		number, numberFault := strconv.ParseUint(first, 10, 64)
		if manyFault != nil || numberFault != nil || many > len(own.untaken) {
			return odd
		}
		for _, it := range own.untaken[:many] {
			id := ""
			if strings.HasSuffix(it.lines[0], " begin") {
				id = fmt.Sprintf("%s.%d", epoch, number)
				number++
			}
			for _, line := range named(it.lines, id) {
				own.pending = append(own.pending, answer{line, it})
			}
			it.words <- word{"taken", id}
		}
		own.untaken = own.untaken[many:]
	case len(words) == 1 && words[0] == "busy" && len(own.untaken) > 0:
		own.waiting = append(own.waiting, own.untaken[0])
		own.untaken = own.untaken[1:]
	case len(words) == 1 && words[0] == "place" && len(own.waiting) > 0:
		own.waiting[0].words <- word{what: "place"}
		own.waiting = own.waiting[1:]
	case len(words) == 1 && words[0] == "place":
		go func() { // the reader itself never waits to write
			ctx, cancel := own.timer()
			defer cancel()
			own.leave(ctx)
		}()
	case words[0] == "end":
		return doorFault{strings.Join(words[1:], " ")}
	default:
		return odd
	}
	return nil
}

// stop ends the process, or the connection, by force: what the door hasn't taken by now it never takes.
func (own *lines) stop() {
	if own.door == nil {
		own.kill()
		return
	}
	own.door.CloseRead()
	own.door.CloseWrite()
}

// close has no more lines written: the other end answers what there is, and ends. Where the time is up before what is being written is, it
// is left to stop.
func (own *lines) close(ctx context.Context) {
	own.isClosed.Store(true)
	if !own.lock(ctx) {
		return
	}
	defer own.unlock()
	if own.door != nil {
		own.door.CloseWrite()
	} else {
		own.to.Close()
	}
}

// isOpen tells whether lines name an open transaction of this process so.
func (own *lines) isOpen(id string) bool {
	own.mutex.Lock()
	defer own.mutex.Unlock()
	return own.ids[id]
}

func (own *lines) setOpen(id string, isOpen bool) {
	own.mutex.Lock()
	defer own.mutex.Unlock()
	if delete(own.ids, id); isOpen {
		own.ids[id] = true
	}
}
