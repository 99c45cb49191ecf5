// Package escrow is a client of a served site: it starts `escrow_site serve FOLDER`, or comes in by a door that serves a folder to many
// processes, and many goroutines ask it at once. Lines go out, lines come in, in the same order: docs/FORMATS.md has all of them.
//
// A Site is one process, or one connection, from its ready line to its end. After a stop, Start or Connect makes a new one; first ask
// it by Kept of the changes that the stop left in doubt.
package escrow

import (
	"bufio"
	"context"
	"errors"
	"fmt"
	"os"
	"path/filepath"
	"regexp"
	"strconv"
	"strings"
	"sync"
	"sync/atomic"
	"time"
)

// Refused is the error of what a site didn't do: nothing was changed. Reply is what it told, as "refused 7 short 3".
type Refused struct{ Reply string }

func (fault Refused) Error() string { return "escrow: " + fault.Reply }

// InDoubt is the error of a change that was asked, and whose answer a stop left out, or didn't come in time: Kept tells what became of
// it, over a new Site where this one has ended. Never ask for it again before; by a key, do, with the same one.
type InDoubt struct{ ID string }

func (fault InDoubt) Error() string {
	if fault.ID == "" { // an answer was odd, over a program in between
		return "escrow: it may have happened, and neither its answer nor its id came: look into the log before it is asked for again"
	}
	return "escrow: " + fault.ID + " may have happened, and its answer didn't come: ask Kept of it before it is asked for again"
}

// Lost is the error of a transaction whose commit a stop, or the end of its time, came before: it isn't committed, and never will be.
// Ask anew.
type Lost struct{ ID string }

func (fault Lost) Error() string {
	return "escrow: " + fault.ID + " isn't committed, and never will be: ask anew"
}

// Ended is the error of a process that has ended, before it served or with another status than 0: 6, another one has the folder; 5,
// the disk failed; 2 or 3, standard error tells what to do; -1, a signal ended it.
type Ended struct{ Status int }

func (fault Ended) Error() string {
	return fmt.Sprintf("escrow: escrow_site has ended with status %d: %s", fault.Status, fault.advice())
}

func (fault Ended) advice() string {
	switch fault.Status {
	case 2, 3, 5:
		return "standard error tells why, and what to do"
	case 6:
		return "another process has the folder: start it again after a pause, or come in by the door of that one"
	case -1:
		return "a signal has ended it: start it again"
	}
	return "start it again, after a pause"
}

// ErrStopped is the error of what a stop came before: nothing was begun, and a question wasn't answered. Ask anew, over a new Site.
var ErrStopped = errors.New("escrow: the process of the site, or the connection to its door, has ended: ask anew, over a new Site")

// ErrBusy is the error of what wasn't asked, or of a question that wasn't answered, as its time was up: nothing was begun. Ask anew.
var ErrBusy = errors.New("escrow: its time was up before it was asked, or before an answer that changes nothing: ask anew")

// ErrOpen is the error of a question whether a transaction is kept that is open still: ask again later.
var ErrOpen = errors.New("escrow: the transaction is open still: ask again later")

// ErrDoor is the error where there is no way in by a door, or it has ended the connection. errors.Is tells it.
var ErrDoor = errors.New("escrow: no way in by this door")

// ErrKey is the error of what is no key: one is 1 to 64 of A-Z a-z 0-9 . _ -.
var ErrKey = errors.New("escrow: no key of 1 to 64 of A-Z a-z 0-9 . _ -")

// ErrID is the error of what is no id of this site, or none that the log can tell of: of another world or another site, or of an epoch
// or number that isn't yet. So too of a position, and of one that isn't ahead of the transaction: nothing was committed. Of a world that
// was settled look in the log and the archives of its old folder.
var ErrID = errors.New("escrow: no id of a transaction of this site")

// ErrForgotten is the error where the log was shortened, and a commit of this id, or with this key, may be among what it has let go of:
// neither yes nor no. Nothing was committed by this call. Look into the program's own books, or into the archive of the log, and never
// ask for the same anew. errors.Is tells it.
var ErrForgotten = errors.New("escrow: the log has let go of what would tell: never ask for the same anew")

// ErrNewer is the error where the program is newer than this client: use a client of its release. errors.Is tells it.
var ErrNewer = errors.New("escrow: the program is newer than this client: use a client of its release")

// Site is one process that serves a site, or one connection to a door that does, until End. Any goroutine may make any call.
type Site struct {
	// Timeout is the time of each call, and of End, which is by force then; 0: none. Set it before the first call. A program that takes
	// nothing for that time, or for a second where that is longer, is killed, where more is under way than its pipe holds (64 KiB, some
	// 1,300 changes): then Up is false.
	Timeout time.Duration

	isEnded atomic.Bool   // by End
	isOver  chan struct{} // closed once nothing is left of it
	command *process      // nil over a door
	status  error         // of the process, once it is over
	world   string        // the first digits of the world's name
	number  string
	// mayForget tells that its log was shortened, or may be.
	mayForget bool
	header    string // of a door: it has the names of the fields
	lines     *lines
	keys      sync.Mutex
	byKey     map[string]int // of changes that are under way
}

var ready = regexp.MustCompile(`\Aready ([12]) (\d+) \d+\n(\d+) restart -> restarted (\d+) nothing\n\z`)
var newer = regexp.MustCompile(`(?m)^ready (?:[3-9]|[1-9]\d+)\b`)
var world = regexp.MustCompile(`(?m)^world ([0-9a-f]{8})`)
var field = regexp.MustCompile(`\A[a-z0-9_]{1,32}\z`)
var aKey = regexp.MustCompile(`\A[A-Za-z0-9._-]{1,64}\z`)
var numbers = regexp.MustCompile(`\A(?:0|[1-9]\d*)\.(?:0|[1-9]\d*)\z`)
var id = regexp.MustCompile(`\A(?:([0-9a-f]{8})-(?:(0|[1-9]\d*)-)?)?(0|[1-9]\d*)\.(0|[1-9]\d*)\z`)

// Start starts the program over this folder, and returns once it serves. Options are those of `serve`, word by word: "--keep", "1048576"
// lets go of the front of the log while it serves. A program that doesn't answer in ten seconds, and one more for each MiB of its log, is
// killed. An error is Ended, of status 2 where there is no such option, or tells why nothing was started, or doesn't serve.
func Start(program, folder string, options ...string) (*Site, error) {
	return startWithin(startLimit(folder), program, folder, options)
}

// startLimit is how long it may take until the site of this folder serves: its log is read before.
func startLimit(folder string) time.Duration {
	limit := wait
	if log, err := os.Stat(filepath.Join(folder, "log")); err == nil {
		limit += time.Duration(log.Size()>>20) * time.Second
	}
	return limit
}

func startWithin(limit time.Duration, program, folder string, options []string) (*Site, error) {
	whose, err := os.ReadFile(filepath.Join(folder, "site"))
	if errors.Is(err, os.ErrNotExist) {
		return nil, fmt.Errorf("escrow: %w: make the folder by escrow_site create, once, or put it back", err)
	} else if err != nil {
		return nil, fmt.Errorf("escrow: %w", err)
	}
	named := world.FindSubmatch(whose)
	if named == nil {
		return nil, fmt.Errorf("escrow: %s: names no world", filepath.Join(folder, "site"))
	}
	if strings.HasPrefix(folder, "-") { // no option
		folder = "./" + folder
	}
	command := newProcess(program, append([]string{"serve", folder}, options...))
	pipe, out, err := command.start()
	if err != nil {
		return nil, fmt.Errorf("escrow: the program isn't started: %w", err)
	}
	return greet(&Site{command: command, world: string(named[1])}, pipe, bufio.NewReader(out), limit)
}

// greet reads the ready line and that of the restart.
func greet(site *Site, pipe *os.File, out *bufio.Reader, limit time.Duration) (*Site, error) {
	isInTime := site.command.killAfter(limit)
	first, _ := out.ReadString('\n')
	second, end := out.ReadString('\n')
	told, program := first+second, site.command.Path
	words := ready.FindStringSubmatch(told)
	if words == nil || !isInTime() {
		pipe.Close()
		status := site.command.halt(end != nil)
		switch {
		case !isInTime():
			return nil, fmt.Errorf("escrow: %s doesn't answer: it didn't serve within %v, and was killed: see whether the program or the "+
				"disk stands still, and start it again", program, limit)
		case status != nil && strings.HasPrefix(told, "escrow_site: "): // its standard error goes to a file of a site
			return nil, fmt.Errorf("%s: %w", strings.TrimSpace(told), status)
		case status != nil:
			return nil, status
		case told == "":
			return nil, fmt.Errorf("escrow: %s has ended without a line: it isn't escrow_site: name that one", program)
		}
		return nil, otherVersion(program, told)
	}
	epoch, _ := strconv.ParseUint(words[2], 10, 32)
	site.number, site.mayForget, site.lines = words[3], words[1] == "2", newLines(epoch, pipe)
	site.lines.isDirect, site.lines.kill = true, site.command.kill
	site.follow(out)
	return site, nil
}

// follow has another goroutine read all that comes, and leave nothing behind it: no process, and no descriptor.
func (site *Site) follow(in *bufio.Reader) {
	site.isOver = make(chan struct{})
	go func() {
		defer close(site.isOver)
		site.lines.read(in)
		site.lines.to.Close() // the door's whole connection
		if site.command != nil {
			site.status = site.command.wait()
		}
	}()
}

// otherVersion is the error of first lines that this client doesn't know.
func otherVersion(who, told string) error {
	if newer.MatchString(told) {
		return fmt.Errorf("%w: %s began with %q", ErrNewer, who, told)
	}
	return fmt.Errorf("escrow: %s began with lines of another version than this client's, or of another program: %q", who, told)
}

// odd is the error of an answer that is neither of those that were due.
func odd(reply string) error {
	if strings.HasPrefix(reply, "refused ") || strings.HasPrefix(reply, "bad line") {
		return Refused{reply}
	}
	return fmt.Errorf("escrow: an answer that this client doesn't know: %q", reply)
}

// Up tells whether the process, or the connection, hasn't ended yet, as far as is known.
func (site *Site) Up() bool { return site.lines.isUp() }

// timer is the time of a call that begins now.
func (site *Site) timer() (context.Context, context.CancelFunc) {
	site.lines.limit.Store(int64(site.Timeout))
	return site.lines.timer()
}

func (site *Site) idOf(line string) string { return site.world + "-" + site.number + "-" + line }

// check tells why this is no field, by its spelling, or by the header that a door tells.
func (site *Site) check(name string) error {
	if !field.MatchString(name) {
		return Refused{fmt.Sprintf("%q is no field", name)}
	} else if site.lines.door != nil && !strings.Contains(site.header, `"name":"`+name+`"`) {
		return Refused{name + ": no such field"}
	}
	return nil
}

// unasked is the error of what wasn't taken.
func (told heard) unasked() error {
	if told.isLate {
		return ErrBusy
	}
	return ErrStopped
}

// refusal is the error by which a begin and an escrow were refused.
func (told heard) refusal() error {
	for at, reply := range told.replies {
		if at < 2 && reply != "granted" && !strings.HasPrefix(reply, "begun ") {
			return Refused{reply}
		}
	}
	return nil
}

// Change makes a transaction of one change, below 0 to lower the field, in one trip, and returns its id. What is to be sold has
// to be below 0: refuse amounts below 1 first, as -(-3) adds 3. An error is Refused, InDoubt, with the id, or Lost, ErrBusy or
// ErrStopped, where nothing was changed. A program that dies meanwhile doesn't know the id.
func (site *Site) Change(name string, change int64) (string, error) {
	if !site.lines.isSure() { // a program is in between: so that the id is always known
		return site.begunAndCommitted(name, change, func(string) error { return nil })
	}
	if err := site.check(name); err != nil {
		return "", err
	}
	ctx, cancel := site.timer()
	defer cancel()
	n := site.number
	lines := []string{n + " begin", fmt.Sprintf("%s escrow # %s %d", n, name, change), n + " commit #"}
	return site.changed(site.lines.ask(ctx, fmt.Sprintf("%s change %s %d", n, name, change), lines))
}

func (site *Site) begunAndCommitted(name string, change int64, write func(id string) error) (string, error) {
	begun, err := site.Begin(name, change)
	if err != nil {
		return "", err
	}
	defer begun.Abort()
	if err := write(begun.ID); err != nil {
		return "", err
	}
	return begun.ID, begun.Commit()
}

// changed tells how a change in one trip went.
func (site *Site) changed(told heard) (string, error) {
	switch refusal := told.refusal(); {
	case !told.isTaken && !site.lines.isSure(): // behind a line that no door tells
		return "", InDoubt{}
	case !told.isTaken:
		return "", told.unasked()
	case refusal != nil: // the commit then changes nothing
		return "", refusal
	case len(told.replies) > 2 && told.replies[2] == "committed":
		return site.idOf(told.id), nil
	}
	return "", InDoubt{site.idOf(told.id)}
}

// ChangeBefore is Change, with write called ahead of it: it adds the id to the program's own books. At the next start ask Kept
// of each id in them that they don't know as sold: of each goroutine one may have been under way. What write fails with is
// returned: nothing was changed, and the id never comes again. It asks this site nothing; over a process others wait meanwhile,
// within their Timeout, and over a door it costs a trip.
func (site *Site) ChangeBefore(name string, change int64, write func(id string) error) (string, error) {
	if site.lines.door != nil {
		return site.begunAndCommitted(name, change, write)
	}
	if err := site.check(name); err != nil {
		return "", err
	}
	var fault error
	var panicked any
	ctx, cancel := site.timer()
	defer cancel()
	told, _ := site.lines.askProgram(ctx, 1, func(_ uint64, line string) ([]string, error) {
		fault, panicked = written(write, site.idOf(line))
		if fault != nil || panicked != nil {
			return []string{site.number + " begin", site.number + " abort " + line}, nil // so that no other change has this id
		}
		escrow := fmt.Sprintf("%s escrow %s %s %d", site.number, line, name, change)
		return []string{site.number + " begin", escrow, site.number + " commit " + line}, nil
	})
	if panicked != nil {
		panic(panicked)
	} else if fault != nil {
		return "", fault
	}
	return site.changed(told)
}

func written(write func(id string) error, id string) (fault error, panicked any) {
	defer func() { panicked = recover() }()
	return write(id), nil
}

// ChangeByKey is Change, in two trips, once for each key however often it is asked for: 1 to 64 of A-Z a-z 0-9 . _ -, as the
// number of an order. The id is that of the commit that has the key, which may be an earlier one, whatever this one asks for.
// The key is of this site alone, as long as its log has it: another site, an older copy and a new world sell the order again. So
// after any error but Refused ask for the same again, with the same key. Refused over a door is told, too, while another process
// sells the same order: ask KeptKey again later. An error is ErrKey too, or ErrForgotten, where the log was shortened and may
// have let go of an earlier one: then nothing is committed. By since a new key is told from such a one: what Position told, and
// the program's own books had beside the order, before it was first asked for; "" where there is none.
func (site *Site) ChangeByKey(name string, change int64, key, since string) (string, error) {
	if _, err := site.keyLine(key, since, place{}); err != nil {
		return "", err
	}
	site.count(key, 1)
	defer site.count(key, -1)
	begun, err := site.Begin(name, change)
	if refused := (Refused{}); errors.As(err, &refused) {
		hasOthers := site.count(key, 0) > 1 // asked ahead of what is kept: it may commit in between
		if kept, fault := site.KeptKey(key, since); kept != "" || fault != nil {
			return kept, fault
		} else if hasOthers {
			return "", ErrBusy
		}
	}
	if err != nil {
		return "", err
	}
	defer begun.Abort()
	return begun.CommitByKey(key, since)
}

// Position is where this site is now, for the since of a key: its newest transaction, or one of number 0 at its start. Write it down
// beside the order before the order is first asked for, and give that one each time. Over a door that is asked: an error is ErrBusy or
// ErrStopped.
func (site *Site) Position() (string, error) {
	if site.lines.door == nil {
		at := site.next()
		return site.idOf(fmt.Sprintf("%d.%d", at.epoch, at.number-1)), nil
	}
	reply, err := site.one("position")
	if err != nil {
		return "", err
	} else if !numbers.MatchString(reply) {
		return "", odd(reply)
	}
	return site.idOf(reply), nil
}

// place is how lines name a transaction.
type place struct{ epoch, number uint64 }

// next is the transaction that begins next; over a door one that is behind all of the epoch, since others begin some too.
func (site *Site) next() place {
	if site.lines.door != nil {
		return place{site.lines.epoch, 1 << 32}
	}
	site.lines.mutex.Lock()
	defer site.lines.mutex.Unlock()
	return place{site.lines.epoch, site.lines.begun + 1}
}

// keyLine is how lines tell a key, with its position where the log may be shortened: older programs don't know that. The position has to
// be ahead of own, the transaction that is to have the key; where it is none, of the next one.
func (site *Site) keyLine(key, since string, own place) (string, error) {
	if !aKey.MatchString(key) {
		return "", fmt.Errorf("%w: %q", ErrKey, key)
	} else if since == "" {
		return "key " + key, nil
	}
	at, err := site.placeOf(since)
	if err != nil {
		return "", err
	}
	if own == (place{}) {
		own = site.next()
	}
	switch {
	case at.epoch > own.epoch:
		return "", errLater(since)
	case at.epoch == own.epoch && at.number >= own.number:
		return "", fmt.Errorf("%w: the position %s isn't ahead of transaction %d.%d", ErrID, since, own.epoch, own.number)
	case !site.mayForget:
		return "key " + key, nil
	}
	return fmt.Sprintf("key %s since %d.%d", key, at.epoch, at.number), nil
}

// count tells how many changes by this key are under way, so many more.
func (site *Site) count(key string, more int) int {
	site.keys.Lock()
	defer site.keys.Unlock()
	if site.byKey == nil {
		site.byKey = map[string]int{}
	}
	many := site.byKey[key] + more
	if site.byKey[key] = many; many == 0 {
		delete(site.byKey, key)
	}
	return many
}

// Kept tells whether the commit of this id is in the log: where it isn't it never will be. An id tells its world and its site; clients
// of earlier days told no site, and before that no world. An error is ErrID, ErrOpen, ErrForgotten, which isn't no, or ErrBusy or
// ErrStopped, where nothing was answered.
func (site *Site) Kept(of string) (bool, error) {
	at, err := site.placeOf(of)
	if err != nil {
		return false, err
	}
	line := fmt.Sprintf("%d.%d", at.epoch, at.number)
	if site.lines.isOpen(line) {
		return false, ErrOpen
	}
	ctx, cancel := site.timer()
	defer cancel()
	asked := []string{"kept " + line}
	if site.lines.door != nil {
		return site.kept(of, site.lines.ask(ctx, asked[0], asked))
	}
	told, err := site.lines.askProgram(ctx, 0, func(begun uint64, _ string) ([]string, error) {
		if at.epoch > site.lines.epoch {
			return nil, errLater(of)
		} else if at.epoch == site.lines.epoch && at.number > begun {
			return nil, errUnbegun(of)
		}
		return asked, nil
	})
	if err != nil {
		return false, err
	}
	return site.kept(of, told)
}

// placeOf is how lines name the transaction of an id.
func (site *Site) placeOf(of string) (place, error) {
	words := id.FindStringSubmatch(of)
	if words == nil || (words[1] != "" && words[1] != site.world) || (words[2] != "" && words[2] != site.number) {
		return place{}, fmt.Errorf("%w: %q, and this is %s-%s", ErrID, of, site.world, site.number)
	}
	epoch, tooLong := strconv.ParseUint(words[3], 10, 32)
	number, tooMany := strconv.ParseUint(words[4], 10, 32)
	if tooLong != nil || tooMany != nil {
		return place{}, fmt.Errorf("%w: %q", ErrID, of)
	}
	return place{epoch, number}, nil
}

func errLater(of string) error {
	return fmt.Errorf("%w: the epoch of %s is later than any of the log: an older log was put back", ErrID, of)
}

func errUnbegun(of string) error {
	return fmt.Errorf("%w: no transaction of %s was begun yet", ErrID, of)
}

func (site *Site) kept(of string, told heard) (bool, error) {
	if len(told.replies) == 0 {
		return false, told.unasked()
	}
	switch reply := told.replies[0]; reply {
	case "yes", "no":
		return reply == "yes", nil
	case "open":
		return false, ErrOpen
	case "forgotten":
		return false, fmt.Errorf("%w: %s", ErrForgotten, of)
	case "later":
		return false, errLater(of)
	case "unbegun":
		return false, errUnbegun(of)
	default:
		return false, odd(reply)
	}
}

// KeptKey has the id of the commit that has this key; "" where none has it by now: a change under way may commit yet. An error is ErrKey,
// ErrForgotten, where the log may have let go of one, by since as of ChangeByKey, ErrID, of since, or ErrBusy or ErrStopped, where
// nothing was answered.
func (site *Site) KeptKey(key, since string) (string, error) {
	line, err := site.keyLine(key, since, place{})
	if err != nil {
		return "", err
	}
	switch reply, err := site.one("kept " + line); {
	case err != nil || reply == "no":
		return "", err
	case reply == "later":
		return "", errLater(since)
	case reply == "unbegun":
		return "", errUnbegun(since)
	default:
		return site.idTold(reply, key)
	}
}

// idTold is the id that a reply tells, of the commit that has a key.
func (site *Site) idTold(reply, key string) (string, error) {
	if reply == "forgotten" {
		return "", fmt.Errorf("%w: %s", ErrForgotten, key)
	} else if !numbers.MatchString(reply) {
		return "", odd(reply) // as of a program that doesn't know keys
	}
	return site.idOf(reply), nil
}

// Read tells between which values the field lies.
func (site *Site) Read(name string) (low, high int64, err error) {
	err = site.look("read", name, "between %d %d", &low, &high)
	return low, high, err
}

// Share tells how much may be sold and added here.
func (site *Site) Share(name string) (lower, raise uint64, err error) {
	err = site.look("share", name, "share %d %d", &lower, &raise)
	return lower, raise, err
}

func (site *Site) look(what, name, form string, numbers ...any) error {
	if !field.MatchString(name) {
		return Refused{fmt.Sprintf("%q is no field", name)}
	}
	reply, err := site.one(site.number + " " + what + " " + name)
	if err != nil {
		return err
	}
	if _, err := fmt.Sscanf(reply, form, numbers...); err != nil {
		return Refused{reply}
	}
	return nil
}

func (site *Site) one(line string) (string, error) {
	ctx, cancel := site.timer()
	defer cancel()
	return site.reply(ctx, line)
}

func (site *Site) reply(ctx context.Context, line string) (string, error) {
	told := site.lines.ask(ctx, line, []string{line})
	if len(told.replies) == 0 {
		return "", told.unasked()
	}
	return told.replies[0], nil
}

// End closes the input, so that all is answered, and waits for the end. An error is Ended, where the status of the process isn't 0, or
// ErrDoor, where the connection has ended before. A Site that has ended by itself leaves nothing behind, also without it.
func (site *Site) End() error {
	isUp := site.Up()
	if site.isEnded.Swap(true) {
		return ErrStopped
	}
	ctx, cancel := site.timer()
	defer cancel()
	site.lines.close(ctx)
	select {
	case <-site.isOver:
	case <-ctx.Done():
		site.lines.stop()
		<-site.isOver
	}
	switch {
	case site.lines.fault != nil:
		return site.lines.fault
	case site.command == nil && !isUp:
		return doorFault{"it has ended the connection: come in again"}
	}
	return site.status
}
