package escrow

// Over the real program, which $ESCROW_SITE names: what the client tells is what the log has, whatever is killed.

import (
	"errors"
	"fmt"
	"os"
	"os/exec"
	"path/filepath"
	"regexp"
	"strings"
	"sync"
	"testing"
	"time"
)

const header = `{"sites":2,"fields":[{"name":"stock","floor":0,"ceiling":90000,"value":40000}]}`

// made makes the folder of site 1, which has half the rights of 40000.
func made(t *testing.T) (program, folder string) { return madeOf(t, header) }

func madeOf(t *testing.T, schema string) (program, folder string) {
	return madeIn(t, t.TempDir(), schema)
}

func madeIn(t *testing.T, place, schema string) (program, folder string) {
	return madeNumber(t, place, schema, "1")
}

func madeNumber(t *testing.T, place, schema, number string) (program, folder string) {
	program = os.Getenv("ESCROW_SITE")
	if program == "" {
		t.Fatal("name the program by $ESCROW_SITE")
	}
	folder = filepath.Join(place, "shop")
	command := exec.Command(program, "create", folder, "--schema", "/dev/stdin", "--site", number, "--name", "go")
	command.Stdin = strings.NewReader(schema + "\n")
	if told, err := command.CombinedOutput(); err != nil {
		t.Fatal(err, string(told))
	}
	return program, folder
}

func started(t *testing.T, program, folder string) *Site {
	site, err := Start(program, folder)
	if err != nil {
		t.Fatal(err)
	}
	return site
}

// commits has the ids of all commits in the log, each of one sold: WORLD-SITE-EPOCH.NUMBER.
func commits(t *testing.T, folder string) map[string]bool {
	log, err := os.ReadFile(filepath.Join(folder, "log"))
	if err != nil {
		t.Fatal(err)
	}
	found := map[string]bool{}
	front := strings.TrimPrefix(strings.Split(string(log), "\n")[2], "world ")[:8]
	for _, words := range regexp.MustCompile(`(?m)^C (\d+) (\d+) 0 -1$`).FindAllStringSubmatch(string(log), -1) {
		id := fmt.Sprintf("%s-1-%s.%s", front, words[1], words[2])
		if found[id] {
			t.Errorf("%s is committed twice", id)
		}
		found[id] = true
	}
	return found
}

// tally has what was told as sold, and what is in doubt.
type tally struct {
	sync.Mutex
	sold  map[string]bool
	doubt []string
}

// sell sells from many goroutines, until the process stops or each has sold so many.
func (told *tally) sell(t *testing.T, site *Site, each int) {
	var all sync.WaitGroup
	for range [8]int{} {
		all.Add(1)
		go func() {
			defer all.Done()
			for count := 0; count < each; count++ {
				id, err := site.Change("stock", -1)
				if err == ErrStopped {
					return
				}
				var doubt InDoubt
				told.Lock()
				switch {
				case err == nil:
					told.sold[id] = true
				case errors.As(err, &doubt):
					told.doubt = append(told.doubt, doubt.ID)
				default:
					t.Error(err)
				}
				told.Unlock()
				if err != nil {
					return
				}
			}
		}()
	}
	all.Wait()
}

func TestKills(t *testing.T) {
	program, folder := made(t)
	told := tally{sold: map[string]bool{}}
	for stop := 0; stop < 6; stop++ {
		site := started(t, program, folder)
		for _, id := range told.doubt {
			isKept, err := site.Kept(id)
			if err != nil {
				t.Fatal(err)
			}
			if isKept {
				told.sold[id] = true
			}
		}
		told.doubt = nil
		time.AfterFunc(time.Duration(stop)*20*time.Millisecond, func() { site.command.Process.Kill() })
		told.sell(t, site, 1<<30)
		if err := site.End(); err != error(Ended{-1}) {
			t.Fatal("killed: ", err)
		}
	}
	site := started(t, program, folder)
	for _, id := range told.doubt {
		if isKept, err := site.Kept(id); err != nil {
			t.Fatal(err)
		} else if isKept {
			told.sold[id] = true
		}
	}
	told.doubt = nil
	told.sell(t, site, 50)
	low, high, err := site.Read("stock")
	lower, raise, other := site.Share("stock")
	if err != nil || other != nil || len(told.doubt) != 0 {
		t.Fatal(err, other, told.doubt)
	}
	sold := len(told.sold)
	if low != 20000-int64(sold) || high != 65000-int64(sold) || lower != 20000-uint64(sold) || raise != 25000+uint64(sold) {
		t.Errorf("%d sold, and it lies between %d and %d, share %d %d", sold, low, high, lower, raise)
	}
	if err := site.End(); err != nil {
		t.Error(err)
	}
	logged := commits(t, folder)
	for id := range told.sold {
		if !logged[id] {
			t.Errorf("%s was told as sold, and isn't in the log", id)
		}
	}
	if len(logged) != sold || sold < 400 {
		t.Errorf("%d are told, and the log has %d", sold, len(logged))
	}
}

func TestIDsAhead(t *testing.T) {
	program, folder := made(t)
	site := started(t, program, folder)
	var books []string
	write := func(id string) error { books = append(books, id); return nil }
	full := errors.New("the books are full")
	if id, err := site.ChangeBefore("stock", -1, func(id string) error { write(id); return full }); id != "" || err != full {
		t.Error(id, err)
	}
	func() {
		defer func() { recover() }()
		site.ChangeBefore("stock", -1, func(id string) error { write(id); panic("the books are gone") })
	}()
	sold, err := site.ChangeBefore("stock", -1, write)
	if _, none := site.ChangeBefore("stock", -20000, write); err != nil || none != error(Refused{"refused 7 short 19999"}) {
		t.Error(err, none)
	}
	if err := site.End(); err != nil {
		t.Error(err)
	}
	site = started(t, program, folder)
	for at, id := range books {
		isKept, err := site.Kept(id)
		if err != nil || isKept != (id == sold) || !strings.HasSuffix(id, fmt.Sprintf("-1-1.%d", at+1)) {
			t.Error(id, isKept, err)
		}
	}
	if lower, _, err := site.Share("stock"); len(books) != 4 || lower != 19999 || err != nil {
		t.Error(books, lower, err)
	}
	if err := site.End(); err != nil {
		t.Error(err)
	}
}

func TestRefusals(t *testing.T) {
	program, folder := made(t)
	site := started(t, program, folder)
	first, err := site.Change("stock", -20000)
	if err != nil || !strings.HasSuffix(first, "-1-1.1") {
		t.Fatal(first, err)
	}
	for name, change := range map[string]int64{"stock": -1, "stick": -1, "stock\n1 restart": -1, "": 1} {
		id, err := site.Change(name, change)
		if refused := (Refused{}); id != "" || !errors.As(err, &refused) {
			t.Errorf("%q: %q, %v", name, id, err)
		}
	}
	if id, err := site.Change("stock", -1); id != "" || err != error(Refused{"refused 7 short 0"}) {
		t.Error(id, err)
	}
	world, _, _ := strings.Cut(first, "-")
	for id, isKept := range map[string]bool{first: true, world + "-1.1": true, "1.1": true, world + "-1-1.2": false} {
		if told, err := site.Kept(id); told != isKept || err != nil {
			t.Error(id, told, err)
		}
	}
	for _, id := range []string{world + "-0-1.1", "01234567-1-1.1", "1", "1.1\n1 begin", "", "01.1", "1.4294967296", world + "-1-1.99",
		world + "-1-2.1", "+1.1"} {
		if told, err := site.Kept(id); told || !errors.Is(err, ErrID) {
			t.Error(id, told, err)
		}
	}
	if _, err := Start(program, folder); err != error(Ended{6}) {
		t.Error("a second process: ", err)
	}
	if err := site.End(); err != nil {
		t.Error(err)
	}
	if id, err := site.Change("stock", 1); id != "" || err != ErrStopped {
		t.Error(id, err)
	}
	if _, err := Start(program, filepath.Join(folder, "none")); !errors.Is(err, os.ErrNotExist) {
		t.Error(err)
	}
}

// Over the real program, which lets go of the front of its log.
func TestOptions(t *testing.T) {
	program, folder := made(t)
	site, err := Start(program, folder, "--keep", "0", "--no-sync")
	if err != nil {
		t.Fatal(err)
	}
	first, err := site.Change("stock", -1)
	start, fault := site.Position()
	if err != nil || fault != nil {
		t.Fatal(err, fault)
	}
	for range make([]bool, 4000) {
		_, low := site.Change("stock", -1)
		if _, high := site.Change("stock", 1); low != nil || high != nil {
			t.Fatal(low, high)
		}
	}
	if told, err := site.Kept(first); told || !errors.Is(err, ErrForgotten) {
		t.Error(told, err)
	}
	if id, err := site.KeptKey("order", start); id != "" || !errors.Is(err, ErrForgotten) {
		t.Error(id, err)
	}
	if log, err := os.Stat(filepath.Join(folder, "log")); err != nil || log.Size() >= 60000 {
		t.Error(log.Size(), "8,001 commits are 120,000 bytes", err)
	}
	if err := site.End(); err != nil {
		t.Error(err)
	}
	for _, options := range [][]string{{"--keep"}, {"--keep", "many"}, {"--kept", "0"}} {
		if _, err := Start(program, folder, options...); err != error(Ended{2}) {
			t.Error(options, err)
		}
	}
}
