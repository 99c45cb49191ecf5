package escrow

// Over clients/python/tests/forgetful_site.py, which stands in for a program whose log lets go of its front: nothing that it has let go of
// is sold twice, and by its position a new key is sold.

import (
	"errors"
	"net"
	"os"
	"path/filepath"
	"strings"
	"testing"
)

func forgetfulSite(t *testing.T) string {
	program, err := filepath.Abs("../python/tests/forgetful_site.py")
	if err != nil {
		t.Fatal(err)
	}
	return program
}

// tell has the site of this folder answer so from now on.
func tell(t *testing.T, folder, told string) {
	path := filepath.Join(folder, "told")
	if err := os.WriteFile(path+".new", []byte(told), 0o600); err != nil {
		t.Fatal(err)
	} else if err := os.Rename(path+".new", path); err != nil {
		t.Fatal(err)
	}
}

// forgetful makes the folder of site 0, which answers so.
func forgetful(t *testing.T, told string) string {
	_, folder := madeNumber(t, t.TempDir(), `{"sites":2,"fields":[{"name":"stock","floor":0,"ceiling":100,"value":40}]}`, "0")
	tell(t, folder, told)
	return folder
}

// sold tells how often anything was committed.
func sold(folder string) int {
	text, _ := os.ReadFile(filepath.Join(folder, "commits"))
	return strings.Count(string(text), "\n")
}

func isForgotten(t *testing.T, what string, err error) {
	t.Helper()
	if !errors.Is(err, ErrForgotten) || !strings.HasSuffix(err.Error(), ": "+what) {
		t.Error(what, err)
	}
}

func isOdd(t *testing.T, err error) {
	t.Helper()
	if err == nil || errors.As(err, &Refused{}) || !strings.Contains(err.Error(), `doesn't know: "perhaps"`) {
		t.Error(err)
	}
}

func tryForgotten(t *testing.T, folder string, site *Site) {
	first, err := site.ChangeByKey("stock", -3, "order", "")
	if err != nil {
		t.Fatal(err)
	}
	byKey := func(change int64, key string) (string, error) {
		begun, err := site.Begin("stock", change)
		if err != nil {
			t.Fatal(err)
		}
		return begun.CommitByKey(key, "")
	}
	if again, err := site.ChangeByKey("stock", -3, "order", ""); again != first || err != nil {
		t.Error(again, err)
	}
	if again, err := byKey(-3, "order"); again != first || err != nil || sold(folder) != 1 {
		t.Error(again, err)
	}
	if kept, err := site.KeptKey("other", ""); kept != "" || err != nil {
		t.Error(kept, err)
	}
	tell(t, folder, `{"horizon": [1, 9]}`)
	_, err = site.Kept(first)
	isForgotten(t, first, err)
	_, err = site.KeptKey("order", "")
	isForgotten(t, "order", err)
	_, err = site.ChangeByKey("stock", -3, "order", "") // it would be sold twice
	isForgotten(t, "order", err)
	_, err = site.ChangeByKey("stock", -300, "order", "") // it may be sold, and isn't short
	isForgotten(t, "order", err)
	_, err = byKey(-3, "order")
	isForgotten(t, "order", err)
	share(t, site, 17, 33)
	tell(t, folder, `{"keyed": "forgotten"}`)
	_, err = site.ChangeByKey("stock", -3, "new", "")
	isForgotten(t, "new", err)
	tell(t, folder, `{"word": "perhaps", "keyed": "perhaps"}`)
	_, err = site.Kept(first)
	isOdd(t, err)
	_, err = site.KeptKey("order", "")
	isOdd(t, err)
	_, err = site.ChangeByKey("stock", -3, "new", "")
	isOdd(t, err)
	share(t, site, 17, 33)
	if sold(folder) != 1 {
		t.Error("sold", sold(folder))
	}
}

func TestForgotten(t *testing.T) {
	folder := forgetful(t, "{}")
	site := started(t, forgetfulSite(t), folder)
	tryForgotten(t, folder, site)
	if err := site.End(); err != nil {
		t.Error(err)
	}
}

func TestForgottenOverADoor(t *testing.T) {
	it := &door{t: t, folder: forgetful(t, "{}"), words: []string{"--program", forgetfulSite(t)}}
	it.path = it.folder + ".door"
	it.start()
	t.Cleanup(it.kill)
	tryForgotten(t, it.folder, it.site(0))
}

// tryPositions sells by keys with their positions, 1 each: new ones are sold over a shortened log, and what was let go of isn't.
func tryPositions(t *testing.T, folder string, site *Site) {
	at := func() string {
		since, err := site.Position()
		if err != nil {
			t.Fatal(err)
		}
		return since
	}
	byCommit := func(key, since string) (string, error) {
		begun, err := site.Begin("stock", -1)
		if err != nil {
			t.Fatal(err)
		}
		defer begun.Abort()
		return begun.CommitByKey(key, since)
	}
	byChange := func(key, since string) (string, error) { return site.ChangeByKey("stock", -1, key, since) }
	start := at()
	if front := site.world + "-0-1.0"; start != front {
		t.Error(start, front)
	}
	first, err := byChange("first", start)
	if err != nil || at() != first {
		t.Fatal(first, err, at())
	}
	tell(t, folder, `{"horizon": [1, 1]}`)
	for name, sell := range map[string]func(key, since string) (string, error){"change": byChange, "commit": byCommit} {
		for _, key := range []string{"first", "new-" + name} { // its position is of before the horizon
			_, err := sell(key, start)
			isForgotten(t, key, err)
			_, err = site.KeptKey(key, start)
			isForgotten(t, key, err)
		}
		since, many := at(), sold(folder)
		id, err := sell(name, since)
		if again, other := sell(name, since); err != nil || again != id || other != nil || sold(folder) != many+1 {
			t.Error(name, id, err, again, other, sold(folder))
		}
		if kept, err := site.KeptKey(name, since); kept != id || err != nil {
			t.Error(kept, err)
		}
	}
	if kept, err := site.KeptKey("new", first); kept != "" || err != nil {
		t.Error(kept, err)
	}
	if _, err := site.ChangeByKey("stock", -300, "new", at()); !errors.As(err, &Refused{}) {
		t.Error(err)
	}
	for _, since := range []string{"01234567-0-1.0", site.world + "-1-1.0", site.idOf("2.0"), site.idOf("1.900"), "now", "1.4294967296"} {
		_, ofKey := site.KeptKey("new", since)
		_, ofChange := byChange("new", since)
		_, ofCommit := byCommit("new", since)
		for _, err := range []error{ofKey, ofChange, ofCommit} {
			if !errors.Is(err, ErrID) {
				t.Error(since, err)
			}
		}
	}
	begun, err := site.Begin("stock", -1)
	if err != nil {
		t.Fatal(err)
	} else if _, err := begun.CommitByKey("open", at()); !errors.Is(err, ErrID) || !strings.Contains(err.Error(), "isn't ahead of") {
		t.Error(err)
	} else if id, err := begun.CommitByKey("open", first); id != begun.ID || err != nil {
		t.Error(id, err)
	}
	share(t, site, 16, 34)
	if sold(folder) != 4 {
		t.Error("sold", sold(folder))
	}
}

func TestPositions(t *testing.T) {
	folder := forgetful(t, "{}")
	site := started(t, forgetfulSite(t), folder)
	tryPositions(t, folder, site)
	if err := site.End(); err != nil {
		t.Error(err)
	}
}

func TestPositionsOverADoor(t *testing.T) {
	it := &door{t: t, folder: forgetful(t, "{}"), words: []string{"--program", forgetfulSite(t)}}
	it.path = it.folder + ".door"
	it.start()
	t.Cleanup(it.kill)
	tryPositions(t, it.folder, it.site(0))
	ours, other := it.site(0), it.site(0)
	id, err := other.Change("stock", -1)
	if at, fault := ours.Position(); at != id || err != nil || fault != nil {
		t.Error(at, id, err, fault)
	}
}

func TestPositionsBehindAStop(t *testing.T) {
	for _, stop := range []string{"ahead", "behind"} {
		folder := forgetful(t, `{"stop": "`+stop+`", "then": {"horizon": [1, 0]}}`)
		site := started(t, forgetfulSite(t), folder)
		since, err := site.Position()
		if err != nil {
			t.Fatal(err)
		}
		var doubt InDoubt
		if _, err := site.ChangeByKey("stock", -3, "order", since); !errors.As(err, &doubt) {
			t.Fatal(err)
		}
		if err := site.End(); err != error(Ended{1}) {
			t.Error(err)
		}
		site = started(t, forgetfulSite(t), folder)
		id, err := site.ChangeByKey("stock", -3, "order", since)
		if err != nil || sold(folder) != 1 || (stop == "behind") != (id == doubt.ID) {
			t.Error(stop, id, doubt.ID, err, sold(folder))
		}
		tell(t, folder, `{"horizon": [9, 0]}`)
		_, err = site.ChangeByKey("stock", -3, "order", since)
		isForgotten(t, "order", err)
		if err := site.End(); err != nil || sold(folder) != 1 {
			t.Error(err, sold(folder))
		}
	}
}

func TestAFieldThatIsCalledKey(t *testing.T) {
	for asked, line := range map[string]string{
		"0 escrow 1.1 key -1": "0 escrow 1.1 key -1 -> granted", "0 commit 1.1 key a since 1.0": "0 commit 1.1 -> granted",
		"0 commit 1.1 key a": "kept key a -> granted", "kept key a since 1.0": "kept key a since 1.0 -> granted",
		"0 commit 1.1 key b since 1.0": "kept key b -> granted",
	} {
		if reply, isOne := replyTo(asked, line); reply != "granted" || !isOne {
			t.Error(asked, line, reply, isOne)
		}
	}
	for asked, line := range map[string]string{
		"0 commit 1.1 key a since 1.0": "kept key b -> 1.1", "0 escrow 1.1 stock -1": "0 escrow 1.1 -> granted", "kept key a": "kept key b -> no",
	} {
		if reply, isOne := replyTo(asked, line); isOne {
			t.Error(asked, line, reply)
		}
	}
}

func TestForgottenBehindAStop(t *testing.T) {
	folder := forgetful(t, `{"stop": "behind", "then": {"horizon": [9, 0]}}`)
	site := started(t, forgetfulSite(t), folder)
	_, err := site.Change("stock", -3)
	var doubt InDoubt
	if !errors.As(err, &doubt) {
		t.Fatal(err)
	}
	if err := site.End(); err != error(Ended{1}) {
		t.Error(err)
	}
	site = started(t, forgetfulSite(t), folder)
	_, err = site.Kept(doubt.ID)
	isForgotten(t, doubt.ID, err)
	if err := site.End(); err != nil || sold(folder) != 1 {
		t.Error(err, sold(folder))
	}
}

func TestWholeLogIsToldNoPosition(t *testing.T) {
	folder := forgetful(t, `{"version": 1}`)
	site := started(t, forgetfulSite(t), folder)
	since, _ := site.Position()
	_, err := site.ChangeByKey("stock", -3, "order", since)
	if kept, other := site.KeptKey("order", since); kept == "" || err != nil || other != nil {
		t.Error(kept, err, other)
	}
	site.End()
	if lines, err := os.ReadFile(filepath.Join(folder, "lines")); err != nil || strings.Contains(string(lines), "since") {
		t.Error(string(lines), err)
	}
}

func TestNewer(t *testing.T) {
	folder := forgetful(t, `{"version": 3}`)
	if _, err := Start(forgetfulSite(t), folder); !errors.Is(err, ErrNewer) {
		t.Error(err)
	}
	path := folder + ".newer"
	listener, err := net.Listen("unix", path)
	if err != nil {
		t.Fatal(err)
	}
	defer listener.Close()
	go func() {
		if peer, err := listener.Accept(); err == nil {
			peer.Write([]byte("escrow door 1\nnumber 0\nworld 0123456789\n{}\nready 3 1 4\n"))
		}
	}()
	if _, err := Connect(path); !errors.Is(err, ErrNewer) {
		t.Error(err)
	}
}
