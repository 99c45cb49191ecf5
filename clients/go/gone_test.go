package escrow

// Of a Site that has ended by itself nothing is left, though nobody has called End; and End tells the same then.

import (
	"errors"
	"fmt"
	"os"
	"runtime"
	"testing"
)

// descriptors counts those of this process.
func descriptors(t *testing.T) int {
	t.Helper()
	open, err := os.ReadDir("/proc/self/fd")
	if err != nil {
		t.Fatal(err)
	}
	return len(open)
}

// isGone tells whether a process has ended, and was waited for.
func isGone(pid int) bool {
	_, err := os.Stat(fmt.Sprint("/proc/", pid))
	return errors.Is(err, os.ErrNotExist)
}

func TestNothingIsLeftOfAProcess(t *testing.T) {
	program, folder := made(t)
	started(t, program, folder).End()
	before := descriptors(t)
	var all []*Site
	for range [5]int{} {
		site := started(t, program, folder)
		if _, err := site.Change("stock", -1); err != nil {
			t.Fatal(err)
		}
		site.command.Process.Kill()
		until(t, func() bool { return isGone(site.command.Process.Pid) })
		if _, err := site.Change("stock", -1); err != ErrStopped || site.Up() {
			t.Error(err, site.Up())
		}
		all = append(all, site)
	}
	until(t, func() bool { return descriptors(t) <= before })
	for _, site := range all {
		if first, second := site.End(), site.End(); first != error(Ended{-1}) || second != ErrStopped {
			t.Error(first, second)
		}
	}
	runtime.KeepAlive(all) // none is collected meanwhile
}

func TestNothingIsLeftOfAConnection(t *testing.T) {
	it := opened(t, two)
	before := descriptors(t)
	var all []*Site
	for range [5]int{} {
		site, err := Connect(it.path)
		if err != nil {
			t.Fatal(err)
		}
		all = append(all, site)
	}
	it.kill()
	until(t, func() bool { return descriptors(t) <= before })
	for _, site := range all {
		if _, err := site.Change("stock", -1); err != ErrStopped || site.Up() {
			t.Error(err, site.Up())
		}
		if first, second := site.End(), site.End(); !errors.Is(first, ErrDoor) || second != ErrStopped {
			t.Error(first, second)
		}
	}
	runtime.KeepAlive(all)
}
