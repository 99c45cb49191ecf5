package escrow

// How the process of a site is started: apart from the terminal, and within a time.

import (
	"bufio"
	"errors"
	"fmt"
	"os"
	"os/exec"
	"os/signal"
	"path/filepath"
	"strings"
	"syscall"
	"testing"
	"time"
)

// TestEndsGracefully is a process of its own, where TestInterrupt starts it: at an interrupt it finishes the sale that is under way.
func TestEndsGracefully(t *testing.T) {
	folder := os.Getenv("ESCROW_INTERRUPTED")
	if folder == "" {
		t.Skip("TestInterrupt starts it")
	}
	stop := make(chan os.Signal, 1)
	signal.Notify(stop, os.Interrupt)
	site := started(t, os.Getenv("ESCROW_SITE"), folder)
	begun, err := site.Begin("stock", -1)
	fmt.Println("begun")
	<-stop
	time.Sleep(300 * time.Millisecond) // by then a site that was interrupted too is gone
	committed, ended := begun.Commit(), site.End()
	fmt.Println("ends", err, committed, ended)
}

func TestInterrupt(t *testing.T) {
	_, folder := made(t)
	seller := exec.Command(os.Args[0], "-test.run=^TestEndsGracefully$", "-test.v")
	seller.Env = append(os.Environ(), "ESCROW_INTERRUPTED="+folder)
	seller.SysProcAttr = &syscall.SysProcAttr{Setpgid: true}
	out, err := seller.StdoutPipe()
	if err != nil {
		t.Fatal(err)
	} else if err := seller.Start(); err != nil {
		t.Fatal(err)
	}
	told := ""
	for lines := bufio.NewScanner(out); lines.Scan(); told += lines.Text() + "\n" {
		if lines.Text() == "begun" { // as the terminal does at a Ctrl-C
			syscall.Kill(-seller.Process.Pid, syscall.SIGINT)
		}
	}
	if err := seller.Wait(); err != nil || !strings.Contains(told, "\nends <nil> <nil> <nil>\n") || len(commits(t, folder)) != 1 {
		t.Error(err, told)
	}
}

// script has a program of these lines of a shell.
func script(t *testing.T, lines string) string {
	path := filepath.Join(t.TempDir(), "program")
	if err := os.WriteFile(path, []byte("#!/bin/sh\n"+lines+"\n"), 0o700); err != nil {
		t.Fatal(err)
	}
	return path
}

func TestStartEnds(t *testing.T) {
	_, folder := made(t)
	for lines, why := range map[string]string{
		"sleep 300":                        "doesn't answer", // a process of its own
		"exec sleep 300":                   "doesn't answer",
		"echo ready 1 1 4; exec sleep 300": "doesn't answer",
		"exec >&-; exec sleep 300":         "doesn't answer", // its output has ended, and it hasn't
		"exec yes":                         "another version",
	} {
		program, told, limit := script(t, lines), make(chan error, 1), 500*time.Millisecond
		if lines == "exec yes" { // this one answers, as soon as the machine lets it
			limit = time.Minute
		}
		go func() { _, err := startWithin(limit, program, folder, nil); told <- err }()
		select {
		case err := <-told:
			if err == nil || !strings.Contains(err.Error(), why) {
				t.Error(lines, err)
			}
		case <-time.After(2 * time.Minute):
			t.Error(lines, "hangs")
		}
	}
	if limit := startLimit(folder); limit != 10*time.Second {
		t.Error(limit)
	} else if err := os.Truncate(filepath.Join(folder, "log"), 3<<20); err != nil || startLimit(folder) != 13*time.Second {
		t.Error(err, startLimit(folder))
	}
}

// Each tells what it means, and what to do, and who tells it once.
func TestTexts(t *testing.T) {
	program, folder := made(t)
	silent := script(t, "exit 0")
	_, none := Start(program, folder+"0")
	_, noProgram := Start(folder, folder)
	_, noLine := Start(silent, folder)
	_, noStream := Start(script(t, "echo escrow_site: shop/log: is where standard error goes: send that elsewhere; exit 3"), folder)
	_, tooLong := Connect(strings.Repeat("x", 108))
	still := noWay("shop.door", doorFault{"it doesn't answer: its site doesn't stand yet, or it stands still"})
	for _, it := range []struct {
		err  error
		told string
	}{
		{InDoubt{"1.1"}, "escrow: 1.1 may have happened, and its answer didn't come: ask Kept of it before it is asked for again"},
		{none, "escrow: open " + folder + "0/site: no such file or directory: make the folder by escrow_site create, once, or put it back"},
		{noProgram, "escrow: the program isn't started: fork/exec " + folder + ": permission denied"},
		{noLine, "escrow: " + silent + " has ended without a line: it isn't escrow_site: name that one"},
		{noStream, "escrow_site: shop/log: is where standard error goes: send that elsewhere: escrow: escrow_site has ended with status 3: " +
			"standard error tells why, and what to do"},
		{still, "escrow: no way in by this door: shop.door: it doesn't answer: its site doesn't stand yet, or it stands still: its standard " +
			"error tells more"},
		{tooLong, "escrow: no way in by this door: dial unix " + strings.Repeat("x", 108) + ": connect: invalid argument: a path of a socket " +
			"has 107 bytes at most: have the door make a shorter one"},
	} {
		if it.err == nil || it.err.Error() != it.told {
			t.Error(it.err)
		}
	}
	var ended Ended
	if !errors.As(noStream, &ended) || ended.Status != 3 {
		t.Error(noStream)
	}
	if !errors.Is(none, os.ErrNotExist) || !errors.Is(noProgram, os.ErrPermission) || !errors.Is(still, ErrDoor) {
		t.Error(none, noProgram, still)
	}
}
