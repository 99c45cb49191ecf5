package escrow

import (
	"errors"
	"io"
	"os"
	"os/exec"
	"sync"
	"syscall"
	"time"
)

// process is that of a site. It leads a session of its own, and a group: a Ctrl-C at the terminal isn't for it, and a script that runs the
// program is ended with it.
type process struct {
	*exec.Cmd
	mutex       sync.Mutex
	isWaitedFor bool // then its number may be another one's
}

func newProcess(program string, words []string) *process {
	command := exec.Command(program, words...)
	command.Stderr = os.Stderr
	command.SysProcAttr = &syscall.SysProcAttr{Setsid: true}
	return &process{Cmd: command}
}

// start starts it, with a pipe to it whose writes can have a time, and one from it.
func (own *process) start() (to *os.File, from io.Reader, err error) {
	in, to, err := os.Pipe()
	if err != nil {
		return nil, nil, err
	}
	defer in.Close()
	own.Stdin = in
	if from, err = own.StdoutPipe(); err == nil {
		err = own.Start()
	}
	if err != nil {
		to.Close()
		return nil, nil, err
	}
	return to, from, nil
}

// kill ends it by force, and what it has begun.
func (own *process) kill() {
	own.mutex.Lock()
	defer own.mutex.Unlock()
	if !own.isWaitedFor {
		syscall.Kill(-own.Process.Pid, syscall.SIGKILL)
	}
	own.Process.Kill()
}

// killAfter kills it after so long. What is returned calls that off, and tells each time whether it did in time.
func (own *process) killAfter(limit time.Duration) (isInTime func() bool) {
	timer := time.AfterFunc(limit, own.kill)
	var once sync.Once
	var is bool
	return func() bool {
		once.Do(func() { is = timer.Stop() })
		return is
	}
}

// halt waits for the end of one that doesn't serve: where it goes on it is killed, and there is no error.
func (own *process) halt(hasEnded bool) error {
	if !hasEnded {
		own.kill()
		own.wait()
		return nil
	}
	return own.wait()
}

// wait waits for its end, behind that of what it writes. An error is Ended, where its status isn't 0.
func (own *process) wait() error {
	own.mutex.Lock()
	own.isWaitedFor = true
	own.mutex.Unlock()
	err := own.Wait()
	var exit *exec.ExitError
	if errors.As(err, &exit) {
		return Ended{exit.ExitCode()}
	}
	return err
}
