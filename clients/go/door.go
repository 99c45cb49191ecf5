package escrow

import (
	"bufio"
	"errors"
	"fmt"
	"net"
	"os"
	"regexp"
	"strconv"
	"strings"
	"syscall"
	"time"
)

const (
	wait    = 10 * time.Second // for a door that isn't there yet, or a program that doesn't serve yet
	longest = 107              // bytes of the path of a socket
)

// doorFault is what the door ended the connection by, or why there is none.
type doorFault struct{ why string }

func (fault doorFault) Error() string { return "escrow: the door: " + fault.why }

func (fault doorFault) Is(other error) bool { return other == ErrDoor }

var hello = regexp.MustCompile(`\Aescrow door 1\nnumber (\d+)\nworld ([0-9a-f]{8})[0-9a-f]*\n(.*)\nready ([12]) (\d+) \d+\n\z`)

// Connect comes in by the door at this path (`python3 -m escrow.door FOLDER --socket PATH`), which other processes use too. It waits up to
// ten seconds for one that isn't there yet. The Site is this one connection. An error is ErrDoor, or tells that no door of this
// version is there.
func Connect(path string) (*Site, error) {
	for end := time.Now().Add(wait); ; time.Sleep(50 * time.Millisecond) {
		peer, err := net.DialUnix("unix", nil, &net.UnixAddr{Name: path, Net: "unix"})
		if err == nil {
			site, fault := greetDoor(peer, end)
			if fault == nil {
				return site, nil
			}
			peer.Close()
			err = fault
			if !errors.Is(err, ErrDoor) {
				return nil, err
			}
		} else if !errors.Is(err, os.ErrNotExist) && !errors.Is(err, syscall.ECONNREFUSED) {
			return nil, noWay(path, err)
		}
		if time.Now().After(end) {
			return nil, noWay(path, err)
		}
	}
}

// noWay tells why there is no way in at this path, and what to do.
func noWay(path string, err error) error {
	var fault doorFault
	advice := "start one: python3 -m escrow.door FOLDER --socket " + path
	switch {
	case errors.As(err, &fault): // one is there
		return fmt.Errorf("%w: %s: %s: its standard error tells more", ErrDoor, path, fault.why)
	case errors.Is(err, os.ErrPermission):
		advice = "its owner and mode tell who may come in"
	case errors.Is(err, syscall.EINVAL) && len(path) > longest:
		advice = fmt.Sprintf("a path of a socket has %d bytes at most: have the door make a shorter one", longest)
	}
	return fmt.Errorf("%w: %v: %s", ErrDoor, err, advice)
}

// greetDoor reads the first lines. With the first byte a descriptor comes, which no program in between passes on.
func greetDoor(peer *net.UnixConn, end time.Time) (*Site, error) {
	none := func(err error) error {
		if errors.Is(err, os.ErrDeadlineExceeded) {
			return doorFault{"it doesn't answer: its site doesn't stand yet, or it stands still"}
		}
		return doorFault{fmt.Sprintf("it ended the connection before it answered (%v)", err)}
	}
	peer.SetReadDeadline(end)
	first, control := make([]byte, 1), make([]byte, syscall.CmsgSpace(4))
	many, controls, _, _, err := peer.ReadMsgUnix(first, control)
	if err != nil || many == 0 {
		return nil, none(err)
	}
	isDirect := closeTokens(control[:controls])
	in, told := bufio.NewReader(peer), string(first)
	for strings.Count(told, "\n") < 5 && !strings.HasPrefix(told, "door end ") {
		line, err := in.ReadString('\n')
		if err != nil {
			return nil, none(err)
		}
		told += line
	}
	peer.SetReadDeadline(time.Time{})
	if strings.HasPrefix(told, "door end ") {
		return nil, doorFault{strings.TrimSpace(told[len("door end "):])}
	}
	words := hello.FindStringSubmatch(told)
	if words == nil {
		return nil, otherVersion(peer.RemoteAddr().String(), told)
	}
	epoch, _ := strconv.ParseUint(words[5], 10, 32)
	own := newLines(epoch, peer)
	own.door, own.isDirect = peer, isDirect
	site := &Site{world: words[2], number: words[1], header: words[3], mayForget: words[4] == "2", lines: own}
	site.follow(in)
	return site, nil
}

// closeTokens closes the descriptors of a control message: whether there were any.
func closeTokens(control []byte) bool {
	isDirect := false
	messages, _ := syscall.ParseSocketControlMessage(control)
	for _, message := range messages {
		tokens, _ := syscall.ParseUnixRights(&message)
		for _, token := range tokens {
			syscall.Close(token)
			isDirect = true
		}
	}
	return isDirect
}
