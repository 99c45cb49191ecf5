// A site of escrow inside a Go program, by cgo: an example, which tries itself. To build it, name the archives:
//
//	CGO_LDFLAGS="crates/escrow_c/out/libescrow_c.a KIT/c/liblibc_c.a" go build clients/go/inside/site.go
package main

/*
#cgo CFLAGS: -I${SRCDIR}/../../../include
#include "escrow.h"
*/
import "C"

import (
	"fmt"
	"os"
	"unsafe"
)

// Fault is why a call did nothing: a status of escrow.h, and the first bad line of a log, or 0.
type Fault struct {
	Status uint32
	Line   uint64
}

func (fault Fault) Error() string {
	return fmt.Sprintf("escrow: status %d, line %d", fault.Status, fault.Line)
}

// Site is a site. It is for one goroutine at a time.
type Site struct {
	handle C.escrow_handle
	taken  C.size_t
}

// first is where bytes begin: never nil, also where there are none.
func first(bytes []byte) *C.uint8_t {
	if len(bytes) == 0 {
		bytes = []byte{0}
	}
	return (*C.uint8_t)(unsafe.Pointer(&bytes[0]))
}

func done(status C.uint32_t, line C.uint64_t) error {
	if status == C.ESCROW_DONE {
		return nil
	}
	return Fault{uint32(status), uint64(line)}
}

// Open opens the site of this number over what was kept of its log, and tells how many bytes of that count.
func Open(header string, number uint16, log []byte) (*Site, int, error) {
	site := new(Site)
	var line C.uint64_t
	told := []byte(header)
	status := C.escrow_site_open(&site.handle, first(told), C.size_t(len(told)), C.uint16_t(number), first(log),
		C.size_t(len(log)), &site.taken, &line)
	return site, int(site.taken), done(status, line)
}

// Tell asks what a line spells, and answers the text of the entry.
func (site *Site) Tell(line string) (string, error) {
	var length C.size_t
	asked, text := []byte(line), make([]byte, C.ESCROW_TEXT)
	status := C.escrow_site_tell(&site.handle, first(asked), C.size_t(len(asked)), first(text), C.ESCROW_TEXT, &length)
	return string(text[:length]), done(status, 0)
}

// TakeAdded is what the site has added to its log since it was taken last: write it and sync it before an answer goes out.
func (site *Site) TakeAdded() ([]byte, error) {
	var all, copied C.size_t
	if err := done(C.escrow_site_log_length(&site.handle, &all), 0); err != nil {
		return nil, err
	}
	added := make([]byte, all-site.taken)
	status := C.escrow_site_log(&site.handle, site.taken, first(added), C.size_t(len(added)), &copied)
	site.taken += copied
	return added, done(status, 0)
}

// Close ends the site; a second time it answers a Fault.
func (site *Site) Close() error { return done(C.escrow_site_close(&site.handle), 0) }

const header = `{"sites":2,"fields":[{"name":"stock","floor":0,"ceiling":100,"value":40}]}`

func expect(isSo bool, what string) {
	if !isSo {
		fmt.Fprintln(os.Stderr, "site.go: not so:", what)
		os.Exit(1)
	}
}

func sell(log []byte) []byte {
	site, kept, err := Open(header, 0, log)
	expect(err == nil && kept == len(log), "opened")
	for _, line := range []string{"0 begin", "0 escrow 0.1 stock -20", "0 commit 0.1"} {
		_, err := site.Tell(line)
		expect(err == nil, line)
	}
	added, err := site.TakeAdded()
	expect(err == nil && string(added) == "C 0 1 0 -20\n", "the record of the commit")
	expect(site.Close() == nil && site.Close() == error(Fault{C.ESCROW_CLOSED, 0}), "closed once")
	return append(log, added...)
}

func main() {
	log := sell(nil)
	site, kept, err := Open(header, 0, append(log, "C 0 2"...))
	expect(err == nil && kept == len(log), "a torn end is cut off")
	text, err := site.Tell("0 restart")
	expect(err == nil && text == "0 restart -> restarted 1 nothing", text)
	text, err = site.Tell("0 read stock")
	expect(err == nil && text == "0 read stock -> between 0 50", text)
	_, err = site.Tell("1 begin")
	expect(err == error(Fault{C.ESCROW_OTHER_SITE, 0}), "another site's")
	expect(site.Close() == nil, "closed")
	_, _, err = Open(header, 0, []byte("C 0 1 0 -21\n"))
	expect(err == error(Fault{C.ESCROW_BAD_LOG, 1}), "a log that is overdrawn")
	fmt.Println("Go: each call answers as typed")
}
