package escrow

import (
	"context"
	"fmt"
	"sync/atomic"
)

// Transaction is open until Commit, CommitByKey or Abort: what it sets aside is committed together. That of a process that dies is
// aborted. One goroutine at a time makes its calls, but any may call Abort beside it, as a watchdog.
type Transaction struct {
	// ID is its id, to be written into the program's own books ahead of the commit: Kept tells of it later.
	ID     string
	site   *Site
	line   string
	isOpen atomic.Bool // until one call begins to end it
}

// Begin begins a transaction by its first change. A process has places for 63, and a connection for at most 32, shared with the
// other ones: it waits for one. An error is Refused, Lost, ErrBusy or ErrStopped. Of an order that is to be committed by its
// key, and may be sold already, ask KeptKey first: else it is Refused where nothing is left. Have Abort called at the end, by
// defer: behind a commit it does nothing.
func (site *Site) Begin(name string, change int64) (*Transaction, error) {
	if err := site.check(name); err != nil {
		return nil, err
	}
	ctx, cancel := site.timer()
	defer cancel()
	if err := site.lines.takePlace(ctx); err != nil {
		return nil, err
	}
	n := site.number
	lines := []string{n + " begin", fmt.Sprintf("%s escrow # %s %d", n, name, change)}
	told := site.lines.ask(ctx, fmt.Sprintf("%s open %s %d", n, name, change), lines)
	if !told.isTaken {
		site.lines.givePlace()
		return nil, told.unasked()
	}
	begun := &Transaction{ID: site.idOf(told.id), site: site, line: told.id}
	begun.isOpen.Store(true)
	site.lines.setOpen(told.id, true)
	if err := told.refusal(); err != nil {
		begun.abort(ctx)
		return nil, err
	} else if len(told.replies) < 2 {
		begun.abort(ctx)
		return nil, Lost{begun.ID}
	}
	return begun, nil
}

// Change sets aside another change. An error is Refused, by which the transaction stays open, or Lost.
func (own *Transaction) Change(name string, change int64) error {
	if err := own.site.check(name); err != nil {
		return err
	} else if !own.isOpen.Load() {
		return Lost{own.ID}
	}
	ctx, cancel := own.site.timer()
	defer cancel()
	reply, err := own.site.reply(ctx, fmt.Sprintf("%s escrow %s %s %d", own.site.number, own.line, name, change))
	if err != nil {
		own.abort(ctx)
	}
	if !own.isOpen.Load() { // by this one, or another one beside it
		return Lost{own.ID}
	} else if reply != "granted" {
		return Refused{reply}
	}
	return nil
}

// Commit makes its changes permanent. An error is InDoubt, Lost or Refused.
func (own *Transaction) Commit() error {
	_, err := own.commit("", "")
	return err
}

// CommitByKey is Commit, once for each key, at this site alone: where a commit with the key is kept already nothing is changed,
// what was set aside comes back, and the id is that of the earlier one. An error is ErrKey too, or ErrID, of since, by which it
// stays open, or ErrForgotten, where the log may have let go of an earlier one: then nothing is committed. since is as of
// ChangeByKey, from before this transaction began. A retry asks KeptKey ahead of Begin, which may be Refused though the order is
// sold.
func (own *Transaction) CommitByKey(key, since string) (string, error) {
	at, _ := own.site.placeOf(own.line)
	line, err := own.site.keyLine(key, since, at)
	if err != nil {
		return "", err
	}
	return own.commit(key, line)
}

func (own *Transaction) commit(key, line string) (string, error) {
	if !own.isOpen.Swap(false) {
		return "", Lost{own.ID}
	}
	site := own.site
	lines := []string{site.number + " commit " + own.line}
	if key != "" {
		lines[0] += " " + line
		if site.lines.door == nil { // a door aborts by itself
			lines = append(lines, site.number+" abort "+own.line)
		}
	}
	ctx, cancel := site.timer()
	defer cancel()
	told := site.lines.ask(ctx, lines[0], lines)
	if told.isTaken {
		own.leave()
	} else { // it was never asked
		own.giveBack(ctx)
	}
	if len(told.replies) == 0 {
		if told.isTaken || !site.lines.isSure() {
			return "", InDoubt{own.ID}
		}
		return "", Lost{own.ID}
	} else if told.replies[0] == "committed" {
		return own.ID, nil
	} else if key == "" {
		return "", Refused{told.replies[0]}
	}
	return site.idTold(told.replies[0], key)
}

// leave is called once, behind its end.
func (own *Transaction) leave() {
	own.site.lines.setOpen(own.line, false)
	own.site.lines.givePlace()
}

// Abort gives back what it has set aside. Behind a commit, or beside one, it does nothing, and so behind another Abort. Over a site that
// stands still it returns in time, and what was set aside comes back once the site goes on, or with its end.
func (own *Transaction) Abort() {
	ctx, cancel := own.site.timer()
	defer cancel()
	own.abort(ctx)
}

func (own *Transaction) abort(ctx context.Context) {
	if own.isOpen.Swap(false) {
		own.giveBack(ctx)
	}
}

func (own *Transaction) giveBack(ctx context.Context) {
	own.site.lines.tell(ctx, own.site.number+" abort "+own.line, own.leave)
}
