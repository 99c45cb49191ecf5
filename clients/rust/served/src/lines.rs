//! The lines of one site, over a process that serves it or over a door: who writes them, and whom each answer is told.
use crate::Fault;
use std::collections::VecDeque;
use std::convert::Infallible;
use std::io::{BufRead, Error, ErrorKind, Write};
use std::net::Shutdown;
use std::os::unix::net::UnixStream;
use std::process::{Child, ExitStatus};
use std::sync::atomic::{AtomicBool, Ordering};
use std::sync::mpsc::{channel, Receiver, RecvTimeoutError, Sender};
use std::sync::{Arc, Condvar, Mutex, MutexGuard};
use std::thread;
use std::time::{Duration, Instant};

/// How many transactions are open at most: a site has 64 places, and one is left for changes in one trip.
const PLACES: usize = 63;

/// When a call has to be answered; None: whenever it is.
pub(crate) type End = Option<Instant>;

/// What a caller is told.
enum Told {
    /// The door has taken its line, which begins a transaction by this id, or none.
    Taken(String),
    /// There is a place for it now: the call, to be sent anew.
    Place(Call),
    Reply(String),
}

/// The lines that are answered. `#` stands in them for the id of the transaction that the first one begins.
struct Call {
    number: u64,
    lines: Vec<String>,
    teller: Sender<Told>,
}

/// What came of a call.
#[derive(Default)]
pub(crate) struct Heard {
    /// Of the transaction that it begins, as lines name it.
    pub id: String,
    /// Whether it was asked: else it never is.
    pub is_taken: bool,
    /// Fewer than its lines where a stop left them out, or its time was up.
    pub replies: Vec<String>,
    is_late: bool,
}

/// Whose turn it is to write. Nobody writes who holds it.
#[derive(Default)]
struct Out {
    is_taken: bool,
    /// How many wait for their turn.
    waiting: usize,
    /// Transactions of this process, or calls of this connection.
    begun: u64,
    /// Lines that nobody waits for, for who has the turn to write.
    owed: VecDeque<String>,
    /// Nothing more is written, as it is to end by itself.
    is_closed: bool,
    /// Nor is it here, where it is to end by force: the last line may stand there in part.
    is_stopped: bool,
}

/// Who has it writes lines, and notes each, in the same order; then it writes what others owe.
struct Turn<'a> {
    lines: &'a Lines,
    begun: u64,
}

/// The reader waits for it, so nobody writes who holds it.
#[derive(Default)]
struct Queues {
    /// Lines that the door hasn't told that it took, in their order.
    untaken: VecDeque<Call>,
    /// Lines that were taken and not answered, in their order, each with whom to tell.
    pending: VecDeque<(String, Sender<Told>)>,
    /// For these the door had no place.
    waiting: VecDeque<Call>,
    /// Transactions of this process that are open.
    open: usize,
    is_ended: bool,
}

/// The lines of a process, or of a connection.
pub(crate) struct Lines {
    process: u32, // that made it, and has the reader
    epoch: u32,
    out: Mutex<Out>,
    turned: Condvar,
    queues: Mutex<Queues>,
    changed: Condvar,
    peer: UnixStream,
    child: Option<Mutex<Child>>, // none over a door
    is_direct: AtomicBool,
}

pub(crate) fn lock<T>(of: &Mutex<T>) -> MutexGuard<'_, T> {
    of.lock().expect("no holder panics")
}

pub(crate) fn left(end: End) -> Duration {
    end.map_or(Duration::MAX, |end| end.saturating_duration_since(Instant::now()))
}

/// What a line was answered; of a bad one what is wrong. None where it isn't its answer.
fn reply_to<'a>(asked: &str, line: &'a str) -> Option<&'a str> {
    if let Some(why) = line.strip_prefix("bad line") {
        let is_front = |it: char| it.is_ascii_digit() || it == ' ' || it == ':'; // where there is one, the number of the line
        return (!asked.ends_with(" begin")).then(|| why.trim_start_matches(is_front));
    }
    let (front, told) = asked.split_once(" key ").unwrap_or((asked, ""));
    let kept = format!("kept key {}", told.split(' ').next().unwrap_or_default()); // behind the key may stand its position
    let fronts = [asked, front, &kept];
    fronts.iter().find_map(|it| line.strip_prefix(it)?.strip_prefix(" -> "))
}

/// Waits for the end of a process; behind this end it is killed first.
pub(crate) fn wait_for(child: &mut Child, end: End) -> Result<ExitStatus, Error> {
    while end.is_some() {
        if let Some(status) = child.try_wait()? {
            return Ok(status);
        } else if left(end).is_zero() {
            child.kill()?;
            break;
        }
        thread::sleep(left(end).min(Duration::from_millis(1)));
    }
    child.wait()
}

impl Turn<'_> {
    /// Writes lines whole, or stops the other end: behind a part of a line nothing may follow.
    fn write(&self, text: &str) {
        if (&self.lines.peer).write_all(text.as_bytes()).is_err() {
            self.lines.stop();
        }
    }

    /// Writes to the process: the id, and how many lines; None where it has ended.
    fn ask<E>(
        &mut self,
        begins: u64,
        make: impl FnOnce(u64, &str) -> Result<Vec<String>, E>,
        teller: &Sender<Told>,
    ) -> Result<Option<(String, usize)>, E> {
        let begun = self.begun + begins;
        let id = format!("{}.{begun}", self.lines.epoch);
        let lines = make(begun, &id)?;
        if !self.lines.note(|queues| queues.pending.extend(lines.iter().map(|it| (it.clone(), teller.clone())))) {
            return Ok(None);
        }
        self.begun = begun;
        self.write(&(lines.join("\n") + "\n"));
        Ok(Some((id, lines.len())))
    }

    /// Writes a line to the door: the number of the call; None where the connection has ended.
    fn send(&mut self, line: &str, mut call: Call) -> Option<u64> {
        call.number = self.begun + 1;
        if !self.lines.note(|queues| queues.untaken.push_back(call)) {
            return None;
        }
        self.begun += 1;
        self.write(&format!("{line}\n")); // where it fails: what the door has taken it has told
        Some(self.begun)
    }

    /// Writes a line whose answer nobody waits for.
    fn tell(&mut self, line: String) {
        let (teller, _) = channel();
        if self.lines.is_door() {
            self.send(&line.clone(), Call { number: 0, lines: vec![line], teller });
        } else {
            let _ = self.ask(0, |_, _| Ok::<_, Infallible>(vec![line]), &teller);
        }
    }
}

impl Drop for Turn<'_> {
    fn drop(&mut self) {
        let mut out = lock(&self.lines.out);
        while let Some(line) = out.owed.pop_front() {
            drop(out);
            self.tell(line);
            out = lock(&self.lines.out);
        }
        (out.begun, out.is_taken) = (self.begun, false);
        if out.waiting > 0 {
            self.lines.turned.notify_one();
        }
    }
}

impl Lines {
    pub fn new(epoch: u32, peer: UnixStream, child: Option<Child>, is_direct: bool) -> Arc<Lines> {
        let (out, queues, child) = (Mutex::default(), Mutex::default(), child.map(Mutex::new));
        let (turned, changed, is_direct) = (Condvar::new(), Condvar::new(), AtomicBool::new(is_direct));
        Arc::new(Lines { process: std::process::id(), epoch, out, turned, queues, changed, peer, child, is_direct })
    }

    /// A fork of the process that made it asks nothing, and takes no lock, which nobody may ever open there.
    pub fn of_this_process(&self) -> Result<(), Fault> {
        let process = self.process;
        if process == std::process::id() {
            Ok(())
        } else {
            Err(Fault::Forked(process))
        }
    }

    pub fn is_door(&self) -> bool {
        self.child.is_none()
    }

    /// Whether what wasn't taken is known not to be: not where a program is between this one and the door.
    pub fn is_direct(&self) -> bool {
        self.is_direct.load(Ordering::SeqCst)
    }

    pub fn is_up(&self) -> bool {
        !lock(&self.out).is_stopped && !lock(&self.queues).is_ended
    }

    /// How many transactions this process was asked to begin; None over a door, or where it has ended.
    pub fn begun(&self) -> Option<u64> {
        (!self.is_door() && self.is_up()).then(|| lock(&self.out).begun)
    }

    /// Waits for its turn to write; None where it doesn't come by the end, or nothing is written any more.
    fn turn(&self, end: End) -> Option<Turn<'_>> {
        let mut out = lock(&self.out);
        while out.is_taken && !out.is_stopped {
            if left(end).is_zero() {
                return None;
            }
            out.waiting += 1;
            out = self.turned.wait_timeout(out, left(end)).expect("no holder panics").0;
            out.waiting -= 1;
        }
        if out.is_stopped || out.is_closed {
            return None;
        }
        out.is_taken = true;
        Some(Turn { lines: self, begun: out.begun })
    }

    /// Notes lines that are about to be written; false where it has ended.
    fn note(&self, by: impl FnOnce(&mut Queues)) -> bool {
        let mut queues = lock(&self.queues);
        if !queues.is_ended {
            by(&mut queues);
        }
        !queues.is_ended
    }

    /// Asks these lines, which stand together. A door is told the one line `door` in their place.
    pub fn ask(&self, door: &str, lines: Vec<String>, end: End) -> Heard {
        if self.is_door() {
            return self.ask_door(door, lines, end);
        }
        let begins = u64::from(lines[0].ends_with(" begin"));
        let made = |_, id: &str| Ok(lines.iter().map(|it| it.replace('#', id)).collect());
        self.ask_program(begins, made, end).unwrap_or_else(|never: Infallible| match never {})
    }

    /// Asks the process lines that are made of the number and the id of the last transaction that begins with them. What `make`
    /// fails with comes through: nothing was sent.
    pub fn ask_program<E>(
        &self,
        begins: u64,
        make: impl FnOnce(u64, &str) -> Result<Vec<String>, E>,
        end: End,
    ) -> Result<Heard, E> {
        let (teller, replies) = channel();
        let Some(mut turn) = self.turn(end).filter(|_| self.is_up()) else { return Ok(Heard::default()) };
        let asked = turn.ask(begins, make, &teller)?;
        drop((turn, teller));
        let Some((id, many)) = asked else { return Ok(Heard::default()) };
        Ok(self.hear(0, Heard { id, is_taken: true, ..Heard::default() }, replies, many, "", end))
    }

    fn ask_door(&self, line: &str, lines: Vec<String>, end: End) -> Heard {
        let ((teller, replies), many) = (channel(), lines.len());
        match self.send(line, Call { number: 0, lines, teller }, end) {
            Some(number) => self.hear(number, Heard::default(), replies, many, &line.replacen(" open ", " enter ", 1), end),
            None => Heard::default(),
        }
    }

    fn send(&self, line: &str, call: Call, end: End) -> Option<u64> {
        self.turn(end)?.send(line, call)
    }

    /// Has a line asked whose answer nobody waits for: by who has the turn, or else at once.
    pub fn tell(&self, line: String) {
        lock(&self.out).owed.push_back(line);
        drop(self.turn(Some(Instant::now())));
    }

    /// What came by the end. What the door hasn't taken by then is called back, by the end of the connection.
    fn hear(&self, mut number: u64, mut heard: Heard, replies: Receiver<Told>, many: usize, enter: &str, mut end: End) -> Heard {
        while heard.replies.len() < many {
            match replies.recv_timeout(left(end)) {
                Ok(Told::Reply(reply)) => heard.replies.push(reply),
                Ok(Told::Taken(id)) => (heard.id, heard.is_taken) = (id, true),
                Ok(Told::Place(_)) if heard.is_late => {
                    self.tell("leave".to_string());
                    return heard;
                }
                Ok(Told::Place(call)) => match self.send(enter, call, end) {
                    Some(anew) => number = anew,
                    None => {
                        self.tell("leave".to_string());
                        return heard;
                    }
                },
                Err(RecvTimeoutError::Timeout) if !heard.is_late => {
                    heard.is_late = true;
                    let mut queues = lock(&self.queues);
                    queues.waiting.retain(|it| it.number != number);
                    let is_untaken = queues.untaken.iter().any(|it| it.number == number);
                    drop(queues);
                    if is_untaken {
                        self.stop();
                        end = None; // what has come until then is read, and then it ends
                    }
                }
                Err(_) => return heard,
            }
        }
        heard
    }

    /// Waits for one of the places of a process; a door has its own. False where none is free by the end.
    pub fn take_place(&self, end: End) -> bool {
        let mut queues = lock(&self.queues);
        while !self.is_door() && queues.open >= PLACES && !queues.is_ended {
            if left(end).is_zero() {
                return false;
            }
            queues = self.changed.wait_timeout(queues, left(end)).expect("no holder panics").0;
        }
        queues.open += 1;
        !queues.is_ended
    }

    pub fn give_place(&self) {
        let mut queues = lock(&self.queues);
        queues.open = queues.open.saturating_sub(1);
        self.changed.notify_one();
    }

    /// Hands each reply to whom asked, to the end. A last line without a line feed is torn, and no answer; who still waits then
    /// hears of no reply.
    pub fn read(self: &Arc<Lines>, mut input: impl BufRead) -> Result<(), Fault> {
        let mut line = String::new();
        let read = loop {
            line.clear();
            match input.read_line(&mut line) {
                Err(fault) if fault.kind() == ErrorKind::InvalidData => break Err(Fault::Line("no UTF-8".to_string())),
                Ok(_) if line.ends_with('\n') => {}
                _ if self.is_door() && !lock(&self.out).is_closed => break Err(Fault::Door("the door is gone".to_string())),
                _ => break Ok(()),
            }
            if let Err(fault) = self.take(line.trim_end_matches('\n')) {
                break Err(fault);
            }
        };
        if self.is_door() && matches!(read, Err(Fault::Line(_))) {
            self.is_direct.store(false, Ordering::SeqCst); // what the door took may be unread
        }
        if self.is_door() || read.is_err() {
            self.stop(); // nobody reads what it writes any more
        }
        *lock(&self.queues) = Queues { is_ended: true, ..Queues::default() };
        self.changed.notify_all();
        read
    }

    fn take(self: &Arc<Lines>, line: &str) -> Result<(), Fault> {
        let odd = || Fault::Line(line.to_string());
        let mut queues = lock(&self.queues);
        if let Some(words) = line.strip_prefix("door ").filter(|_| self.is_door()) {
            return self.take_word(words, queues).ok_or_else(odd)?;
        }
        let (asked, teller) = queues.pending.pop_front().ok_or_else(odd)?;
        let reply = reply_to(&asked, line).ok_or_else(odd)?;
        let _ = teller.send(Told::Reply(reply.to_string())); // nobody may wait for it any more
        Ok(())
    }

    /// Takes what the door tells by itself; None where it is nothing of it.
    fn take_word(self: &Arc<Lines>, words: &str, mut queues: MutexGuard<'_, Queues>) -> Option<Result<(), Fault>> {
        match words.split_once(' ').unwrap_or((words, "")) {
            ("took", told) => {
                let (many, first) = told.split_once(' ')?;
                let (epoch, mut number) = first.split_once('.').and_then(|(e, n)| Some((e, n.parse::<u64>().ok()?)))?;
                for _ in 0..many.parse::<usize>().ok()? {
                    let call = queues.untaken.pop_front()?;
                    let begins = call.lines[0].ends_with(" begin");
                    let id = if begins { format!("{epoch}.{number}") } else { String::new() };
                    number += u64::from(begins);
                    queues.pending.extend(call.lines.iter().map(|it| (it.replace('#', &id), call.teller.clone())));
                    let _ = call.teller.send(Told::Taken(id));
                }
            }
            ("busy", "") => {
                let call = queues.untaken.pop_front()?;
                queues.waiting.push_back(call);
            }
            ("place", "") => match queues.waiting.pop_front() {
                Some(call) => drop(call.teller.clone().send(Told::Place(call))),
                None => {
                    let lines = self.clone(); // the reader itself never waits to write
                    thread::spawn(move || lines.tell("leave".to_string()));
                }
            },
            ("end", why) => return Some(Err(Fault::Door(why.to_string()))),
            _ => return None,
        }
        Some(Ok(()))
    }

    /// Ends the process by force, or the connection: what the door hasn't taken by now it never takes.
    pub fn stop(&self) {
        lock(&self.out).is_stopped = true;
        self.turned.notify_all();
        self.child.iter().for_each(|it| drop(lock(it).kill()));
        let _ = self.peer.shutdown(Shutdown::Both); // so the reader ends, whoever holds the other end
    }

    /// Has no more lines written: the other end answers what there is, and ends.
    pub fn close(&self, end: End) {
        let turn = self.turn(end);
        lock(&self.out).is_closed = true;
        match turn {
            Some(_) => drop(self.peer.shutdown(Shutdown::Write)),
            None => self.stop(),
        }
    }

    /// No write takes longer than this: else the other end is stopped.
    pub fn limit_writes(&self, limit: Option<Duration>) {
        let _ = self.peer.set_write_timeout(limit);
    }

    /// Waits for the end of the process, which is by force behind this end; a connection has ended well.
    pub fn wait(&self, end: End) -> Result<ExitStatus, Error> {
        self.child.as_ref().map_or(Ok(ExitStatus::default()), |it| wait_for(&mut lock(it), end))
    }

    /// Waits until all is read: whether it is by the end.
    pub fn is_read(&self, end: End) -> bool {
        let mut queues = lock(&self.queues);
        while !queues.is_ended && !left(end).is_zero() {
            queues = self.changed.wait_timeout(queues, left(end)).expect("no holder panics").0;
        }
        queues.is_ended
    }
}
