//! A client of a served site of escrow: it starts `escrow_site serve FOLDER`, or comes in by a door that serves a folder to many
//! processes, and many threads ask it at once. A client in another language is this: lines out, lines in, in the same order.
//! docs/FORMATS.md has all of them.
//!
//! A [`Site`] is one process, or one connection, from its ready line to its end, of the process that made it and no fork of that.
//! Behind a stop a new one is made, and asked by [`Site::kept`] of the changes in doubt: `seller.rs` beside this crate does so.
//! It needs the standard library alone.
#![deny(missing_docs)]
mod door;
mod lines;
mod program;

use lines::{lock, End, Heard, Lines};
use std::collections::{HashMap, HashSet};
use std::convert::Infallible;
use std::fmt::{Debug, Display, Formatter};
use std::io::{BufRead, Error};
use std::panic::{catch_unwind, resume_unwind, AssertUnwindSafe};
use std::process::ExitStatus;
use std::str::FromStr;
use std::sync::{Arc, Mutex};
use std::thread::{self, JoinHandle};
use std::time::{Duration, Instant};

/// One process that serves a site, or one connection to a door that does. One that is dropped ends.
pub struct Site {
    world: String, // the first digits of the world's name
    number: String,
    epoch: u32,
    may_forget: bool, // its log was shortened, or may be
    header: String,   // of a door: it has the names of the fields
    limit: Option<Duration>,
    lines: Arc<Lines>,
    reader: Option<JoinHandle<Result<(), Fault>>>,
    keys: Mutex<HashMap<String, usize>>, // of changes that are under way
    open: Mutex<HashSet<String>>,        // transactions, as lines name them
}

/// How a change went.
#[must_use = "it may not be committed"]
#[derive(Clone, Debug, PartialEq, Eq)]
pub enum Change {
    /// It is committed, by this id.
    Committed(String),
    /// Nothing was changed: the reply of the site, as `refused 7 short 3`. Any other one is a fault of the caller, as `no such
    /// field`.
    Refused(String),
    /// It was asked, and its answer is left out by a stop, or didn't come in time: [`Site::kept`] tells what became of this id,
    /// over a new site where this one has ended. Never ask for it again before; by a key, do, with the same one. It has no id
    /// where something came in between that no door tells.
    InDoubt(String),
    /// A stop, or its time, came before the commit of this id: it isn't committed, and never will be. Ask anew.
    Lost(String),
    /// Nothing was begun by it: its time was up, or the process or the connection had ended, before it was asked. Ask anew.
    Busy,
}

/// Why there is no site, or no answer.
pub enum Fault {
    /// The program can't be started, or doesn't answer, or the file `site` can't be read.
    Io(Error),
    /// The process has ended, before it served or with another status than 0, or was killed, as behind a timeout: 6, another one
    /// has the folder; 5, the disk failed; 2 or 3, standard error tells what to do.
    Ended(ExitStatus),
    /// There is no way in by this door, or it has ended the connection, and why.
    Door(String),
    /// This line is none that this client knows.
    Line(String),
    /// No id of this site, or none that the log can tell of, and why: of another world or site, or of an epoch that isn't yet. So
    /// too of a position, and of one that isn't ahead of the transaction: nothing was committed.
    Id(String),
    /// No key: one is 1 to 64 of `A-Z a-z 0-9 . _ -`.
    Key(String),
    /// A question that the site refused: its reply, as `no such field`.
    Refused(String),
    /// A stop came before the answer, of the process or the connection: it was asked nothing that changes anything. Ask anew,
    /// over a new site.
    Stopped,
    /// Its time was up before the answer: it was asked nothing that changes anything. Ask anew.
    Late,
    /// The log was shortened, and a commit of this id, or with this key, may be among what it has let go of: neither yes nor no.
    /// Nothing was committed by this call. Look into the program's own books, or into the archive of the log, and **never ask for
    /// the same anew**.
    Forgotten(String),
    /// This is a fork of the process of this number, which made the [`Site`] and alone asks it: nothing was asked. Open one of
    /// its own in this process.
    Forked(u32),
    /// The program is newer than this client: its lines are of this version. Use a client of its release.
    Newer(u32),
}

impl Display for Fault {
    fn fmt(&self, out: &mut Formatter<'_>) -> std::fmt::Result {
        match self {
            Fault::Io(fault) => Display::fmt(fault, out),
            Fault::Ended(status) => write!(out, "escrow_site has ended, {status}"),
            Fault::Line(line) if line.is_empty() => {
                out.write_str("the program has ended without a line: it doesn't serve a site")
            }
            Fault::Line(line) => write!(out, "a line of another version: {line:?}"),
            Fault::Key(key) => write!(out, "{key:?} is no key of 1 to 64 of A-Z a-z 0-9 . _ -"),
            Fault::Stopped => out.write_str("the site has ended before the answer came: ask a new one"),
            Fault::Late => out.write_str("its time was up before the answer came: ask anew"),
            Fault::Forgotten(what) => write!(out, "{what}: the log has let go of what would tell: never ask for the same anew"),
            Fault::Forked(from) => {
                write!(out, "this is a fork of process {from}, which has this Site: open a Site of its own here")
            }
            Fault::Newer(version) => write!(out, "the program is newer than this client, which doesn't know version {version}"),
            Fault::Door(why) | Fault::Id(why) | Fault::Refused(why) => out.write_str(why),
        }
    }
}

impl Debug for Fault {
    fn fmt(&self, out: &mut Formatter<'_>) -> std::fmt::Result {
        Display::fmt(self, out)
    }
}

impl std::error::Error for Fault {}

/// A whole number as lines spell it.
fn whole(text: &str) -> Option<u32> {
    text.parse().ok().filter(|it: &u32| it.to_string() == text)
}

/// What a ready line tells: the epoch, and whether the log was shortened, or may be.
fn ready_of(line: &str) -> Result<(u32, bool), Fault> {
    let words: Vec<&str> = line.split_whitespace().collect();
    let told = match words[..] {
        ["ready", version @ ("1" | "2"), epoch, _] => whole(epoch).map(|it| (it, version == "2")),
        ["ready", version, ..] if whole(version) > Some(2) => return Err(Fault::Newer(whole(version).unwrap_or_default())),
        _ => None,
    };
    told.ok_or_else(|| Fault::Line(line.to_string()))
}

fn is_field(text: &str) -> bool {
    (1..=32).contains(&text.len()) && text.bytes().all(|it| matches!(it, b'a'..=b'z' | b'0'..=b'9' | b'_'))
}

fn is_key(text: &str) -> bool {
    (1..=64).contains(&text.len()) && text.bytes().all(|it| it.is_ascii_alphanumeric() || b"._-".contains(&it))
}

/// How lines name a transaction: its epoch, and its number there.
type Place = (u32, u64);

fn place(line: &str) -> Option<Place> {
    line.split_once('.').and_then(|(epoch, number)| Some((whole(epoch)?, whole(number)?.into())))
}

fn of_id(id: &str, why: &str) -> Fault {
    Fault::Id(format!("{id:?}: {why}"))
}

const UNBEGUN: &str = "no transaction of this id was begun yet";

/// The reply by which a change is refused, of those to its begin and its escrow.
fn refusal(heard: &Heard) -> Option<&String> {
    heard.replies.iter().take(2).find(|it| *it != "granted" && !it.starts_with("begun "))
}

impl Site {
    /// Starts the program over this folder, and reads `ready 1 EPOCH LENGTH`, or 2, and the line of the restart. One that hasn't
    /// told them within ten seconds is killed: [`Fault::Io`], of the kind `TimedOut`.
    pub fn start(program: &str, folder: &str) -> Result<Site, Fault> {
        Site::start_with(program, folder, &[])
    }

    /// [`Site::start`] with options of `serve`, word by word: `&["--keep", "1048576"]` lets go of the front of the log while it
    /// serves. Of one that there isn't standard error tells, and this is [`Fault::Ended`] with status 2.
    pub fn start_with(program: &str, folder: &str, options: &[&str]) -> Result<Site, Fault> {
        let it = program::start(program, folder, options)?;
        let peer = it.input.get_ref().try_clone().map_err(Fault::Io)?;
        let lines = Lines::new(it.ready.0, peer, Some(it.child), true);
        Ok(Site::new([it.world, it.number, String::new()], it.ready, lines, it.input))
    }

    /// Comes in by the door at this path (`python3 -m escrow.door FOLDER --socket PATH`), which other processes use too. Waits up
    /// to ten seconds for one that isn't there yet.
    pub fn connect(path: &str) -> Result<Site, Fault> {
        let hello = door::come_in(path, Duration::from_secs(10))?;
        let peer = hello.input.get_ref().try_clone().map_err(Fault::Io)?;
        let lines = Lines::new(hello.ready.0, peer, None, hello.is_direct);
        Ok(Site::new([hello.world, hello.number, hello.header], hello.ready, lines, hello.input))
    }

    fn new(names: [String; 3], ready: (u32, bool), lines: Arc<Lines>, input: impl BufRead + Send + 'static) -> Site {
        let ([world, number, header], (epoch, may_forget)) = (names, ready);
        let (reads, keys, open) = (lines.clone(), Mutex::default(), Mutex::default());
        let reader = Some(thread::spawn(move || reads.read(input)));
        Site { world, number, epoch, may_forget, header, limit: None, lines, reader, keys, open }
    }

    /// From now on each call has this time, and the end of this site too, which is then by force. Where more is under way than is
    /// taken, a call waits as long at most for its turn to write; where its line isn't taken in that time either, the process is
    /// killed, or the connection ends: so what is under way then is in doubt. A time of zero is none.
    pub fn with_timeout(mut self, limit: Duration) -> Site {
        self.limit = Some(limit).filter(|it| !it.is_zero());
        self.lines.limit_writes(self.limit);
        self
    }

    /// Whether the process, or the connection, hasn't ended yet, as far as is known. Not behind a fork.
    pub fn is_up(&self) -> bool {
        self.lines.of_this_process().is_ok() && self.lines.is_up()
    }

    fn end_of_call(&self) -> End {
        self.limit.and_then(|it| Instant::now().checked_add(it))
    }

    /// An id of this site, by how lines name it.
    fn id_of(&self, line: &str) -> String {
        format!("{}-{}-{line}", self.world, self.number)
    }

    /// Why nothing was answered.
    fn unanswered(&self) -> Fault {
        if self.is_up() {
            Fault::Late
        } else {
            Fault::Stopped
        }
    }

    fn check(&self, field: &str) -> Result<(), Change> {
        self.lines.of_this_process().map_err(|fault| Change::Refused(fault.to_string()))?;
        if !is_field(field) {
            return Err(Change::Refused(format!("{field:?} is no field")));
        } else if self.lines.is_door() && !self.header.contains(&format!("\"name\":\"{field}\"")) {
            return Err(Change::Refused(format!("{field}: no such field")));
        }
        Ok(())
    }

    /// A transaction of one change, below 0 to lower the field, in one trip. It is signed: refuse amounts below 1 first. A
    /// program that dies meanwhile doesn't know its id.
    pub fn change(&self, field: &str, change: i64) -> Change {
        if !self.lines.is_direct() {
            return self.begin(field, change).map_or_else(|told| told, Transaction::commit);
        // its id has to be known
        } else if let Err(told) = self.check(field) {
            return told;
        }
        let n = &self.number;
        let lines = vec![format!("{n} begin"), format!("{n} escrow # {field} {change}"), format!("{n} commit #")];
        self.changed(self.lines.ask(&format!("{n} change {field} {change}"), lines, self.end_of_call()))
    }

    /// How a change in one trip went.
    fn changed(&self, heard: Heard) -> Change {
        match refusal(&heard) {
            _ if !heard.is_taken && self.lines.is_direct() => Change::Busy,
            _ if !heard.is_taken => Change::InDoubt(String::new()), // behind a line that no door tells
            Some(reply) => Change::Refused(reply.clone()),          // the commit then changes nothing
            None if heard.replies.get(2).is_some_and(|it| it == "committed") => Change::Committed(self.id_of(&heard.id)),
            None => Change::InDoubt(self.id_of(&heard.id)),
        }
    }

    /// As [`Site::change`], with `write` called ahead of it: it writes the id into the program's own books. At the next start ask
    /// [`Site::kept`] of each id in the books that isn't known as sold: several may have been under way. What `write` fails with
    /// comes through: nothing was changed, and the id never comes again. It asks this site nothing; over a process others wait
    /// meanwhile, for their time, and over a door it costs a trip.
    pub fn change_before<E>(&self, field: &str, change: i64, write: impl FnOnce(&str) -> Result<(), E>) -> Result<Change, E> {
        if self.lines.is_door() {
            // dropped, it is aborted
            return self.begin(field, change).map_or_else(Ok, |begun| write(&begun.id).map(|()| begun.commit()));
        } else if let Err(told) = self.check(field) {
            return Ok(told);
        }
        let (n, mut written) = (&self.number, Ok(Ok(())));
        let make = |_, line: &str| {
            let begin = format!("{n} begin");
            written = catch_unwind(AssertUnwindSafe(|| write(&self.id_of(line))));
            Ok(match written {
                Ok(Ok(())) => vec![begin, format!("{n} escrow {line} {field} {change}"), format!("{n} commit {line}")],
                _ => vec![begin, format!("{n} abort {line}")], // so that no other change has this id
            })
        };
        let heard = self.lines.ask_program(1, make, self.end_of_call()).unwrap_or_else(|never: Infallible| match never {});
        written.unwrap_or_else(|panic| resume_unwind(panic))?;
        Ok(self.changed(heard))
    }

    /// As [`Site::change`], in two trips, once for each key however often it is asked for: 1 to 64 of `A-Z a-z 0-9 . _ -`, as the
    /// number of an order. The id is that of the commit that has the key, which may be an earlier one, whatever this one asks
    /// for. A key is this site's alone: another site, an older copy and a new world haven't got it. After anything but `Refused`
    /// ask for the same again, with the same key; over a door another process may be selling the same order at once: behind a
    /// `Refused` ask [`Site::kept_key`] later. The fault is `Forgotten` where the log was shortened, and may have let go of an
    /// earlier one: then nothing is committed. By `since` a new key is told from such a one: what [`Site::position`] told, and
    /// the program's own books had beside the order, before it was first asked for.
    pub fn change_by_key(&self, field: &str, change: i64, key: &str, since: Option<&str>) -> Result<Change, Fault> {
        self.key_line(key, since, None)?;
        let others = |by: fn(&mut usize)| {
            let mut keys = lock(&self.keys);
            let many = keys.entry(key.to_string()).or_default();
            by(many);
            let left = *many;
            keys.retain(|_, many| *many > 0);
            left
        };
        others(|many| *many += 1);
        let told = match self.begin(field, change) {
            Ok(begun) => begun.commit_by_key(key, since),
            Err(Change::Refused(why)) => {
                let has_others = others(|_| ()) > 1; // asked ahead of what is kept: it may commit in between
                self.kept_key(key, since).map(|kept| match kept {
                    Some(id) => Change::Committed(id),
                    None if has_others => Change::Busy,
                    None => Change::Refused(why),
                })
            }
            Err(told) => Ok(told),
        };
        others(|many| *many -= 1);
        told.or_else(|fault| if let Fault::Stopped | Fault::Late = fault { Ok(Change::Busy) } else { Err(fault) })
    }

    /// Where this site is now, for the `since` of a key: its newest transaction, or one of number 0 at its start. Write it down
    /// beside the order **before the order is first asked for**, and give that one each time. Over a door it costs a trip.
    pub fn position(&self) -> Result<String, Fault> {
        self.lines.of_this_process()?;
        if let Some(begun) = self.lines.begun() {
            return Ok(self.id_of(&format!("{}.{begun}", self.epoch)));
        }
        let heard = self.lines.ask("position", vec!["position".to_string()], self.end_of_call());
        self.id_told(heard.replies.into_iter().next().ok_or_else(|| self.unanswered())?, "")
    }

    /// How lines tell a key, with its position where the log may be shortened: older programs don't know that. The position has
    /// to be ahead of this transaction, which is to have the key, or of the next one.
    fn key_line(&self, key: &str, since: Option<&str>, own: Option<Place>) -> Result<String, Fault> {
        self.lines.of_this_process()?;
        let Some(since) = since.filter(|_| is_key(key)) else {
            return is_key(key).then(|| format!("key {key}")).ok_or_else(|| Fault::Key(key.to_string()));
        };
        let (at, own) = (self.place_of(since)?, own.unwrap_or((self.epoch, self.lines.begun().map_or(u64::MAX, |it| it + 1))));
        match self.may_forget {
            _ if at >= own => Err(of_id(since, &format!("isn't ahead of transaction {}.{}", own.0, own.1))),
            true => Ok(format!("key {key} since {}.{}", at.0, at.1)),
            false => Ok(format!("key {key}")),
        }
    }

    /// How lines name the transaction of an id, of an epoch that is begun.
    fn place_of(&self, id: &str) -> Result<Place, Fault> {
        let (front, line) = id.rsplit_once('-').unwrap_or(("", id));
        let (world, site) = front.split_once('-').unwrap_or((front, &self.number));
        let told = place(line).ok_or_else(|| of_id(id, "is no id"))?;
        if !front.is_empty() && world != self.world {
            return Err(of_id(id, "this id is of another world: look in the log and the archives of its old folder"));
        } else if site != self.number {
            return Err(of_id(id, &format!("this id is of site {site}: ask that one")));
        } else if told.0 > self.epoch {
            return Err(of_id(id, "its epoch is later than any of the log: an older log was put back"));
        }
        Ok(told)
    }

    /// Begins a transaction by its first change. A process has places for 63, and a connection for at most 32, shared with the
    /// other ones: it waits for one. The fault is how that went, never `Committed`. For one that is to commit by a key ask
    /// [`Site::kept_key`] first: this may be `Refused` for want of what an earlier one with that key has sold.
    pub fn begin(&self, field: &str, change: i64) -> Result<Transaction<'_>, Change> {
        self.check(field)?;
        let (n, end) = (&self.number, self.end_of_call());
        if !self.lines.take_place(end) {
            return Err(Change::Busy);
        }
        let mut begun = Transaction { site: self, line: String::new(), id: String::new(), is_open: false };
        let lines = vec![format!("{n} begin"), format!("{n} escrow # {field} {change}")];
        let heard = self.lines.ask(&format!("{n} open {field} {change}"), lines, end);
        if !heard.is_taken {
            return Err(Change::Busy);
        }
        (begun.id, begun.line, begun.is_open) = (self.id_of(&heard.id), heard.id.clone(), true);
        lock(&self.open).insert(heard.id.clone());
        match refusal(&heard) {
            Some(reply) => Err(Change::Refused(reply.clone())),
            None if heard.replies.len() == 2 => Ok(begun),
            None => Err(Change::Lost(begun.id.clone())),
        }
    }

    /// Whether the commit of this id is in the log: where it isn't it never will be. None where the transaction is open still, of
    /// whichever process: ask later. The fault is `Stopped` or `Late` where there was no answer, and `Forgotten` where the log
    /// was shortened, and has let go of what would tell: that isn't no. An id tells its world and its site; clients of earlier
    /// days told no site, and before that no world.
    pub fn kept(&self, id: &str) -> Result<Option<bool>, Fault> {
        self.lines.of_this_process()?;
        let at = self.place_of(id)?;
        if lock(&self.open).contains(&format!("{}.{}", at.0, at.1)) {
            return Ok(None);
        }
        let (asked, end) = (vec![format!("kept {}.{}", at.0, at.1)], self.end_of_call());
        let heard = if self.lines.is_door() {
            self.lines.ask(&asked[0].clone(), asked, end)
        } else {
            let ask = |begun, _: &str| if at > (self.epoch, begun) { Err(of_id(id, UNBEGUN)) } else { Ok(asked) };
            self.lines.ask_program(0, ask, end)?
        };
        match heard.replies.first().map(String::as_str) {
            None => Err(self.unanswered()),
            Some("open") => Ok(None),
            Some(reply @ ("yes" | "no")) => Ok(Some(reply == "yes")),
            Some("forgotten") => Err(Fault::Forgotten(id.to_string())),
            Some("unbegun") => Err(of_id(id, UNBEGUN)),
            Some(other) => Err(Fault::Line(other.to_string())),
        }
    }

    /// The id of the commit that has this key; None where none has it by now: a change under way may commit yet. The fault is
    /// `Forgotten` where the log was shortened, and may have let go of one: by `since`, as of [`Site::change_by_key`].
    pub fn kept_key(&self, key: &str, since: Option<&str>) -> Result<Option<String>, Fault> {
        let asked = format!("kept {}", self.key_line(key, since, None)?);
        let heard = self.lines.ask(&asked.clone(), vec![asked], self.end_of_call());
        match heard.replies.into_iter().next() {
            None => Err(self.unanswered()),
            Some(reply) if reply == "no" => Ok(None),
            Some(reply) if reply == "unbegun" => Err(of_id(since.unwrap_or_default(), UNBEGUN)),
            Some(reply) => self.id_told(reply, key).map(Some),
        }
    }

    /// The id that a reply tells, of the commit that has a key.
    fn id_told(&self, reply: String, key: &str) -> Result<String, Fault> {
        if reply == "forgotten" {
            return Err(Fault::Forgotten(key.to_string()));
        }
        place(&reply).map(|_| self.id_of(&reply)).ok_or(Fault::Line(reply)) // a program that doesn't know keys
    }

    /// Between which values the field lies: the least and the greatest. The fault is `Refused` where the site has no such field, and
    /// `Stopped` or `Late` where there was no answer.
    pub fn read(&self, field: &str) -> Result<(i64, i64), Fault> {
        self.look("read", "between", field)
    }

    /// How much may be sold here, and how much may be added. The fault as of [`Site::read`].
    pub fn share(&self, field: &str) -> Result<(u64, u64), Fault> {
        self.look("share", "share", field)
    }

    /// The two numbers of a reply, which stand behind this word.
    fn look<T: FromStr>(&self, what: &str, word: &str, field: &str) -> Result<(T, T), Fault> {
        self.lines.of_this_process()?;
        let field = if is_field(field) { field } else { "?" }; // one line, whatever was given
        let line = format!("{} {what} {field}", self.number);
        let heard = self.lines.ask(&line.clone(), vec![line], self.end_of_call());
        let reply = heard.replies.first().ok_or_else(|| self.unanswered())?;
        let Some(numbers) = reply.strip_prefix(word) else { return Err(Fault::Refused(reply.clone())) };
        let told: Vec<T> = numbers.split_whitespace().filter_map(|it| it.parse().ok()).collect();
        <[T; 2]>::try_from(told).map(|[first, second]| (first, second)).map_err(|_| Fault::Line(reply.clone()))
    }

    fn close(&mut self) -> Result<ExitStatus, Fault> {
        if let Err(fault) = self.lines.of_this_process() {
            std::mem::forget(self.reader.take()); // no thread of this process
            return Err(fault);
        }
        let end = self.end_of_call();
        self.lines.close(end);
        if !self.lines.is_read(end) {
            self.lines.stop();
        }
        let read = self.reader.take().map_or(Ok(()), |it| it.join().expect("the reader doesn't panic"));
        read.and(self.lines.wait(end).map_err(Fault::Io))
    }

    /// Closes the input, so that all is answered, and waits for the end: of the process, or of the connection, whose status is 0.
    /// The fault is [`Fault::Ended`] where the process was killed, or has ended with another status.
    pub fn end(mut self) -> Result<ExitStatus, Fault> {
        let status = self.close()?;
        if status.success() {
            Ok(status)
        } else {
            Err(Fault::Ended(status))
        }
    }
}

impl Drop for Site {
    fn drop(&mut self) {
        let _ = self.close();
    }
}

/// A transaction that is open: what it sets aside is committed together. One that is dropped is aborted, and so is that of a
/// process that dies.
#[must_use = "one that is dropped is aborted"]
pub struct Transaction<'a> {
    site: &'a Site,
    line: String,
    id: String,
    is_open: bool,
}

impl Transaction<'_> {
    /// Its id, to be written into the program's own books ahead of the commit: [`Site::kept`] tells of it later.
    pub fn id(&self) -> &str {
        &self.id
    }

    /// Sets aside another change. The fault is `Refused`, by which the transaction stays open, or `Lost`.
    pub fn change(&mut self, field: &str, change: i64) -> Result<(), Change> {
        self.site.check(field)?;
        let line = format!("{} escrow {} {field} {change}", self.site.number, self.line);
        let heard = self.site.lines.ask(&line.clone(), vec![line], self.site.end_of_call());
        match heard.replies.first() {
            Some(reply) if reply == "granted" => Ok(()),
            Some(reply) => Err(Change::Refused(reply.clone())),
            None => Err(Change::Lost(self.take_back())),
        }
    }

    /// Aborts it, where it is open still: its id.
    fn take_back(&mut self) -> String {
        if self.is_open {
            self.is_open = false;
            self.site.lines.tell(format!("{} abort {}", self.site.number, self.line));
        }
        self.id.clone()
    }

    /// Makes its changes permanent.
    pub fn commit(self) -> Change {
        self.commit_with(None).unwrap_or_else(|fault| Change::Refused(fault.to_string()))
    }

    /// As `commit`, once for each key, which is asked of by [`Site::kept_key`] ahead of the transaction: where a commit with the
    /// key is kept already nothing is changed, what was set aside comes back, and the id is that of the earlier one. The fault is
    /// `Forgotten` where the log may have let go of that; `since` is as of [`Site::change_by_key`], from before this transaction
    /// began.
    pub fn commit_by_key(self, key: &str, since: Option<&str>) -> Result<Change, Fault> {
        let told = self.site.key_line(key, since, place(&self.line))?;
        self.commit_with(Some((key, told)))
    }

    fn commit_with(mut self, key: Option<(&str, String)>) -> Result<Change, Fault> {
        self.site.lines.of_this_process()?;
        let (site, id) = (self.site, self.id.clone());
        if !self.is_open {
            return Ok(Change::Lost(id));
        }
        let (commit, abort) = (format!("{} commit {}", site.number, self.line), format!("{} abort {}", site.number, self.line));
        let lines = match &key {
            None => vec![commit],
            Some((_, told)) if site.lines.is_door() => vec![format!("{commit} {told}")], // it aborts by itself
            Some((_, told)) => vec![format!("{commit} {told}"), abort],
        };
        let heard = site.lines.ask(&lines[0].clone(), lines, site.end_of_call());
        self.is_open = !heard.is_taken; // dropped, it is aborted
        match heard.replies.into_iter().next() {
            Some(reply) if reply == "committed" => Ok(Change::Committed(id)),
            Some(reply) if key.is_none() || reply.starts_with("refused ") => Ok(Change::Refused(reply)),
            Some(reply) => site.id_told(reply, key.map_or("", |it| it.0)).map(Change::Committed),
            None if heard.is_taken || !site.lines.is_direct() => Ok(Change::InDoubt(id)),
            None => Ok(Change::Lost(id)),
        }
    }

    /// Gives back what it has set aside.
    pub fn abort(self) {}
}

impl Drop for Transaction<'_> {
    fn drop(&mut self) {
        if self.site.lines.of_this_process().is_err() {
            return;
        }
        self.take_back();
        lock(&self.site.open).remove(&self.line); // its end was written before this
        self.site.lines.give_place();
    }
}
