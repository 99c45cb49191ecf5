//! The same lines answered by plain Rust with nothing proved: a world of sites with rights, open
//! transactions, ledgers, a log of records in memory, and histories of every command with its reply.
//!
//! With the argument `audit` it audits such answers. Built by `rustc -O plain.rs`. The header is read only in the form in which bench.py writes it.

mod audit;
mod desk;

use std::collections::HashMap;
use std::fmt::{self, Write as _};
use std::io::{self, BufRead, BufReader, BufWriter, Read, Write};

const MAX_CHANGE: u64 = 2_000_000_000_000_000;
const MAX_TOTAL: u64 = 1_000_000_000_000_000_000;
const MAX_NUMBER: u32 = 1_000_000_000;

#[derive(Clone, Copy, PartialEq, Eq)]
struct TxnId {
    epoch: u32,
    number: u32,
}

#[derive(Clone, Copy)]
struct Statement {
    from: u16,
    to: u16,
    field: u16,
    kind: usize,
    total: u64,
}

#[derive(Clone, Copy)]
enum Command {
    Begin,
    Escrow { txn: TxnId, field: u16, change: i64 },
    Commit { txn: TxnId },
    Abort { txn: TxnId },
    Give { to: u16, field: u16, kind: usize, amount: u64 },
    Restate { to: u16, field: u16, kind: usize },
    Tighten { field: u16, kind: usize, amount: u64 },
    Accept(Statement),
    Read { field: u16 },
    Share { field: u16 },
    Restart,
}

#[derive(Clone, Copy, PartialEq)]
enum Last {
    Nothing,
    Kept,
    Lost,
}

#[derive(Clone, Copy, PartialEq)]
enum Reply {
    Begun(TxnId),
    Granted,
    Committed,
    Aborted,
    Given { total: u64 },
    Stated { total: u64 },
    Tightened { total: u64 },
    Accepted { gain: u64 },
    Between { lo: i64, hi: i64 },
    Shares { lower: u64, raise: u64 },
    Restarted { epoch: u32, last: Last },
    Unsure,
    StillDown,
    Refused(Refusal),
}

#[derive(Clone, Copy, PartialEq)]
enum Refusal {
    Down,
    NoSite,
    NoField,
    NoTransaction,
    Zero,
    TooLarge,
    Short { share: u64 },
    SelfGift,
    LedgerFull { total: u64 },
    NotYours,
    Forged { room: u64 },
    TooManyOpen,
    TooManyEscrows,
    NumbersFull,
    NothingGiven,
}

impl fmt::Display for Refusal {
    fn fmt(&self, f: &mut fmt::Formatter<'_>) -> fmt::Result {
        match self {
            Refusal::Down => write!(f, "1 down"),
            Refusal::NoSite => write!(f, "2 no site"),
            Refusal::NoField => write!(f, "3 no field"),
            Refusal::NoTransaction => write!(f, "4 no transaction"),
            Refusal::Zero => write!(f, "5 zero"),
            Refusal::TooLarge => write!(f, "6 too large"),
            Refusal::Short { share } => write!(f, "7 short {share}"),
            Refusal::SelfGift => write!(f, "8 self gift"),
            Refusal::LedgerFull { total } => write!(f, "9 ledger full {total}"),
            Refusal::NotYours => write!(f, "10 not yours"),
            Refusal::Forged { room } => write!(f, "11 forged {room}"),
            Refusal::TooManyOpen => write!(f, "12 too many open"),
            Refusal::TooManyEscrows => write!(f, "13 too many escrows"),
            Refusal::NumbersFull => write!(f, "14 numbers full"),
            Refusal::NothingGiven => write!(f, "15 nothing given"),
        }
    }
}

impl fmt::Display for Reply {
    fn fmt(&self, f: &mut fmt::Formatter<'_>) -> fmt::Result {
        match self {
            Reply::Begun(txn) => write!(f, "begun {}.{}", txn.epoch, txn.number),
            Reply::Granted => write!(f, "granted"),
            Reply::Committed => write!(f, "committed"),
            Reply::Aborted => write!(f, "aborted"),
            Reply::Given { total } => write!(f, "given {total}"),
            Reply::Stated { total } => write!(f, "stated {total}"),
            Reply::Tightened { total } => write!(f, "tightened {total}"),
            Reply::Accepted { gain } => write!(f, "accepted {gain}"),
            Reply::Between { lo, hi } => write!(f, "between {lo} {hi}"),
            Reply::Shares { lower, raise } => write!(f, "share {lower} {raise}"),
            Reply::Restarted { epoch, last } => {
                let word = match last {
                    Last::Nothing => "nothing",
                    Last::Kept => "kept",
                    Last::Lost => "lost",
                };
                write!(f, "restarted {epoch} {word}")
            }
            Reply::Unsure => write!(f, "unsure"),
            Reply::StillDown => write!(f, "still down"),
            Reply::Refused(refusal) => write!(f, "refused {refusal}"),
        }
    }
}

#[allow(dead_code)]
#[derive(Clone, Copy)]
struct Entry {
    site: u16,
    command: Command,
    reply: Reply,
}

struct Field {
    name: String,
    floor: i64,
    ceiling: i64,
    value: i64,
}

struct Schema {
    sites: u16,
    fields: Vec<Field>,
    places: HashMap<String, u16>,
}

impl Schema {
    fn part(&self, site: u16, field: &Field, kind: usize) -> u64 {
        let total = if kind == 0 {
            field.value.abs_diff(field.floor)
        } else {
            field.ceiling.abs_diff(field.value)
        };
        let sites = u64::from(self.sites);
        total / sites + u64::from(u64::from(site) < total % sites)
    }
}

/// The free and held rights of the two kinds on a field, lowering first, and those given up for good.
#[derive(Clone, Copy, Default)]
struct Rights {
    free: [u64; 2],
    held: [u64; 2],
    cut: [u64; 2],
}

impl Rights {
    fn guarded(&self, kind: usize) -> u64 {
        self.cut[kind] + self.free[kind] + self.held[kind]
    }
}

/// The totals given to and accepted from one other site, of the two kinds on a field.
#[derive(Clone, Copy, Default)]
struct Account {
    given: [u64; 2],
    accepted: [u64; 2],
}

struct Site {
    number: u16,
    rights: Vec<Rights>,
    accounts: Vec<Vec<Account>>,
    open: Vec<(TxnId, Vec<(u16, i64)>)>,
    epoch: u32,
    last: u32,
    up: bool,
    doubt: Option<usize>,
    records: usize,
    log: Vec<u8>,
    line: String,
    history: Vec<Entry>,
}

impl Site {
    fn new(schema: &Schema, number: u16) -> Site {
        let mut site = Site {
            number,
            rights: Vec::new(),
            accounts: Vec::new(),
            open: Vec::new(),
            epoch: 0,
            last: 0,
            up: true,
            doubt: None,
            records: 0,
            log: Vec::new(),
            line: String::new(),
            history: Vec::new(),
        };
        site.reset(schema);
        site
    }

    fn reset(&mut self, schema: &Schema) {
        self.rights.clear();
        for field in &schema.fields {
            let free = [0, 1].map(|kind| schema.part(self.number, field, kind));
            self.rights.push(Rights { free, ..Rights::default() });
        }
        self.accounts.clear();
        for _ in 0..schema.sites {
            self.accounts.push(vec![Account::default(); schema.fields.len()]);
        }
        self.open.clear();
        self.epoch = 0;
        self.last = 0;
    }

    /// Adds the record in `line`, or a front of it.
    fn append(&mut self, torn: Option<u64>) -> bool {
        let bytes = self.line.as_bytes();
        match torn {
            None => {
                self.log.extend_from_slice(bytes);
                self.records += 1;
                true
            }
            Some(kept) => {
                let kept = usize::try_from(kept).unwrap_or(usize::MAX).min(bytes.len());
                self.log.extend_from_slice(&bytes[..kept]);
                false
            }
        }
    }

    fn unsure(&mut self) -> Reply {
        self.up = false;
        self.doubt = Some(self.records);
        Reply::Unsure
    }

    fn apply(&mut self, schema: &Schema, command: Command, torn: Option<u64>) -> Reply {
        let reply = match self.reply(schema, command, torn) {
            Ok(reply) => reply,
            Err(refusal) => Reply::Refused(refusal),
        };
        self.history.push(Entry {
            site: self.number,
            command,
            reply,
        });
        reply
    }

    fn reply(&mut self, schema: &Schema, command: Command, torn: Option<u64>) -> Result<Reply, Refusal> {
        if let Command::Restart = command {
            return self.restart(schema, torn);
        }
        if !self.up {
            return Err(Refusal::Down);
        }
        match command {
            Command::Begin if self.open.len() >= 64 => Err(Refusal::TooManyOpen),
            Command::Begin if self.last >= MAX_NUMBER => Err(Refusal::NumbersFull),
            Command::Begin => {
                self.last += 1;
                let txn = TxnId {
                    epoch: self.epoch,
                    number: self.last,
                };
                self.open.push((txn, Vec::new()));
                Ok(Reply::Begun(txn))
            }
            Command::Escrow { txn, field, change } => self.escrow(txn, field, change),
            Command::Commit { txn } => self.commit(txn, torn),
            Command::Abort { txn } => {
                let place = self.place(txn)?;
                let (_, escrows) = self.open.remove(place);
                self.end(&escrows, false);
                Ok(Reply::Aborted)
            }
            Command::Give { to, field, kind, amount } => self.give(to, field, kind, amount, torn),
            Command::Restate { to, field, kind } => {
                let account = self.account(to, field)?;
                if to == self.number {
                    return Err(Refusal::SelfGift);
                }
                match account.given[kind] {
                    0 => Err(Refusal::NothingGiven),
                    total => Ok(Reply::Stated { total }),
                }
            }
            Command::Tighten { field, kind, amount } => self.tighten(field, kind, amount, torn),
            Command::Accept(told) => self.accept(schema, told, torn),
            Command::Read { field } => {
                let rights = self.rights.get(usize::from(field)).ok_or(Refusal::NoField)?;
                let bounds = &schema.fields[usize::from(field)];
                Ok(Reply::Between {
                    lo: bounds.floor + rights.guarded(0) as i64,
                    hi: bounds.ceiling - rights.guarded(1) as i64,
                })
            }
            Command::Share { field } => {
                let rights = self.rights.get(usize::from(field)).ok_or(Refusal::NoField)?;
                Ok(Reply::Shares {
                    lower: rights.free[0],
                    raise: rights.free[1],
                })
            }
            Command::Restart => unreachable!(),
        }
    }

    fn place(&self, txn: TxnId) -> Result<usize, Refusal> {
        let place = self.open.iter().position(|(id, _)| *id == txn);
        place.ok_or(Refusal::NoTransaction)
    }

    fn account(&self, site: u16, field: u16) -> Result<Account, Refusal> {
        let accounts = self.accounts.get(usize::from(site)).ok_or(Refusal::NoSite)?;
        accounts.get(usize::from(field)).copied().ok_or(Refusal::NoField)
    }

    fn escrow(&mut self, txn: TxnId, field: u16, change: i64) -> Result<Reply, Refusal> {
        if usize::from(field) >= self.rights.len() {
            return Err(Refusal::NoField);
        }
        let place = self.place(txn)?;
        let rights = &mut self.rights[usize::from(field)];
        let escrows = &mut self.open[place].1;
        let amount = change.unsigned_abs();
        let kind = usize::from(change > 0);
        let share = rights.free[kind];
        if amount == 0 {
            Err(Refusal::Zero)
        } else if amount > MAX_CHANGE {
            Err(Refusal::TooLarge)
        } else if amount > share {
            Err(Refusal::Short { share })
        } else if escrows.len() >= 16 {
            Err(Refusal::TooManyEscrows)
        } else {
            rights.free[kind] -= amount;
            rights.held[kind] += amount;
            escrows.push((field, change));
            Ok(Reply::Granted)
        }
    }

    fn end(&mut self, escrows: &[(u16, i64)], commits: bool) {
        for (field, change) in escrows {
            let rights = &mut self.rights[usize::from(*field)];
            let kind = usize::from(*change > 0);
            let amount = change.unsigned_abs();
            rights.held[kind] -= amount;
            rights.free[if commits { 1 - kind } else { kind }] += amount;
        }
    }

    fn commit(&mut self, txn: TxnId, torn: Option<u64>) -> Result<Reply, Refusal> {
        let place = self.place(txn)?;
        if !self.open[place].1.is_empty() {
            self.line.clear();
            let _ = write!(self.line, "C {} {}", txn.epoch, txn.number);
            for (field, change) in &self.open[place].1 {
                let _ = write!(self.line, " {field} {change}");
            }
            self.line.push('\n');
            if !self.append(torn) {
                return Ok(self.unsure());
            }
        }
        let (_, escrows) = self.open.remove(place);
        self.end(&escrows, true);
        Ok(Reply::Committed)
    }

    fn note(&mut self, letter: char, other: u16, field: u16, kind: usize, total: u64) {
        self.line.clear();
        let word = ['l', 'r'][kind];
        let _ = writeln!(self.line, "{letter} {other} {field} {word} {total}");
    }

    fn give(&mut self, to: u16, field: u16, kind: usize, amount: u64, torn: Option<u64>) -> Result<Reply, Refusal> {
        let total = self.account(to, field)?.given[kind];
        let share = self.rights[usize::from(field)].free[kind];
        if amount == 0 {
            return Err(Refusal::Zero);
        } else if amount > MAX_CHANGE {
            return Err(Refusal::TooLarge);
        } else if amount > share {
            return Err(Refusal::Short { share });
        } else if to == self.number {
            return Err(Refusal::SelfGift);
        } else if total + amount > MAX_TOTAL {
            return Err(Refusal::LedgerFull { total });
        }
        let total = total + amount;
        self.note('G', to, field, kind, total);
        if !self.append(torn) {
            return Ok(self.unsure());
        }
        self.accounts[usize::from(to)][usize::from(field)].given[kind] = total;
        self.rights[usize::from(field)].free[kind] -= amount;
        Ok(Reply::Given { total })
    }

    fn tighten(&mut self, field: u16, kind: usize, amount: u64, torn: Option<u64>) -> Result<Reply, Refusal> {
        let rights = self.rights.get(usize::from(field)).ok_or(Refusal::NoField)?;
        let share = rights.free[kind];
        if amount == 0 {
            return Err(Refusal::Zero);
        } else if amount > MAX_CHANGE {
            return Err(Refusal::TooLarge);
        } else if amount > share {
            return Err(Refusal::Short { share });
        }
        let total = rights.cut[kind] + amount;
        self.line.clear();
        let word = ['l', 'r'][kind];
        let _ = writeln!(self.line, "T {field} {word} {total}");
        if !self.append(torn) {
            return Ok(self.unsure());
        }
        let rights = &mut self.rights[usize::from(field)];
        rights.cut[kind] = total;
        rights.free[kind] -= amount;
        Ok(Reply::Tightened { total })
    }

    fn accept(&mut self, schema: &Schema, told: Statement, torn: Option<u64>) -> Result<Reply, Refusal> {
        let account = self.account(told.from, told.field)?;
        if told.to >= schema.sites {
            return Err(Refusal::NoSite);
        } else if told.total == 0 {
            return Err(Refusal::Zero);
        } else if told.total > MAX_TOTAL {
            return Err(Refusal::TooLarge);
        } else if told.from == self.number {
            return Err(Refusal::SelfGift);
        } else if told.to != self.number {
            return Err(Refusal::NotYours);
        }
        let gain = told.total.saturating_sub(account.accepted[told.kind]);
        let rights = self.rights[usize::from(told.field)];
        let bounds = &schema.fields[usize::from(told.field)];
        let room = bounds.ceiling.abs_diff(bounds.floor) - rights.guarded(0) - rights.guarded(1);
        if gain > room {
            return Err(Refusal::Forged { room });
        }
        if gain > 0 {
            self.note('A', told.from, told.field, told.kind, told.total);
            if !self.append(torn) {
                return Ok(self.unsure());
            }
            self.accounts[usize::from(told.from)][usize::from(told.field)].accepted[told.kind] = told.total;
            self.rights[usize::from(told.field)].free[told.kind] += gain;
        }
        Ok(Reply::Accepted { gain })
    }

    fn restart(&mut self, schema: &Schema, torn: Option<u64>) -> Result<Reply, Refusal> {
        let log = std::mem::take(&mut self.log);
        let whole = log.iter().rposition(|byte| *byte == b'\n').map_or(0, |place| place + 1);
        let text = str::from_utf8(&log[..whole]).unwrap();
        self.reset(schema);
        let mut last = match self.doubt {
            None => Last::Nothing,
            Some(_) => Last::Lost,
        };
        let mut records = 0;
        for line in text.lines() {
            if self.doubt == Some(records) && !line.starts_with('R') {
                last = Last::Kept;
            }
            self.take_in(line);
            records += 1;
        }
        self.log = log;
        if self.epoch >= MAX_NUMBER {
            return Err(Refusal::NumbersFull);
        }
        self.log.truncate(whole);
        self.records = records;
        self.line.clear();
        let _ = writeln!(self.line, "R {}", self.epoch + 1);
        if !self.append(torn) {
            self.up = false;
            return Ok(Reply::StillDown);
        }
        self.epoch += 1;
        self.up = true;
        self.doubt = None;
        let epoch = self.epoch;
        Ok(Reply::Restarted { epoch, last })
    }

    fn take_in(&mut self, line: &str) {
        let mut words = line.split(' ');
        let letter = words.next().unwrap();
        let mut next = || words.next();
        match letter {
            "C" => {
                next();
                next();
                while let Some(field) = next() {
                    let field: usize = field.parse().unwrap();
                    let change: i64 = next().unwrap().parse().unwrap();
                    let kind = usize::from(change > 0);
                    let rights = &mut self.rights[field];
                    rights.free[kind] -= change.unsigned_abs();
                    rights.free[1 - kind] += change.unsigned_abs();
                }
            }
            "R" => self.epoch = next().unwrap().parse().unwrap(),
            "T" => {
                let field: usize = next().unwrap().parse().unwrap();
                let kind = usize::from(next() == Some("r"));
                let total: u64 = next().unwrap().parse().unwrap();
                let rights = &mut self.rights[field];
                rights.free[kind] -= total - rights.cut[kind];
                rights.cut[kind] = total;
            }
            _ => {
                let other: usize = next().unwrap().parse().unwrap();
                let field: usize = next().unwrap().parse().unwrap();
                let kind = usize::from(next() == Some("r"));
                let total: u64 = next().unwrap().parse().unwrap();
                let account = &mut self.accounts[other][field];
                if letter == "G" {
                    self.rights[field].free[kind] -= total - account.given[kind];
                    account.given[kind] = total;
                } else {
                    self.rights[field].free[kind] += total - account.accepted[kind];
                    account.accepted[kind] = total;
                }
            }
        }
    }
}

/// A number with one spelling: digits with no leading zero.
fn number(word: &str) -> Option<u64> {
    let is_plain = word.bytes().all(|byte| byte.is_ascii_digit());
    if !is_plain || (word.len() > 1 && word.starts_with('0')) {
        return None;
    }
    word.parse().ok()
}

fn signed(word: &str) -> Option<i64> {
    number(word.strip_prefix('-').unwrap_or(word))?;
    if word == "-0" { None } else { word.parse().ok() }
}

fn small(word: &str) -> Option<u16> {
    u16::try_from(number(word)?).ok()
}

fn txn(word: &str) -> Option<TxnId> {
    let (epoch, number_word) = word.split_once('.')?;
    Some(TxnId {
        epoch: u32::try_from(number(epoch)?).ok()?,
        number: u32::try_from(number(number_word)?).ok()?,
    })
}

fn kind(word: &str) -> Option<usize> {
    match word {
        "lower" => Some(0),
        "raise" => Some(1),
        _ => None,
    }
}

fn field(schema: &Schema, word: &str) -> Option<u16> {
    match word.strip_prefix('#') {
        Some(digits) => small(digits).filter(|place| usize::from(*place) >= schema.fields.len()),
        None => schema.places.get(word).copied(),
    }
}

enum Step {
    Do(u16, Command),
    Deliver(u64),
}

/// The step of a line, how the append goes by luck, and how long the line is without its luck.
fn step(schema: &Schema, line: &str) -> Option<(Step, Option<u64>, usize)> {
    let mut words = line.split(' ');
    let first = words.next()?;
    let step = if first == "deliver" {
        Step::Deliver(number(words.next()?)?)
    } else {
        let site = small(first).filter(|site| *site < schema.sites)?;
        let command = command(schema, &mut words).filter(|asked| !matches!(asked, Command::Accept(_)))?;
        Step::Do(site, command)
    };
    match words.next() {
        None => Some((step, None, line.len())),
        Some("torn") => {
            let word = words.next()?;
            let torn = number(word)?;
            if words.next().is_some() {
                return None;
            }
            Some((step, Some(torn), line.len() - " torn ".len() - word.len()))
        }
        Some(_) => None,
    }
}

fn command<'a>(schema: &Schema, words: &mut impl Iterator<Item = &'a str>) -> Option<Command> {
    Some(match words.next()? {
        "begin" => Command::Begin,
        "escrow" => Command::Escrow {
            txn: txn(words.next()?)?,
            field: field(schema, words.next()?)?,
            change: signed(words.next()?)?,
        },
        "commit" => Command::Commit {
            txn: txn(words.next()?)?,
        },
        "abort" => Command::Abort {
            txn: txn(words.next()?)?,
        },
        "give" => Command::Give {
            to: small(words.next()?)?,
            field: field(schema, words.next()?)?,
            kind: kind(words.next()?)?,
            amount: number(words.next()?)?,
        },
        "restate" => Command::Restate {
            to: small(words.next()?)?,
            field: field(schema, words.next()?)?,
            kind: kind(words.next()?)?,
        },
        "tighten" => Command::Tighten {
            field: field(schema, words.next()?)?,
            kind: kind(words.next()?)?,
            amount: number(words.next()?)?,
        },
        "accept" => Command::Accept(Statement {
            from: small(words.next()?)?,
            to: small(words.next()?)?,
            field: field(schema, words.next()?)?,
            kind: kind(words.next()?)?,
            total: number(words.next()?)?,
        }),
        "read" => Command::Read {
            field: field(schema, words.next()?)?,
        },
        "share" => Command::Share {
            field: field(schema, words.next()?)?,
        },
        "restart" => Command::Restart,
        _ => return None,
    })
}

/// What stands behind a key, up to the next comma or brace.
fn member<'a>(text: &'a str, key: &str) -> Option<&'a str> {
    let (_, behind) = text.split_once(&format!("\"{key}\":"))?;
    behind.split([',', '}']).next()
}

fn schema(header: &str) -> Option<Schema> {
    let mut fields = Vec::new();
    for part in header.split("{\"name\"").skip(1) {
        fields.push(Field {
            name: part.split('"').nth(1)?.to_string(),
            floor: member(part, "floor")?.parse().ok()?,
            ceiling: member(part, "ceiling")?.parse().ok()?,
            value: member(part, "value")?.parse().ok()?,
        });
    }
    let places = fields.iter().zip(0..).map(|(field, place)| (field.name.clone(), place)).collect();
    Some(Schema {
        sites: member(header, "sites")?.parse().ok()?,
        fields,
        places,
    })
}

struct World {
    schema: Schema,
    sites: Vec<Site>,
    trace: Vec<Entry>,
    issued: Vec<Statement>,
}

impl World {
    fn new(schema: Schema) -> World {
        World {
            sites: (0..schema.sites).map(|number| Site::new(&schema, number)).collect(),
            schema,
            trace: Vec::new(),
            issued: Vec::new(),
        }
    }

    fn apply(&mut self, site: u16, command: Command, torn: Option<u64>) -> Reply {
        let reply = self.sites[usize::from(site)].apply(&self.schema, command, torn);
        self.trace.push(Entry { site, command, reply });
        let told = match (command, reply) {
            (Command::Give { to, field, kind, .. }, Reply::Given { total })
            | (Command::Restate { to, field, kind }, Reply::Stated { total }) => Some((to, field, kind, total)),
            _ => None,
        };
        if let Some((to, field, kind, total)) = told {
            let from = site;
            self.issued.push(Statement { from, to, field, kind, total });
        }
        reply
    }

    fn answer(&mut self, line: &str, writer: &mut impl Write) -> io::Result<()> {
        match step(&self.schema, line) {
            None => writeln!(writer, "bad line"),
            Some((Step::Do(site, command), torn, length)) => {
                let reply = self.apply(site, command, torn);
                writeln!(writer, "{} -> {reply}", &line[..length])
            }
            Some((Step::Deliver(which), torn, _)) => {
                let place = usize::try_from(which).unwrap_or(usize::MAX).checked_sub(1);
                let Some(told) = place.and_then(|place| self.issued.get(place)).copied() else {
                    return writeln!(writer, "deliver {which} -> refused 16 no statement");
                };
                let reply = self.apply(told.to, Command::Accept(told), torn);
                let Statement { from, to, field, kind, total } = told;
                let name = &self.schema.fields[usize::from(field)].name;
                let word = ["lower", "raise"][kind];
                writeln!(writer, "{to} accept {from} {to} {name} {word} {total} -> {reply}")
            }
        }
    }
}

fn run(reader: impl Read, writer: impl Write) -> io::Result<()> {
    let mut reader = BufReader::with_capacity(65_536, reader);
    let mut writer = BufWriter::with_capacity(65_536, writer);
    let mut line = Vec::new();
    reader.read_until(b'\n', &mut line)?;
    writer.write_all(&line)?;
    let header = str::from_utf8(&line).ok().and_then(schema);
    let mut world = World::new(header.ok_or(io::ErrorKind::InvalidData)?);
    loop {
        line.clear();
        if reader.read_until(b'\n', &mut line)? == 0 {
            return writer.flush();
        }
        let bytes = line.strip_suffix(b"\n").unwrap_or(&line);
        match str::from_utf8(bytes).ok().filter(|text| text.len() <= 256) {
            Some(text) => world.answer(text, &mut writer)?,
            None => writeln!(writer, "bad line")?,
        }
    }
}

fn main() -> io::Result<()> {
    let (reader, writer) = (io::stdin().lock(), io::stdout().lock());
    let words: Vec<String> = std::env::args().skip(1).collect();
    match words.split_first() {
        Some((first, rest)) if first == "desk" => desk::run(rest, writer),
        Some((first, _)) if first == "audit" => audit::run(reader, writer),
        _ => run(reader, writer),
    }
}
