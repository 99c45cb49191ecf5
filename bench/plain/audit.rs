//! The audit of such answers by plain Rust with nothing proved: the entries are read and kept, and then
//! judged in one pass by running totals. It tells an entry that its site doesn't owe, or that accepts
//! what wasn't issued, and not which rule it breaks first.

use super::*;
use std::collections::HashSet;

/// What one site stands on after its entries so far.
struct Standing {
    number: u16,
    rights: Vec<Rights>,
    accounts: Vec<Vec<Account>>,
    open: Vec<(TxnId, Vec<(u16, i64)>)>,
    epoch: u32,
    last: u32,
    stills: u32,
    up: bool,
    doubt: Option<Command>,
}

impl Standing {
    fn new(schema: &Schema, number: u16) -> Standing {
        let fields = schema.fields.iter();
        let rights = fields.map(|field| Rights {
            free: [0, 1].map(|kind| schema.part(number, field, kind)),
            ..Rights::default()
        });
        Standing {
            number,
            rights: rights.collect(),
            accounts: vec![vec![Account::default(); schema.fields.len()]; usize::from(schema.sites)],
            open: Vec::new(),
            epoch: 0,
            last: 0,
            stills: 0,
            up: true,
            doubt: None,
        }
    }

    fn place(&self, txn: TxnId) -> Option<usize> {
        self.open.iter().position(|(id, _)| *id == txn)
    }

    fn short(&self, field: u16, kind: usize, amount: u64) -> Result<(), Refusal> {
        let share = self.rights[usize::from(field)].free[kind];
        match amount {
            0 => Err(Refusal::Zero),
            _ if amount > MAX_CHANGE => Err(Refusal::TooLarge),
            _ if amount > share => Err(Refusal::Short { share }),
            _ => Ok(()),
        }
    }

    fn is_known(&self, site: u16, field: u16) -> Result<(), Refusal> {
        if usize::from(site) >= self.accounts.len() {
            return Err(Refusal::NoSite);
        }
        self.is_field(field)
    }

    fn is_field(&self, field: u16) -> Result<(), Refusal> {
        if usize::from(field) >= self.rights.len() {
            return Err(Refusal::NoField);
        }
        Ok(())
    }

    /// The answer that is owed, where the append is whole.
    fn answer(&self, schema: &Schema, command: Command) -> Result<Reply, Refusal> {
        if !self.up {
            return Err(Refusal::Down);
        }
        match command {
            Command::Begin if self.open.len() >= 64 => Err(Refusal::TooManyOpen),
            Command::Begin if self.last >= MAX_NUMBER => Err(Refusal::NumbersFull),
            Command::Begin => Ok(Reply::Begun(TxnId {
                epoch: self.epoch,
                number: self.last + 1,
            })),
            Command::Escrow { txn, field, change } => {
                self.is_field(field)?;
                let place = self.place(txn).ok_or(Refusal::NoTransaction)?;
                self.short(field, usize::from(change > 0), change.unsigned_abs())?;
                if self.open[place].1.len() >= 16 {
                    return Err(Refusal::TooManyEscrows);
                }
                Ok(Reply::Granted)
            }
            Command::Commit { txn } => self.place(txn).map(|_| Reply::Committed).ok_or(Refusal::NoTransaction),
            Command::Abort { txn } => self.place(txn).map(|_| Reply::Aborted).ok_or(Refusal::NoTransaction),
            Command::Give { to, field, kind, amount } => {
                self.is_known(to, field)?;
                self.short(field, kind, amount)?;
                let total = self.accounts[usize::from(to)][usize::from(field)].given[kind];
                if to == self.number {
                    return Err(Refusal::SelfGift);
                } else if total + amount > MAX_TOTAL {
                    return Err(Refusal::LedgerFull { total });
                }
                Ok(Reply::Given { total: total + amount })
            }
            Command::Restate { to, field, kind } => {
                self.is_known(to, field)?;
                if to == self.number {
                    return Err(Refusal::SelfGift);
                }
                match self.accounts[usize::from(to)][usize::from(field)].given[kind] {
                    0 => Err(Refusal::NothingGiven),
                    total => Ok(Reply::Stated { total }),
                }
            }
            Command::Tighten { field, kind, amount } => {
                self.is_field(field)?;
                self.short(field, kind, amount)?;
                let total = self.rights[usize::from(field)].cut[kind] + amount;
                Ok(Reply::Tightened { total })
            }
            Command::Accept(told) => self.gain(schema, told),
            Command::Read { field } => {
                self.is_field(field)?;
                let (rights, bounds) = (&self.rights[usize::from(field)], &schema.fields[usize::from(field)]);
                Ok(Reply::Between {
                    lo: bounds.floor + rights.guarded(0) as i64,
                    hi: bounds.ceiling - rights.guarded(1) as i64,
                })
            }
            Command::Share { field } => {
                self.is_field(field)?;
                let [lower, raise] = self.rights[usize::from(field)].free;
                Ok(Reply::Shares { lower, raise })
            }
            Command::Restart => unreachable!(),
        }
    }

    fn gain(&self, schema: &Schema, told: Statement) -> Result<Reply, Refusal> {
        self.is_known(told.from.max(told.to), told.field)?;
        if told.total == 0 {
            return Err(Refusal::Zero);
        } else if told.total > MAX_TOTAL {
            return Err(Refusal::TooLarge);
        } else if told.from == self.number {
            return Err(Refusal::SelfGift);
        } else if told.to != self.number {
            return Err(Refusal::NotYours);
        }
        let account = self.accounts[usize::from(told.from)][usize::from(told.field)];
        let gain = told.total.saturating_sub(account.accepted[told.kind]);
        let rights = &self.rights[usize::from(told.field)];
        let bounds = &schema.fields[usize::from(told.field)];
        let room = bounds.ceiling.abs_diff(bounds.floor) - rights.guarded(0) - rights.guarded(1);
        if gain > room {
            return Err(Refusal::Forged { room });
        }
        Ok(Reply::Accepted { gain })
    }

    fn writes(&self, command: Command, answer: Reply) -> bool {
        match (command, answer) {
            (Command::Commit { txn }, _) => self.place(txn).is_some_and(|place| !self.open[place].1.is_empty()),
            (_, Reply::Given { .. } | Reply::Tightened { .. }) => true,
            (_, Reply::Accepted { gain }) => gain > 0,
            _ => false,
        }
    }

    /// Lets a command with this answer take effect.
    fn take(&mut self, command: Command, answer: Reply) {
        match (command, answer) {
            (_, Reply::Begun(txn)) => {
                self.last += 1;
                self.open.push((txn, Vec::new()));
            }
            (Command::Escrow { txn, field, change }, _) => {
                let place = self.place(txn).unwrap();
                self.open[place].1.push((field, change));
                let rights = &mut self.rights[usize::from(field)];
                rights.free[usize::from(change > 0)] -= change.unsigned_abs();
                rights.held[usize::from(change > 0)] += change.unsigned_abs();
            }
            (Command::Commit { txn } | Command::Abort { txn }, _) => {
                let place = self.place(txn).unwrap();
                let (_, escrows) = self.open.remove(place);
                self.end(&escrows, matches!(command, Command::Commit { .. }));
            }
            (Command::Give { to, field, kind, amount }, _) => {
                self.accounts[usize::from(to)][usize::from(field)].given[kind] += amount;
                self.rights[usize::from(field)].free[kind] -= amount;
            }
            (Command::Tighten { field, kind, amount }, _) => {
                self.rights[usize::from(field)].cut[kind] += amount;
                self.rights[usize::from(field)].free[kind] -= amount;
            }
            (Command::Accept(told), Reply::Accepted { gain }) if gain > 0 => {
                self.accounts[usize::from(told.from)][usize::from(told.field)].accepted[told.kind] = told.total;
                self.rights[usize::from(told.field)].free[told.kind] += gain;
            }
            _ => {}
        }
    }

    fn end(&mut self, escrows: &[(u16, i64)], commits: bool) {
        for (field, change) in escrows {
            let rights = &mut self.rights[usize::from(*field)];
            let kind = usize::from(*change > 0);
            rights.held[kind] -= change.unsigned_abs();
            rights.free[if commits { 1 - kind } else { kind }] += change.unsigned_abs();
        }
    }

    fn restarts(&mut self, schema: &Schema, reply: Reply) -> bool {
        let Reply::Restarted { epoch, last } = reply else {
            self.stills += 1;
            self.up = false;
            return reply == Reply::StillDown;
        };
        let in_range = epoch > self.epoch && epoch <= self.epoch + 1 + self.stills && epoch <= MAX_NUMBER;
        if !in_range || self.doubt.is_none() != (last == Last::Nothing) {
            return false;
        }
        self.up = true;
        if let (Some(command), Last::Kept) = (self.doubt, last)
            && let Ok(answer) = self.answer(schema, command)
        {
            self.take(command, answer);
        }
        self.doubt = None;
        for (_, escrows) in std::mem::take(&mut self.open) {
            self.end(&escrows, false);
        }
        (self.epoch, self.last, self.stills) = (epoch, 0, 0);
        true
    }

    /// Whether the reply is owed; it then takes effect.
    fn fits(&mut self, schema: &Schema, command: Command, reply: Reply) -> bool {
        if let Command::Restart = command {
            return self.restarts(schema, reply);
        }
        match self.answer(schema, command) {
            Err(refusal) => reply == Reply::Refused(refusal),
            Ok(answer) if reply == answer => {
                self.take(command, answer);
                true
            }
            Ok(answer) => {
                self.up = false;
                self.doubt = Some(command);
                reply == Reply::Unsure && self.writes(command, answer)
            }
        }
    }
}

type Key = (u16, u16, u16, usize, u64);

fn key(told: Statement) -> Key {
    (told.from, told.to, told.field, told.kind, told.total)
}

/// The number of the first entry that isn't legal.
fn first_bad(schema: &Schema, entries: &[Entry]) -> Option<usize> {
    let mut sites: Vec<Standing> = (0..schema.sites).map(|number| Standing::new(schema, number)).collect();
    let mut issued: HashSet<Key> = HashSet::new();
    entries.iter().position(|entry| {
        let Entry { site: from, command, reply } = *entry;
        let Some(site) = sites.get_mut(usize::from(from)) else {
            return true;
        };
        if let (Command::Accept(told), Reply::Accepted { .. } | Reply::Unsure) = (command, reply)
            && !issued.contains(&key(told))
        {
            return true;
        }
        if let (Command::Give { to, field, kind, .. }, Reply::Given { total })
        | (Command::Restate { to, field, kind }, Reply::Stated { total }) = (command, reply)
        {
            issued.insert((from, to, field, kind, total));
        }
        !site.fits(schema, command, reply)
    })
}

/// Takes the words of a text.
fn expect<'a>(words: &mut impl Iterator<Item = &'a str>, text: &str) -> Option<()> {
    text.split(' ').all(|word| words.next() == Some(word)).then_some(())
}

fn refusal<'a>(words: &mut impl Iterator<Item = &'a str>) -> Option<Refusal> {
    let (text, refusal) = match words.next()? {
        "1" => ("down", Refusal::Down),
        "2" => ("no site", Refusal::NoSite),
        "3" => ("no field", Refusal::NoField),
        "4" => ("no transaction", Refusal::NoTransaction),
        "5" => ("zero", Refusal::Zero),
        "6" => ("too large", Refusal::TooLarge),
        "7" => {
            expect(words, "short")?;
            return Some(Refusal::Short { share: number(words.next()?)? });
        }
        "8" => ("self gift", Refusal::SelfGift),
        "9" => {
            expect(words, "ledger full")?;
            return Some(Refusal::LedgerFull { total: number(words.next()?)? });
        }
        "10" => ("not yours", Refusal::NotYours),
        "11" => {
            expect(words, "forged")?;
            return Some(Refusal::Forged { room: number(words.next()?)? });
        }
        "12" => ("too many open", Refusal::TooManyOpen),
        "13" => ("too many escrows", Refusal::TooManyEscrows),
        "14" => ("numbers full", Refusal::NumbersFull),
        "15" => ("nothing given", Refusal::NothingGiven),
        _ => return None,
    };
    expect(words, text)?;
    Some(refusal)
}

fn reply<'a>(words: &mut impl Iterator<Item = &'a str>) -> Option<Reply> {
    Some(match words.next()? {
        "begun" => Reply::Begun(txn(words.next()?)?),
        "granted" => Reply::Granted,
        "committed" => Reply::Committed,
        "aborted" => Reply::Aborted,
        "given" => Reply::Given { total: number(words.next()?)? },
        "stated" => Reply::Stated { total: number(words.next()?)? },
        "tightened" => Reply::Tightened { total: number(words.next()?)? },
        "accepted" => Reply::Accepted { gain: number(words.next()?)? },
        "between" => Reply::Between {
            lo: signed(words.next()?)?,
            hi: signed(words.next()?)?,
        },
        "share" => Reply::Shares {
            lower: number(words.next()?)?,
            raise: number(words.next()?)?,
        },
        "restarted" => Reply::Restarted {
            epoch: u32::try_from(number(words.next()?)?).ok()?,
            last: match words.next()? {
                "nothing" => Last::Nothing,
                "kept" => Last::Kept,
                "lost" => Last::Lost,
                _ => return None,
            },
        },
        "unsure" => Reply::Unsure,
        "still" => {
            expect(words, "down")?;
            Reply::StillDown
        }
        "refused" => Reply::Refused(refusal(words)?),
        _ => return None,
    })
}

fn entry(schema: &Schema, line: &str) -> Option<Entry> {
    let mut words = line.split(' ');
    let site = small(words.next()?)?;
    let command = command(schema, &mut words)?;
    expect(&mut words, "->")?;
    let reply = reply(&mut words)?;
    words.next().is_none().then_some(Entry { site, command, reply })
}

/// A remark, as far as the lines of bench.py make one.
fn is_remark(line: &str) -> bool {
    let number_of = line.strip_prefix("deliver ").and_then(|rest| rest.strip_suffix(" -> refused 16 no statement"));
    line == "bad line" || number_of.and_then(number).is_some()
}

pub fn run(reader: impl Read, mut writer: impl Write) -> io::Result<()> {
    let mut reader = BufReader::with_capacity(65_536, reader);
    let mut line = Vec::new();
    reader.read_until(b'\n', &mut line)?;
    let header = str::from_utf8(&line).ok().and_then(schema);
    let schema = header.ok_or(io::ErrorKind::InvalidData)?;
    let mut entries = Vec::new();
    for number in 2.. {
        line.clear();
        if reader.read_until(b'\n', &mut line)? == 0 {
            break;
        }
        let bytes = line.strip_suffix(b"\n").unwrap_or(&line);
        let text = str::from_utf8(bytes).ok().filter(|text| text.len() <= 256);
        match text.and_then(|text| entry(&schema, text)) {
            Some(entry) => entries.push(entry),
            None if text.is_some_and(is_remark) => {}
            None => return writeln!(writer, "bad entry {number}"),
        }
    }
    match first_bad(&schema, &entries) {
        None => writeln!(writer, "legal {}", entries.len()),
        Some(place) => writeln!(writer, "illegal {}", place + 1),
    }
}
