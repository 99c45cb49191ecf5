//! Desks: each a site behind one lock, called by so many threads. Each call is one step of the site under the lock, and
//! hands a receipt out.

use std::io::{self, Write};
use std::sync::Mutex;
use std::thread;
use std::time::Instant;

use crate::{Command, Entry, Field, Reply, Schema, Site};

/// What is asked: so many desks, each called by so many threads, which make so many rounds each.
#[derive(Clone, Copy)]
struct Plan {
    desks: u16,
    threads: u64,
    rounds: u64,
}

#[allow(dead_code)]
struct Receipt {
    site: u16,
    number: u64,
    entry: Entry,
}

/// A caller's token: the calls made with it, and the number of the entry that the last one made.
#[derive(Default)]
struct Pass {
    count: u64,
    last: u64,
}

struct Desk {
    schema: Schema,
    site: Mutex<Site>,
}

impl Desk {
    fn new(schema: Schema, number: u16) -> Desk {
        let site = Mutex::new(Site::new(&schema, number));
        Desk { schema, site }
    }

    fn call(&self, pass: &mut Pass, command: Command) -> Option<Receipt> {
        let mut site = self.site.lock().ok()?;
        let length = site.history.len() as u64;
        if pass.last > length {
            return None;
        }
        let reply = site.apply(&self.schema, command, None);
        pass.count += 1;
        pass.last = length + 1;
        let site = site.number;
        Some(Receipt {
            site,
            number: length + 1,
            entry: Entry { site, command, reply },
        })
    }
}

/// A begin, an escrow, a commit and a read: the sum of the receipts' numbers.
fn round(desk: &Desk, pass: &mut Pass, change: i64) -> Option<u64> {
    let begun = desk.call(pass, Command::Begin)?;
    let Reply::Begun(txn) = begun.entry.reply else {
        return None;
    };
    let granted = desk.call(pass, Command::Escrow { txn, field: 0, change })?;
    let committed = desk.call(pass, Command::Commit { txn })?;
    let read = desk.call(pass, Command::Read { field: 0 })?;
    Some([granted, committed, read].iter().fold(begun.number, |sum, one| sum.wrapping_add(one.number)))
}

/// All rounds of one thread: its pass, and the sum of its receipts' numbers.
fn rounds(desk: &Desk, count: u64) -> Option<(Pass, u64)> {
    let mut pass = Pass::default();
    let mut sum = 0_u64;
    for number in 0..count {
        let change = if number % 2 == 0 { -20 } else { 20 };
        sum = sum.wrapping_add(round(desk, &mut pass, change)?);
    }
    Some((pass, sum))
}

/// The history of one desk, once its threads have ended and their calls are as many as its entries, and the sum of all
/// receipts' numbers.
fn served(number: u16, plan: Plan) -> Option<(Vec<Entry>, u64)> {
    let desk = Desk::new(schema(plan.desks), number);
    let all: Option<Vec<(Pass, u64)>> = thread::scope(|scope| {
        let started: Vec<_> = (0..plan.threads).map(|_| scope.spawn(|| rounds(&desk, plan.rounds))).collect();
        started.into_iter().map(|one| one.join().ok()?).collect()
    });
    let all = all?;
    let calls: u64 = all.iter().map(|(pass, _)| pass.count).sum();
    let sum = all.iter().fold(0, |sum: u64, (_, one)| sum.wrapping_add(*one));
    let history = desk.site.into_inner().ok()?.history;
    (calls == history.len() as u64).then_some((history, sum))
}

fn all_served(plan: Plan) -> Option<Vec<(Vec<Entry>, u64)>> {
    thread::scope(|scope| {
        let started: Vec<_> = (0..plan.desks).map(|number| scope.spawn(move || served(number, plan))).collect();
        started.into_iter().map(|one| one.join().ok()?).collect()
    })
}

fn schema(sites: u16) -> Schema {
    let stock = Field {
        name: "stock".to_string(),
        floor: 0,
        ceiling: 1_000_000,
        value: 500_000,
    };
    Schema {
        sites,
        places: [(stock.name.clone(), 0)].into(),
        fields: vec![stock],
    }
}

fn plan(words: &[String]) -> Option<Plan> {
    let [desks, threads, rounds] = words else {
        return None;
    };
    Some(Plan {
        desks: desks.parse().ok()?,
        threads: threads.parse().ok()?,
        rounds: rounds.parse().ok()?,
    })
}

/// Writes the calls served and the sum of the receipts' numbers, and on standard error the nanoseconds that passed.
pub fn run(words: &[String], mut writer: impl Write) -> io::Result<()> {
    let plan = plan(words).ok_or(io::ErrorKind::InvalidInput)?;
    let start = Instant::now();
    let all = all_served(plan).ok_or(io::ErrorKind::Other)?;
    let passed = start.elapsed().as_nanos();
    let calls: usize = all.iter().map(|(history, _)| history.len()).sum();
    let sum = all.iter().fold(0, |sum: u64, (_, one)| sum.wrapping_add(*one));
    writeln!(writer, "{calls} calls, numbers {sum}")?;
    eprintln!("{passed}");
    Ok(())
}
