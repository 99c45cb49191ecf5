//! Tries the wrapper: each call, a stop inside an append, and rounds by numbers. Status 1 where an answer isn't as typed.
//!
//! With `--rounds N` it tells how many rounds of begin, escrow and commit it makes in a second.

use escrow::{Command, Fault, Kind, Refusal, Reply, Site, Statement, Txn};
use std::time::Instant;

const HEADER: &str = r#"{"sites":2,"fields":[{"name":"stock","floor":0,"ceiling":100,"value":40}]}"#;
const WIDE: &str = r#"{"sites":1,"fields":[{"name":"stock","floor":0,"ceiling":1000000,"value":500000}]}"#;

fn by_lines(log: &mut Vec<u8>) -> Result<(), Fault> {
    let mut site = Site::open(HEADER, 0, log)?;
    assert_eq!(site.tell("0 begin")?, "0 begin -> begun 0.1");
    assert_eq!(site.carry_out("0 escrow 0.1 stock -20")?, Reply::Granted);
    assert_eq!(site.take_added(log)?, 0);
    assert_eq!(site.tell("0 commit 0.1")?, "0 commit 0.1 -> committed");
    assert_eq!((site.take_added(log)?, log.as_slice()), (12, b"C 0 1 0 -20\n".as_slice()));
    assert_eq!((site.interval(0)?, site.share(0)?), ((0, 50), (0, 50)));
    assert_eq!(
        (site.tell("1 begin"), site.tell("0 sell"), site.tell("0 begin\n")),
        (Err(Fault::OtherSite), Err(Fault::NoCommand), Err(Fault::NoLine))
    );
    assert_eq!((site.interval(1), site.share(1)), (Err(Fault::NoField), Err(Fault::NoField)));
    Ok(())
}

fn by_commands(log: &mut Vec<u8>) -> Result<(), Fault> {
    log.extend_from_slice(b"C 0 2");
    let mut site = Site::open(HEADER, 0, log)?;
    assert_eq!(
        (log.len(), site.interval(0), site.ask(Command::Restart)?),
        (12, Err(Fault::Down), Reply::Restarted { epoch: 1 })
    );
    let told = Statement { from: 1, to: 0, field: 0, kind: Kind::Lower, total: 6 };
    let give = Command::Give { to: 1, field: 0, kind: Kind::Raise, amount: 4 };
    assert_eq!(
        (site.ask(Command::Accept(told))?, site.ask(give)?),
        (Reply::Accepted { gain: 6 }, Reply::Given { total: 4 })
    );
    let Reply::Begun(txn) = site.ask(Command::Begin)? else { panic!("not begun") };
    assert_eq!(txn, Txn { epoch: 1, number: 1 });
    assert_eq!(site.ask(Command::Escrow { txn, field: 0, change: -7 })?, Reply::Refused(Refusal::Short { share: 6 }));
    assert_eq!(site.ask(Command::Abort { txn })?, Reply::Aborted);
    assert_eq!(
        (site.ask(Command::Read { field: 0 })?, site.ask(Command::Share { field: 0 })?),
        (Reply::Between { low: 6, high: 54 }, Reply::Shares { lower: 6, raise: 46 })
    );
    assert_eq!(site.take_added(log)?, site.log_length()? - 12);
    Ok(())
}

fn refused() {
    assert_eq!(Site::open("{}", 0, &mut Vec::new()).err(), Some(Fault::NoSchema));
    assert_eq!(Site::open(HEADER, 2, &mut Vec::new()).err(), Some(Fault::NoSite));
    assert_eq!(Site::open(HEADER, 0, &mut b"C 0 1 0 -20\nx\n".to_vec()).err(), Some(Fault::Line(2)));
}

/// A site in a thread of its own, which ends elsewhere than it began.
fn rounds(count: u32) -> Result<(), Fault> {
    let mut log = Vec::new();
    let mut site = Site::open(WIDE, 0, &mut log)?;
    let began = Instant::now();
    let made = std::thread::spawn(move || -> Result<Site, Fault> {
        for round in 0..count {
            let Reply::Begun(txn) = site.ask(Command::Begin)? else { panic!("not begun") };
            let change = if round % 2 == 0 { -20 } else { 20 };
            assert_eq!(site.ask(Command::Escrow { txn, field: 0, change })?, Reply::Granted);
            assert_eq!(site.ask(Command::Commit { txn })?, Reply::Committed);
            site.take_added(&mut log)?;
        }
        Ok(site)
    });
    let mut site = made.join().expect("the thread has panicked")?;
    println!(
        "Rust: {count} rounds, {:.0} a second, log {} bytes",
        f64::from(count) / began.elapsed().as_secs_f64(),
        site.log_length()?
    );
    Ok(())
}

fn main() -> Result<(), Fault> {
    let words: Vec<String> = std::env::args().collect();
    let mut log = Vec::new();
    by_lines(&mut log)?;
    by_commands(&mut log)?;
    refused();
    rounds(words.get(2).and_then(|count| count.parse().ok()).unwrap_or(20_000))
}
