//! Sells one by one from many threads over one served site, or over its door (`seller door PATH ..`), through its stops; first it
//! asks of the IDs that a run before left in doubt. One that the log has let go of is sold no second time. However it ends, it
//! tells what it has sold, and the IDs that are in doubt still, for the next run. The client is the crate `escrow_served`, beside
//! it.
use escrow_served::{Change, Fault, Site};
use std::sync::{atomic::AtomicI64, atomic::Ordering, Mutex};
use std::thread;

/// What is sold so far, the sales in doubt, how many of these nobody can tell of any more, and what refused the last one.
struct Tally {
    sold: i64,
    doubt: Vec<String>,
    forgotten: i64,
    refusal: Option<String>,
}

/// What each thread does: it sells until nothing is left to sell, one is refused, or the process stops.
fn sell_on(site: &Site, field: &str, left: &AtomicI64, tally: &Mutex<Tally>) {
    while left.fetch_sub(1, Ordering::Relaxed) > 0 {
        match site.change(field, -1) {
            Change::Committed(_) => tally.lock().unwrap().sold += 1,
            Change::Refused(why) => return tally.lock().unwrap().refusal = Some(why),
            Change::InDoubt(id) => return tally.lock().unwrap().doubt.push(id),
            Change::Lost(_) | Change::Busy => return, // it isn't sold
        }
    }
}

/// One run of the process, whose status is told: each sale in doubt is asked of first, and stays so where it stops again.
fn run(words: &[String], threads: usize, sales: i64, tally: &Mutex<Tally>) -> Result<Option<i32>, Fault> {
    let site = match words[1].as_str() {
        "door" => Site::connect(&words[2])?,
        program => Site::start(program, &words[2])?,
    };
    let mut told = tally.lock().unwrap();
    let asked = std::mem::take(&mut told.doubt);
    for (at, id) in asked.iter().enumerate() {
        match site.kept(id) {
            Ok(Some(is_kept)) => {
                println!("{id}: {}", if is_kept { "kept" } else { "not kept" });
                told.sold += is_kept as i64;
            }
            Ok(None) | Err(Fault::Stopped | Fault::Late) => told.doubt.push(id.clone()),
            Err(Fault::Forgotten(_)) => {
                println!("{id}: forgotten: look into the books"); // it may be sold: never sell it anew
                told.forgotten += 1;
            }
            Err(fault) => {
                told.doubt.extend_from_slice(&asked[at..]);
                return Err(fault);
            }
        }
    }
    let left = AtomicI64::new(sales - told.sold - told.forgotten - told.doubt.len() as i64);
    drop(told);
    thread::scope(|scope| (0..threads).for_each(|_| drop(scope.spawn(|| sell_on(&site, &words[3], &left, tally)))));
    match site.end() {
        Err(Fault::Door(_)) => Ok(None), // it is gone: as a stop
        told => Ok(told?.code()),
    }
}

/// Sells through stops, which it counts: the status behind which a start anew would not help, or 0.
fn sell_all(words: &[String], tally: &Mutex<Tally>, stops: &mut i64) -> Result<i32, Fault> {
    let (threads, sales) = (words[4].parse().expect("THREADS"), words[5].parse().expect("SALES"));
    loop {
        let ended = match run(words, threads, sales, tally) {
            Err(Fault::Ended(status)) => status.code(),
            other => other?,
        };
        match ended {
            Some(0) if tally.lock().unwrap().doubt.is_empty() => return Ok(0),
            Some(status) if status != 0 => return Ok(status), // it has told why
            _ => *stops += 1,
        }
        thread::sleep(std::time::Duration::from_millis(50));
    }
}

fn main() {
    let words: Vec<String> = std::env::args().collect();
    assert!(words.len() >= 6, "use: seller ESCROW_SITE FOLDER FIELD THREADS SALES [ID..]");
    let (tally, mut stops) = (Mutex::new(Tally { sold: 0, doubt: words[6..].to_vec(), forgotten: 0, refusal: None }), 0);
    let status = sell_all(&words, &tally, &mut stops);
    let Tally { sold, doubt, refusal, .. } = tally.into_inner().unwrap();
    let is_odd = refusal.as_ref().is_some_and(|it| !it.starts_with("refused "));
    println!("sold {sold}, stops {stops}{}", refusal.map_or(String::new(), |it| format!(", {it}")));
    doubt.iter().for_each(|id| println!("in doubt: {id}"));
    std::process::exit(match status {
        Ok(0) => i32::from(is_odd),
        Ok(status) => status,
        Err(fault) => {
            eprintln!("seller: {fault}");
            1
        }
    });
}
