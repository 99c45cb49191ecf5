//! What a site tells over a door, which is killed and stands still, and by keys, over a process too. `$ESCROW_SITE` is the program,
//! `$ESCROW_PYTHON` the folder of the package that has the door, `$ESCROW_INTERPRETER` the python3 that runs it, and `$ESCROW_PLACE`
//! a folder for those of sites.
use escrow_served::{Change, Fault, Site, Transaction};
use std::env::var;
use std::io::{Read, Write};
use std::net::Shutdown;
use std::os::unix::net::{UnixListener, UnixStream};
use std::os::unix::process::ExitStatusExt;
use std::process::{Child, Command, Stdio};
use std::sync::atomic::{AtomicBool, AtomicUsize, Ordering};
use std::sync::{Arc, Barrier};
use std::thread;
use std::time::{Duration, Instant};

/// A folder of site 0 of two, which has 20 of 40 to sell, and the door over it.
struct Door {
    folder: String,
    path: String,
    process: Child,
}

fn made(name: &str) -> String {
    let folder = format!("{}/{name}", var("ESCROW_PLACE").unwrap());
    let mut create = Command::new(var("ESCROW_SITE").unwrap())
        .args(["create", &folder, "--schema", "/dev/stdin", "--site", "0", "--name", "doors"])
        .stdin(Stdio::piped())
        .spawn()
        .unwrap();
    let header = r#"{"sites":2,"fields":[{"name":"stock","floor":0,"ceiling":100,"value":40},{"name":"seats","floor":0,"ceiling":100,"value":40}]}"#;
    create.stdin.take().unwrap().write_all(format!("{header}\n").as_bytes()).unwrap();
    assert!(create.wait().unwrap().success());
    folder
}

fn opened(folder: &str, words: &[&str]) -> Child {
    let path = format!("{folder}.door");
    let child = Command::new(var("ESCROW_INTERPRETER").unwrap_or("python3".to_string()))
        .args(["-S", "-m", "escrow.door", folder, "--socket", &path, "--program", &var("ESCROW_SITE").unwrap()])
        .args(words)
        .env("PYTHONPATH", var("ESCROW_PYTHON").unwrap())
        .stderr(Stdio::null())
        .spawn()
        .unwrap();
    until(|| UnixStream::connect(&path).is_ok_and(|mut it| it.read(&mut [0; 8]).is_ok_and(|many| many > 0)));
    child
}

impl Door {
    fn new(name: &str, words: &[&str]) -> Door {
        let folder = made(name);
        Door { process: opened(&folder, words), path: format!("{folder}.door"), folder }
    }

    fn site(&self) -> Site {
        Site::connect(&self.path).unwrap()
    }

    fn signal(&self, name: &str) {
        signal(name, self.process.id());
    }

    /// The process of `escrow_site serve`.
    fn served(&self) -> u32 {
        let told = std::fs::read_to_string(format!("/proc/{0}/task/{0}/children", self.process.id())).unwrap();
        told.trim().parse().unwrap()
    }

    fn kill(&mut self) {
        self.process.kill().unwrap();
        self.process.wait().unwrap();
    }

    fn start(&mut self) {
        self.process = opened(&self.folder, &[]);
    }
}

impl Drop for Door {
    fn drop(&mut self) {
        self.signal("CONT");
        self.signal("TERM");
        let _ = self.process.wait();
    }
}

fn signal(name: &str, process: u32) {
    let _ = Command::new("kill").args([format!("-{name}"), process.to_string()]).stderr(Stdio::null()).status();
    if name == "STOP" {
        until(|| is_still(process));
    }
}

/// Whether a process stands still.
fn is_still(process: u32) -> bool {
    std::fs::read_to_string(format!("/proc/{process}/stat")).is_ok_and(|it| it.rsplit_once(')').is_some_and(|it| it.1.starts_with(" T ")))
}

/// So long that, also on a busy machine, who is there has taken a line, or answered it.
const IN_TIME: Duration = Duration::from_secs(4);

fn until(mut holds: impl FnMut() -> bool) {
    let end = Instant::now() + Duration::from_secs(180);
    while !holds() {
        assert!(Instant::now() < end, "it didn't come in time");
        thread::sleep(Duration::from_millis(5));
    }
}

fn refused(told: &Change) -> &str {
    match told {
        Change::Refused(why) => why,
        other => panic!("{other:?}"),
    }
}

fn committed(told: Change) -> String {
    match told {
        Change::Committed(id) => id,
        other => panic!("{other:?}"),
    }
}

/// What is told over a process and over a door alike.
fn try_calls(site: &Site) {
    let first = committed(site.change("stock", -3));
    assert!(first.ends_with("-0-1.1"), "{first}");
    assert_eq!(refused(&site.change("stock", -18)), "refused 7 short 17");
    assert!(refused(&site.change("stick", -1)).ends_with("no such field"));
    assert_eq!(refused(&site.change("stock\n0 begin", -1)), "\"stock\\n0 begin\" is no field");
    for field in ["stick", "stock\n0 begin", "", &"x".repeat(300)] {
        let told = site.share(field); // and no line is longer than a door takes
        assert!(matches!(&told, Err(Fault::Refused(why)) if why.ends_with("no such field")), "{field}: {told:?}");
        assert!(matches!(site.change(field, -1), Change::Refused(_)), "{field}");
    }
    let mut books = Vec::new();
    let told = site.change_before("stock", -1, |id| Ok::<(), ()>(books.push(id.to_string())));
    assert_eq!(told, Ok(Change::Committed(books[0].clone())));
    assert_eq!(site.change_before("stock", -1, |_| Err("the books are full")), Err("the books are full"));
    assert!(thread::scope(|scope| scope.spawn(|| site.change_before::<()>("stock", -1, |_| panic!("gone"))).join()).is_err());
    assert_eq!((site.share("stock").unwrap(), site.read("stock").unwrap()), ((16, 34), (16, 66)));
    // By a key.
    let order = committed(site.change_by_key("stock", -2, "order-1", None).unwrap());
    assert_eq!(site.change_by_key("stock", -2, "order-1", None).unwrap(), Change::Committed(order.clone()));
    assert_eq!(site.change_by_key("stock", -15, "order-1", None).unwrap(), Change::Committed(order.clone())); // there are 14
    assert_eq!(refused(&site.change_by_key("stock", -15, "order-2", None).unwrap()), "refused 7 short 14");
    assert_eq!((site.kept_key("order-1", None).unwrap(), site.kept_key("order-2", None).unwrap()), (Some(order.clone()), None));
    for key in ["", "a b", "a\n0 begin", "a/b", &"x".repeat(65)] {
        assert!(matches!(site.change_by_key("stock", -1, key, None), Err(Fault::Key(_))), "{key:?}");
        assert!(matches!(site.kept_key(key, None), Err(Fault::Key(_))), "{key:?}");
    }
    // Transactions.
    let mut both = site.begin("stock", -4).unwrap_or_else(|told| panic!("{told:?}"));
    assert_eq!(both.change("seats", -21), Err(Change::Refused("refused 7 short 20".to_string())));
    assert_eq!((both.change("seats", -20), site.kept(both.id()).unwrap()), (Ok(()), None));
    let id = both.id().to_string();
    assert_eq!((both.commit(), site.kept(&id).unwrap()), (Change::Committed(id.clone()), Some(true)));
    let again = site.begin("stock", -10).unwrap_or_else(|told| panic!("{told:?}"));
    let id = again.id().to_string();
    assert_eq!(again.commit_by_key("order-1", None).unwrap(), Change::Committed(order.clone()));
    assert_eq!((site.kept(&id).unwrap(), site.share("stock").unwrap()), (Some(false), (10, 40)));
    drop(site.begin("stock", -10));
    site.begin("stock", -10).unwrap_or_else(|told| panic!("{told:?}")).abort();
    assert_eq!((site.share("stock").unwrap(), site.share("seats").unwrap()), ((10, 40), (0, 50)));
    assert!(matches!(site.begin("stock", -1).map(|it| it.commit_by_key("a b", None)), Ok(Err(Fault::Key(_)))));
    assert_eq!(site.share("stock").unwrap(), (10, 40));
    let front = first.strip_suffix("1.1").unwrap();
    for (id, why) in [("1.99", "begun yet"), ("9.1", "older log"), ("1", "is no id"), ("1.1\n0 begin", "is no id")] {
        assert!(site.kept(&format!("{front}{id}")).unwrap_err().to_string().contains(why), "{id}");
    }
    assert!(site.kept("01234567-0-1.1").unwrap_err().to_string().contains("another world"));
}

#[test]
fn a_process_and_a_door_tell_the_same() {
    let folder = made("calls");
    let site = Site::start(&var("ESCROW_SITE").unwrap(), &folder).unwrap();
    try_calls(&site);
    assert!(site.is_up() && site.end().unwrap().success());
    let door = Door::new("calls-door", &[]);
    let site = door.site();
    try_calls(&site);
    assert!(site.is_up() && site.end().unwrap().success());
    assert_eq!(door.site().share("stock").unwrap(), (10, 40)); // nothing is left open
}

/// So many open transactions, each of one more.
fn held(site: &Site, many: usize) -> Vec<Transaction<'_>> {
    let begun = |at: usize| site.begin(["stock", "seats"][at % 2], if at < 60 { 1 } else { -1 });
    (0..many).map(|at| begun(at).unwrap_or_else(|told| panic!("{told:?}"))).collect()
}

/// More transactions than there are places wait, and each has one in its turn.
fn try_places(site: &Site, places: usize) {
    let mut all = held(site, places);
    let is_there = AtomicBool::new(false);
    thread::scope(|scope| {
        let waits = scope.spawn(|| {
            let begun = site.begin("stock", -1).unwrap_or_else(|told| panic!("{told:?}"));
            is_there.store(true, Ordering::SeqCst);
            committed(begun.commit())
        });
        thread::sleep(Duration::from_millis(200));
        assert!(!is_there.load(Ordering::SeqCst));
        committed(site.change("stock", -1)); // it needs none
        all.pop();
        waits.join().unwrap();
    });
    drop(all);
    let many = 2 * places;
    let at_once = Barrier::new(many);
    thread::scope(|scope| {
        for number in 0..many {
            let at_once = &at_once;
            scope.spawn(move || {
                at_once.wait();
                while site.change_by_key("seats", -1, &format!("{}", number % 20), None).unwrap() == Change::Busy {}
                // the other has it
            });
        }
    });
    assert_eq!(site.share("seats").unwrap(), (0, 50)); // each key once
}

#[test]
fn places_are_waited_for() {
    let folder = made("places");
    try_places(&Site::start(&var("ESCROW_SITE").unwrap(), &folder).unwrap(), 63);
    try_places(&Door::new("places-door", &[]).site(), 32);
}

#[test]
fn a_wait_for_a_place_ends_and_loses_none() {
    let folder = made("waits");
    let (own, door) = (Site::start(&var("ESCROW_SITE").unwrap(), &folder).unwrap(), Door::new("waits-door", &[]));
    let others = door.site();
    for (site, many) in [(own, 63), (door.site(), 32)] {
        let site = site.with_timeout(IN_TIME);
        let all = held(&site, many);
        for _ in 0..2 {
            let began = Instant::now();
            assert_eq!(site.begin("stock", 1).err(), Some(Change::Busy));
            assert!(began.elapsed() < IN_TIME + Duration::from_millis(7_500) && site.is_up());
        }
        drop(all);
        drop(held(&site, many));
    }
    // Waits that end as the place comes.
    let site = door.site().with_timeout(Duration::from_millis(3));
    let left = AtomicUsize::new(1_000);
    thread::scope(|scope| {
        for _ in 0..40 {
            scope.spawn(|| {
                while left.fetch_update(Ordering::SeqCst, Ordering::SeqCst, |it| it.checked_sub(1)).is_ok() && site.is_up() {
                    if let Ok(begun) = site.begin("stock", 1) {
                        thread::sleep(Duration::from_millis(3));
                        drop(begun);
                    }
                }
            });
        }
    });
    drop(held(&others, 32));
    if site.is_up() {
        drop(held(&site.with_timeout(Duration::from_secs(60)), 32)); // while the others hold none
    }
}

#[test]
fn what_a_door_has_not_taken_is_busy_and_never_made() {
    let door = Door::new("still", &[]);
    let site = door.site().with_timeout(IN_TIME);
    let mut held = site.begin("stock", -2).ok().unwrap();
    let id = held.id().to_string();
    door.signal("STOP");
    let began = Instant::now();
    assert_eq!(site.change("stock", -1), Change::Busy);
    assert_eq!(site.change_by_key("stock", -1, "a", None).unwrap(), Change::Busy);
    assert_eq!((site.read("stock").ok(), site.kept(&id).unwrap()), (None, None)); // it is open here
    assert!(matches!((site.kept("1.0"), site.kept_key("a", None)), (Err(Fault::Stopped), Err(Fault::Stopped))));
    assert_eq!(held.change("seats", -1), Err(Change::Lost(id.clone())));
    assert_eq!(held.commit(), Change::Lost(id.clone()));
    assert!(began.elapsed() < IN_TIME + Duration::from_millis(7_500) && !site.is_up());
    drop(site);
    door.signal("CONT");
    let site = door.site();
    assert_eq!((site.share("stock").unwrap(), site.kept(&id).unwrap()), ((20, 30), Some(false)));
    assert!(committed(site.change("stock", -1)).ends_with("-0-1.2"));
}

#[test]
fn what_it_has_taken_is_in_doubt_with_its_id() {
    let mut door = Door::new("doubt", &[]);
    let site = door.site().with_timeout(IN_TIME);
    let held = site.begin("stock", -2).ok().unwrap();
    let served = door.served();
    signal("STOP", served);
    let told = site.change("stock", -1);
    let Change::InDoubt(id) = &told else { panic!("{told:?}") };
    assert!(id.ends_with("-0-1.2") && site.is_up());
    let Ok(Change::InDoubt(order)) = held.commit_by_key("order", None) else { panic!("it was answered") };
    let Ok(Change::Lost(third)) = site.change_by_key("stock", -1, "third", None) else { panic!("it was answered") };
    signal("CONT", served);
    until(|| site.share("stock").is_ok());
    assert_eq!((site.kept(id).unwrap(), site.kept_key("order", None).unwrap()), (Some(true), Some(order.clone())));
    assert_eq!((site.kept(&third).unwrap(), site.kept_key("third", None).unwrap()), (Some(false), None));
    assert_eq!(site.change_by_key("stock", -2, "order", None).unwrap(), Change::Committed(order));
    assert_eq!(site.share("stock").unwrap(), (17, 33));
    // A door that dies once it has taken it.
    signal("STOP", served);
    let all = Arc::new(Barrier::new(2));
    let asks = thread::spawn({
        let all = all.clone();
        let site = door.site();
        move || (all.wait(), site.change("stock", -1), site)
    });
    all.wait();
    thread::sleep(IN_TIME); // by then it is taken
    door.kill();
    signal("CONT", served);
    let (_, told, site) = asks.join().unwrap();
    let Change::InDoubt(id) = &told else { panic!("{told:?}") };
    assert_eq!((site.change("stock", -1), site.is_up()), (Change::Busy, false));
    assert!(matches!(site.kept_key("order", None), Err(Fault::Stopped)));
    door.start();
    let site = door.site();
    let share = if site.kept(id).unwrap().unwrap() { (16, 34) } else { (17, 33) };
    assert_eq!(site.share("stock").unwrap(), share);
}

#[test]
fn a_stop_of_the_process_loses_what_is_open() {
    let folder = made("stop");
    let program = var("ESCROW_SITE").unwrap();
    let site = Site::start(&program, &folder).unwrap().with_timeout(IN_TIME);
    let held = site.begin("stock", -2).ok().unwrap();
    let is_ours =
        |it: &String| std::fs::read(format!("/proc/{it}/cmdline")).is_ok_and(|it| it.ends_with(format!("{folder}\0").as_bytes()));
    let served: u32 = children().into_iter().find(is_ours).unwrap().parse().unwrap();
    signal("STOP", served);
    let Change::InDoubt(id) = site.change("stock", -1) else { panic!("it was answered") };
    signal("KILL", served);
    until(|| !site.is_up());
    let lost = held.id().to_string();
    assert_eq!((held.commit_by_key("a", None).unwrap(), site.change("stock", -1)), (Change::Lost(lost.clone()), Change::Busy));
    assert!(site.change_before("stock", -1, |_| Err::<(), ()>(())).unwrap() == Change::Busy);
    assert!(matches!(site.end(), Err(Fault::Ended(it)) if it.signal() == Some(9)));
    let site = Site::start(&program, &folder).unwrap();
    assert_eq!((site.kept(&lost).unwrap(), site.kept_key("a", None).unwrap()), (Some(false), None));
    let left = if site.kept(&id).unwrap().unwrap() { (19, 31) } else { (20, 30) };
    assert_eq!(site.share("stock").unwrap(), left);
}

/// All processes that threads of this one have started.
fn children() -> Vec<String> {
    let tasks = std::fs::read_dir("/proc/self/task").unwrap();
    let told = tasks.filter_map(|it| std::fs::read_to_string(it.ok()?.path().join("children")).ok());
    told.flat_map(|it| it.split_whitespace().map(str::to_string).collect::<Vec<_>>()).collect()
}

#[test]
fn a_dead_reader_holds_nobody_up() {
    let door = Door::new("reader", &["--slow", "12"]);
    let mut dead = UnixStream::connect(&door.path).unwrap(); // it asks, and never reads
    dead.set_write_timeout(Some(Duration::from_millis(200))).unwrap();
    let line = b"0 share stock\n".repeat(1 << 16);
    assert!(dead.write_all(&line).is_err(), "all was taken");
    let site = door.site().with_timeout(Duration::from_secs(60));
    let began = Instant::now();
    (0..10).for_each(|_| drop(committed(site.change("stock", -2))));
    assert!(began.elapsed() < Duration::from_secs(10)); // while it is there
    until(|| dead.write_all(b"0 share stock\n").is_err_and(|it| it.kind() != std::io::ErrorKind::WouldBlock));
    assert_eq!(site.share("stock").unwrap(), (0, 50));
}

#[test]
fn behind_a_program_in_between_the_id_is_known() {
    let door = Door::new("between", &[]);
    let far = format!("{}.far", door.path);
    let listener = UnixListener::bind(&far).unwrap();
    let near = door.path.clone();
    thread::spawn(move || {
        for peer in listener.incoming().map_while(Result::ok) {
            let ends = [peer, UnixStream::connect(&near).unwrap()];
            for at in 0..2 {
                let (mut from, mut to) = (ends[at].try_clone().unwrap(), ends[1 - at].try_clone().unwrap());
                thread::spawn(move || (std::io::copy(&mut from, &mut to), to.shutdown(Shutdown::Both)));
            }
        }
    });
    let site = Site::connect(&far).unwrap().with_timeout(IN_TIME);
    let first = committed(site.change("stock", -1));
    let held = site.begin("stock", -2).ok().unwrap();
    let id = held.id().to_string();
    door.signal("STOP");
    assert_eq!(held.commit(), Change::InDoubt(id.clone()));
    assert_eq!(site.change("stock", -1), Change::Busy);
    door.signal("CONT");
    let site = Site::connect(&far).unwrap();
    assert_eq!((site.kept(&first).unwrap(), site.kept(&id).unwrap().is_some()), (Some(true), true));
    let share = if site.kept(&id).unwrap().unwrap() { (17, 33) } else { (19, 31) };
    assert_eq!(site.share("stock").unwrap(), share);
}

#[test]
fn there_is_no_way_in() {
    let place = var("ESCROW_PLACE").unwrap();
    let began = Instant::now();
    let told = Site::connect(&format!("{place}/nobody")).err().unwrap().to_string();
    assert!(told.contains("nobody is behind this door") && began.elapsed() > Duration::from_secs(9), "{told}");
    let told = Site::connect(&format!("{place}/{}", "x".repeat(200))).err().unwrap().to_string();
    assert!(told.ends_with("path must be shorter than SUN_LEN"), "{told}");
    let path = format!("{place}/other");
    let listener = UnixListener::bind(&path).unwrap();
    thread::spawn(move || {
        for (peer, text) in
            listener.incoming().zip(["escrow door 2\na\nb\nc\nd\n", "SSH-2.0\n\n\n\n\n", "escrow door 1\nnumber 0\n"])
        {
            peer.unwrap().write_all(text.as_bytes()).unwrap();
        }
    });
    assert!(matches!(Site::connect(&path), Err(Fault::Line(it)) if it == "escrow door 2"));
    assert!(matches!(Site::connect(&path), Err(Fault::Line(it)) if it == "SSH-2.0"));
    let told = Site::connect(&path).err().unwrap().to_string();
    assert!(told.contains("has ended before it answered") || told.contains("nobody is behind"), "{told}");
}

#[test]
fn what_a_program_that_is_no_door_answers_is_never_busy() {
    let path = format!("{}/misfit", var("ESCROW_PLACE").unwrap());
    let listener = UnixListener::bind(&path).unwrap();
    let header = r#"{"sites":1,"fields":[{"name":"stock","floor":0,"ceiling":9,"value":9}]}"#;
    let hello = format!("escrow door 1\nnumber 0\nworld 0123456789\n{header}\nready 1 1 4\n");
    thread::spawn(move || {
        for peer in listener.incoming() {
            let mut peer = peer.unwrap();
            peer.write_all(hello.as_bytes()).unwrap();
            let _ = peer.read(&mut [0; 99]);
            peer.write_all(b"0 read seats -> between 1 2\n").unwrap();
        }
    });
    // It passes on no descriptor, so a change begins a transaction first, which is never made without a commit.
    let site = Site::connect(&path).unwrap();
    assert_eq!((site.change("stock", -1), site.is_up()), (Change::Busy, false));
    assert!(matches!(site.end(), Err(Fault::Line(it)) if it.starts_with("0 read seats")));
}

#[test]
fn a_place_that_comes_late_is_given_back() {
    let path = format!("{}/late", var("ESCROW_PLACE").unwrap());
    let listener = UnixListener::bind(&path).unwrap();
    let header = r#"{"sites":1,"fields":[{"name":"stock","floor":0,"ceiling":9,"value":9}]}"#;
    let hello = format!("escrow door 1\nnumber 0\nworld 0123456789\n{header}\nready 1 1 4\n");
    let door = thread::spawn(move || {
        let (mut peer, mut line) = (listener.accept().unwrap().0, [0; 16]);
        peer.write_all(hello.as_bytes()).unwrap();
        peer.read_exact(&mut line).unwrap();
        peer.write_all(b"door busy\n").unwrap();
        thread::sleep(2 * IN_TIME); // nobody waits any more
        peer.write_all(b"door place\n").unwrap();
        let mut leave = [0; 6];
        peer.read_exact(&mut leave).unwrap();
        peer.write_all(b"door took 1 1.1\nleave -> left\n").unwrap();
        (line, leave)
    });
    let site = Site::connect(&path).unwrap().with_timeout(IN_TIME);
    assert_eq!((site.begin("stock", -1).err(), site.is_up()), (Some(Change::Busy), true));
    assert_eq!(door.join().unwrap(), (*b"0 open stock -1\n", *b"leave\n"));
}
