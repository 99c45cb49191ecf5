//! What is told over a process of its own: one that stands still holds nobody up, where there is a timeout. The words of the
//! environment are those of `door.rs`.
use escrow_served::{Change, Fault, Site};
use std::collections::HashSet;
use std::env::var;
use std::io::{ErrorKind, Write};
use std::os::unix::process::ExitStatusExt;
use std::process::{Command, Stdio};
use std::sync::mpsc::{channel, RecvTimeoutError};
use std::sync::Mutex;
use std::thread;
use std::time::{Duration, Instant};

/// A call that hangs takes longer, on however busy a machine.
const LIMIT: Duration = Duration::from_secs(120);
/// A call over a process that answers takes less.
const TIMEOUT: Duration = Duration::from_secs(4);

/// The folder of a new site, which has 5,000 to sell.
fn made(name: &str) -> String {
    let folder = format!("{}/process-{name}", var("ESCROW_PLACE").unwrap());
    let mut create = Command::new(var("ESCROW_SITE").unwrap())
        .args(["create", &folder, "--schema", "/dev/stdin", "--site", "0", "--name", "process"])
        .stdin(Stdio::piped())
        .spawn()
        .unwrap();
    let header = r#"{"sites":1,"fields":[{"name":"stock","floor":0,"ceiling":9000,"value":5000}]}"#;
    create.stdin.take().unwrap().write_all(format!("{header}\n").as_bytes()).unwrap();
    assert!(create.wait().unwrap().success());
    folder
}

fn started(folder: &str) -> Site {
    Site::start(&var("ESCROW_SITE").unwrap(), folder).unwrap()
}

/// The process that serves this folder.
fn served(folder: &str) -> u32 {
    let tasks = std::fs::read_dir("/proc/self/task").unwrap();
    let told: Vec<String> = tasks.filter_map(|it| std::fs::read_to_string(it.ok()?.path().join("children")).ok()).collect();
    let is_it =
        |it: &&str| std::fs::read(format!("/proc/{it}/cmdline")).is_ok_and(|it| it.ends_with(format!("{folder}\0").as_bytes()));
    told.iter().flat_map(|it| it.split_whitespace()).find(is_it).unwrap().parse().unwrap()
}

fn signal(name: &str, process: u32) {
    let _ = Command::new("kill").args([format!("-{name}"), process.to_string()]).stderr(Stdio::null()).status();
    while name == "STOP" && !is_still(process) {
        thread::sleep(Duration::from_millis(5));
    }
}

/// Whether a process stands still, or has ended.
fn is_still(process: u32) -> bool {
    let told = std::fs::read_to_string(format!("/proc/{process}/stat"));
    told.map_or(true, |it| it.rsplit_once(')').is_some_and(|it| it.1.starts_with(" T ") || it.1.starts_with(" Z ")))
}

/// Does something while the process stands still. Where that hangs the process is killed, so that the test ends, and fails.
fn within_limit<T>(process: u32, does: impl FnOnce() -> T) -> T {
    let (done, waits) = channel::<()>();
    let watch = thread::spawn(move || {
        let hangs = waits.recv_timeout(LIMIT) == Err(RecvTimeoutError::Timeout);
        if hangs {
            signal("KILL", process);
        }
        !hangs
    });
    signal("STOP", process);
    let told = does();
    drop(done);
    assert!(watch.join().unwrap(), "it hangs");
    told
}

#[test]
fn no_call_hangs_over_a_full_pipe() {
    let folder = made("full");
    let site = started(&folder).with_timeout(TIMEOUT);
    assert!(matches!(site.change("stock", -1), Change::Committed(_)));
    let (told, process) = (Mutex::new(Vec::new()), served(&folder));
    within_limit(process, || {
        let ask = || {
            let it = site.change("stock", -1);
            told.lock().unwrap().push(it);
        };
        thread::scope(|scope| (0..2_000).for_each(|_| drop(scope.spawn(ask))));
        assert_eq!((site.read("stock").ok(), site.change("stock", -1), site.is_up()), (None, Change::Busy, false));
        drop(site);
    });
    let told = told.into_inner().unwrap();
    let doubt: HashSet<&str> =
        told.iter().filter_map(|it| if let Change::InDoubt(id) = it { Some(&id[..]) } else { None }).collect();
    let busy = told.iter().filter(|it| **it == Change::Busy).count();
    assert!(doubt.len() + busy == 2_000 && busy > 0 && doubt.len() > 1, "{} in doubt, {busy} weren't asked", doubt.len());
    let site = started(&folder);
    let kept = doubt.iter().filter(|it| site.kept(it).unwrap().unwrap()).count() as u64;
    assert_eq!(site.share("stock").unwrap(), (4_999 - kept, 4_001 + kept));
}

#[test]
fn neither_a_transaction_nor_the_end_hangs() {
    let folder = made("end");
    let site = started(&folder).with_timeout(TIMEOUT);
    let mut held = site.begin("stock", -1).ok().unwrap();
    let id = held.id().to_string();
    let doubt = within_limit(served(&folder), || {
        assert_eq!(held.change("stock", -1), Err(Change::Lost(id.clone())));
        assert_eq!(held.commit(), Change::Lost(id.clone())); // it is aborted by then
        let Change::InDoubt(doubt) = site.change("stock", -1) else { panic!("it was answered") };
        assert!(matches!((site.kept(&doubt), site.kept_key("key", None)), (Err(Fault::Late), Err(Fault::Late))));
        doubt
    });
    assert!(site.is_up());
    assert!(matches!(within_limit(served(&folder), || site.end()), Err(Fault::Ended(it)) if it.signal() == Some(9)));
    let site = started(&folder);
    assert_eq!((site.kept(&id).unwrap(), site.kept(&doubt).unwrap().is_some()), (Some(false), true));
}

/// One is in its `write` for long: the others have their time, and nothing of theirs is left behind.
#[test]
fn who_waits_to_write_has_its_time_too() {
    let folder = made("books");
    let site = started(&folder).with_timeout(TIMEOUT);
    let held = site.begin("stock", -1_000).ok().unwrap();
    let id = held.id().to_string();
    let ((is_in, waits_for_it), (go_on, may_go_on)) = (channel(), channel::<()>());
    thread::scope(|scope| {
        let site = &site;
        let slow = scope.spawn(move || {
            let write = |_: &str| is_in.send(()).map(|()| may_go_on.recv_timeout(LIMIT).is_ok());
            site.change_before("stock", -1, |id| write(id).map(|is_told| assert!(is_told, "the others hang")))
        });
        waits_for_it.recv().unwrap();
        assert_eq!(site.change("stock", -1), Change::Busy);
        assert!(matches!((site.read("stock"), site.share("stock")), (Err(Fault::Late), Err(Fault::Late))));
        assert_eq!(site.begin("stock", -1).err(), Some(Change::Busy));
        assert_eq!(held.commit(), Change::Lost(id.clone()));
        go_on.send(()).unwrap();
        assert!(!matches!(slow.join().unwrap(), Ok(Change::Refused(_) | Change::Busy)) && site.is_up());
    });
    let site = site.with_timeout(LIMIT);
    assert_eq!((site.share("stock").unwrap(), site.kept(&id).unwrap()), ((4_999, 4_001), Some(false)));
}

extern "C" {
    fn fork() -> i32;
    fn _exit(status: i32) -> !;
    fn waitpid(process: i32, status: *mut i32, options: i32) -> i32;
}

/// Does something in a fork of this process: whether it holds there, in time.
fn holds_in_fork(holds: impl FnOnce() -> bool) -> bool {
    // SAFETY: the fork has this thread alone. It ends by `_exit`, and asks nothing that another thread has to do.
    let process = unsafe { fork() };
    if process == 0 {
        let status = i32::from(!holds());
        // SAFETY: it ends the fork, and nothing of the process that it was made of.
        unsafe { _exit(status) }
    }
    let (end, mut status) = (Instant::now() + LIMIT, 0);
    // SAFETY: `status` outlives the call; 1 is WNOHANG.
    while unsafe { waitpid(process, &mut status, 1) } == 0 {
        if Instant::now() > end {
            signal("KILL", process as u32);
        }
        thread::sleep(Duration::from_millis(5));
    }
    status == 0
}

fn is_forked<T>(told: Result<T, Fault>) -> bool {
    matches!(told, Err(Fault::Forked(process)) if process == std::os::unix::process::parent_id())
}

#[test]
fn a_fork_asks_nothing_and_ends_nothing() {
    let (folder, other) = (made("fork"), made("of-fork"));
    let mut own = Some(started(&folder).with_timeout(LIMIT));
    let site = own.as_ref().unwrap();
    let mut held = site.begin("stock", -3).ok();
    let is_refused = |told: Change| matches!(told, Change::Refused(why) if why.contains("open a Site of its own"));
    assert!(holds_in_fork(|| is_refused(site.change("stock", -1)) && is_refused(site.begin("stock", -1).err().unwrap())));
    assert!(holds_in_fork(|| is_refused(site.change_before("stock", -1, |_| Err(())).unwrap())));
    assert!(holds_in_fork(|| is_forked(site.change_by_key("stock", -1, "key", None)) && is_forked(site.kept_key("key", None))));
    assert!(holds_in_fork(|| is_forked(site.kept("1.1")) && is_forked(site.position())));
    assert!(holds_in_fork(|| is_forked(site.read("stock")) && is_forked(site.share("stock")) && !site.is_up()));
    assert!(holds_in_fork(|| is_refused(held.as_mut().unwrap().change("stock", -1).unwrap_err())));
    assert!(holds_in_fork(|| held.take().is_some_and(|it| is_refused(it.commit()))));
    assert!(holds_in_fork(|| held.take().is_some_and(|it| is_forked(it.commit_by_key("key", None)))));
    assert!(holds_in_fork(|| held.take().is_some()));
    assert!(holds_in_fork(|| matches!(started(&other).change("stock", -1), Change::Committed(_))), "it has one of its own");
    assert!(matches!(held.unwrap().commit(), Change::Committed(_)));
    assert!(holds_in_fork(|| own.take().is_some_and(|it| is_forked(it.end()))));
    assert!(holds_in_fork(|| own.take().is_some()));
    let site = own.unwrap();
    assert!(matches!(site.change("stock", -1), Change::Committed(id) if id.ends_with("-0-1.2")));
    assert_eq!((site.share("stock").unwrap(), site.end().is_ok()), ((4_996, 4_004), true));
}

#[test]
fn a_signal_to_the_group_of_this_process_is_not_for_its() {
    let folder = made("group");
    let site = started(&folder);
    let process = served(&folder);
    let told = std::fs::read_to_string(format!("/proc/{process}/stat")).unwrap();
    let group = told.rsplit_once(") ").unwrap().1.split(' ').nth(2).unwrap(); // behind its state and its parent
    assert_eq!(group, process.to_string());
    assert!(site.end().unwrap().success());
}

#[test]
fn a_timeout_of_zero_is_none() {
    let folder = made("zero");
    let site = started(&folder).with_timeout(TIMEOUT).with_timeout(Duration::ZERO);
    assert!(matches!(site.change("stock", -1), Change::Committed(_)));
    assert!(site.end().unwrap().success());
}

/// A program in this folder, of this text.
fn script(folder: &str, text: &str) -> String {
    let program = format!("{folder}/program");
    let words = ["-c", "printf %s \"$0\" > $1; chmod 755 $1", text, &program]; // so that no fork keeps it open
    assert!(Command::new("sh").args(words).status().unwrap().success());
    program
}

#[test]
fn a_refusal_that_standard_error_can_not_tell_is_the_fault() {
    let (folder, told) = (made("stream"), "escrow_site: shop/log: is where standard error goes: send that elsewhere");
    let program = script(&folder, &format!("#!/bin/sh\necho {told}\nexit 3\n"));
    assert_eq!(Site::start(&program, &folder).err().unwrap().to_string(), told);
}

#[test]
fn a_program_that_tells_nothing_is_killed() {
    let folder = made("silent");
    let program = script(&folder, "#!/bin/sh\necho $$ > $2/process\nexec sleep 600\n");
    let (told, tells) = channel();
    thread::spawn({
        let folder = folder.clone();
        move || told.send(Site::start(&program, &folder).map(drop))
    });
    let fault = tells.recv_timeout(LIMIT).expect("it hangs").unwrap_err();
    assert!(matches!(&fault, Fault::Io(it) if it.kind() == ErrorKind::TimedOut), "{fault}");
    assert!(fault.to_string().contains("doesn't answer within 10 seconds"), "{fault}");
    let process = std::fs::read_to_string(format!("{folder}/process")).unwrap();
    assert!(!std::path::Path::new(&format!("/proc/{}", process.trim())).exists());
}

#[test]
fn what_is_missing_is_told() {
    let (folder, program) = (made("named"), var("ESCROW_SITE").unwrap());
    let told = |program: &str, folder: &str| Site::start(program, folder).err().unwrap().to_string();
    let fault = told(&program, "/nowhere/shop");
    assert!(fault.starts_with("/nowhere/shop/site: ") && fault.contains("`escrow_site create`"), "{fault}");
    let fault = told("/nowhere/escrow_site", &folder);
    assert!(fault.starts_with("/nowhere/escrow_site: ") && fault.contains("PATH"), "{fault}");
    let fault = told("true", &folder);
    assert!(fault.contains("without a line"), "{fault}");
    let site = started(&folder);
    assert_eq!(site.change("stick", -1), Change::Refused("no such field".to_string()));
    assert!(matches!(site.read("stick"), Err(Fault::Refused(why)) if why == "no such field"));
    assert!(matches!(site.share("stick"), Err(Fault::Refused(why)) if why == "no such field"));
}
