//! A log that lets go of its front, over `$ESCROW_PYTHON/tests/forgetful_site.py`, which stands in for the program: nothing that it
//! has let go of is sold twice, and by its position a new key is sold. The other words of the environment are those of `door.rs`.
use escrow_served::{Change, Fault, Site};
use std::env::var;
use std::fs;
use std::io::{Read, Write};
use std::os::unix::net::UnixStream;
use std::process::{Child, Command, Stdio};
use std::thread;
use std::time::Duration;

fn program() -> String {
    format!("{}/tests/forgetful_site.py", var("ESCROW_PYTHON").unwrap())
}

/// The folder of a new site, which answers so.
fn forgetful(name: &str, told: &str) -> String {
    let folder = format!("{}/forgetful-{name}", var("ESCROW_PLACE").unwrap());
    let mut create = Command::new(var("ESCROW_SITE").unwrap())
        .args(["create", &folder, "--schema", "/dev/stdin", "--site", "0", "--name", "forgetful"])
        .stdin(Stdio::piped())
        .spawn()
        .unwrap();
    let header = r#"{"sites":2,"fields":[{"name":"stock","floor":0,"ceiling":100,"value":40}]}"#;
    create.stdin.take().unwrap().write_all(format!("{header}\n").as_bytes()).unwrap();
    assert!(create.wait().unwrap().success());
    tell(&folder, told);
    folder
}

/// Has it answer so from now on.
fn tell(folder: &str, told: &str) {
    fs::write(format!("{folder}/told.new"), told).unwrap();
    fs::rename(format!("{folder}/told.new"), format!("{folder}/told")).unwrap();
}

/// How often anything was committed.
fn sold(folder: &str) -> usize {
    fs::read_to_string(format!("{folder}/commits")).map_or(0, |it| it.lines().count())
}

/// A door over the folder, which ends with it.
struct Door(Child);

impl Door {
    fn new(folder: &str, path: &str) -> Door {
        let words = ["-S", "-m", "escrow.door", folder, "--socket", path, "--program", &program()];
        let mut command = Command::new(var("ESCROW_INTERPRETER").unwrap_or("python3".to_string()));
        let child = command.args(words).env("PYTHONPATH", var("ESCROW_PYTHON").unwrap()).stderr(Stdio::null()).spawn().unwrap();
        while !UnixStream::connect(path).is_ok_and(|mut it| it.read(&mut [0; 8]).is_ok_and(|many| many > 0)) {
            thread::sleep(Duration::from_millis(5));
        }
        Door(child)
    }
}

impl Drop for Door {
    fn drop(&mut self) {
        let _ = self.0.kill();
        let _ = self.0.wait();
    }
}

fn committed(told: Change) -> String {
    match told {
        Change::Committed(id) => id,
        other => panic!("{other:?}"),
    }
}

fn is_forgotten<T>(told: Result<T, Fault>, what: &str) -> bool {
    matches!(told, Err(Fault::Forgotten(it)) if it == what)
}

/// What a site tells of what it has let go of.
fn try_forgotten(folder: &str, site: &Site) {
    let first = committed(site.change_by_key("stock", -3, "order", None).unwrap());
    assert_eq!(committed(site.change_by_key("stock", -3, "order", None).unwrap()), first);
    let begun = site.begin("stock", -3).unwrap();
    assert_eq!((committed(begun.commit_by_key("order", None).unwrap()), sold(folder)), (first.clone(), 1));
    assert_eq!((site.kept_key("order", None).unwrap(), site.kept_key("other", None).unwrap()), (Some(first.clone()), None));
    tell(folder, r#"{"horizon": [1, 9]}"#);
    assert!(is_forgotten(site.kept(&first), &first) && is_forgotten(site.kept_key("order", None), "order"));
    assert!(is_forgotten(site.change_by_key("stock", -3, "order", None), "order"), "it would be sold twice");
    assert!(is_forgotten(site.change_by_key("stock", -300, "order", None), "order"), "it may be sold, and not short");
    assert!(is_forgotten(site.begin("stock", -3).unwrap().commit_by_key("order", None), "order"));
    assert_eq!((site.share("stock").unwrap(), sold(folder)), ((17, 33), 1));
    tell(folder, r#"{"keyed": "forgotten"}"#);
    assert!(is_forgotten(site.change_by_key("stock", -3, "new", None), "new"));
    tell(folder, r#"{"word": "perhaps", "keyed": "perhaps"}"#);
    assert!(matches!(site.kept(&first), Err(Fault::Line(it)) if it == "perhaps"));
    assert!(matches!(site.kept_key("order", None), Err(Fault::Line(it)) if it == "perhaps"));
    assert!(matches!(site.change_by_key("stock", -3, "new", None), Err(Fault::Line(it)) if it == "perhaps"));
    assert_eq!((site.share("stock").unwrap(), sold(folder)), ((17, 33), 1));
}

#[test]
fn what_is_forgotten_is_never_sold_again() {
    let folder = forgetful("folder", "{}");
    let site = Site::start(&program(), &folder).unwrap();
    try_forgotten(&folder, &site);
    site.end().unwrap();
    let folder = forgetful("behind-a-door", "{}");
    let door = Door::new(&folder, &format!("{folder}.door"));
    try_forgotten(&folder, &Site::connect(&format!("{folder}.door")).unwrap());
    drop(door);
}

/// Sells by keys with their positions, 1 each: new ones are sold over a shortened log, and what was let go of isn't.
fn try_positions(folder: &str, site: &Site) {
    let start = site.position().unwrap();
    assert!(start.ends_with("-0-1.0"), "{start}");
    let by_change = |key: &str, since: &str| site.change_by_key("stock", -1, key, Some(since));
    let by_commit = |key: &str, since: &str| site.begin("stock", -1).unwrap().commit_by_key(key, Some(since));
    let first = committed(by_change("first", &start).unwrap());
    assert_eq!(site.position().unwrap(), first);
    tell(folder, r#"{"horizon": [1, 1]}"#);
    let ways: [(&str, &dyn Fn(&str, &str) -> Result<Change, Fault>); 2] = [("change", &by_change), ("commit", &by_commit)];
    for (name, sell) in ways {
        for key in ["first", name] {
            assert!(is_forgotten(sell(key, &start), key), "its position is of before the horizon");
            assert!(is_forgotten(site.kept_key(key, Some(&start)), key));
        }
        let (since, many) = (site.position().unwrap(), sold(folder));
        let id = committed(sell(name, &since).unwrap());
        assert_eq!((committed(sell(name, &since).unwrap()), sold(folder)), (id.clone(), many + 1));
        assert_eq!(site.kept_key(name, Some(&since)).unwrap(), Some(id));
    }
    assert_eq!(site.kept_key("new", Some(&first)).unwrap(), None);
    assert!(matches!(site.change_by_key("stock", -300, "new", Some(&first)), Ok(Change::Refused(_))));
    let front = start.strip_suffix("0-1.0").unwrap();
    let others = ["01234567-0-1.0", &format!("{front}1-1.0"), &format!("{front}0-2.0"), &format!("{front}0-1.900"), "now", ""];
    for since in others {
        assert!(matches!(site.kept_key("new", Some(since)), Err(Fault::Id(_))), "{since}");
        assert!(matches!(by_change("new", since), Err(Fault::Id(_))) && matches!(by_commit("new", since), Err(Fault::Id(_))));
    }
    let begun = site.begin("stock", -1).unwrap();
    let fault = begun.commit_by_key("open", Some(&site.position().unwrap())).unwrap_err().to_string();
    assert!(fault.contains("isn't ahead of transaction 1."), "{fault}");
    assert_eq!((site.share("stock").unwrap(), sold(folder)), ((17, 33), 3));
}

#[test]
fn a_new_key_is_sold_by_its_position() {
    let folder = forgetful("positions", "{}");
    let site = Site::start(&program(), &folder).unwrap();
    try_positions(&folder, &site);
    site.end().unwrap();
    let folder = forgetful("positions-behind-a-door", "{}");
    let door = Door::new(&folder, &format!("{folder}.door"));
    let (ours, other) = (Site::connect(&format!("{folder}.door")).unwrap(), Site::connect(&format!("{folder}.door")).unwrap());
    try_positions(&folder, &ours);
    assert_eq!(committed(other.change("stock", -1)), ours.position().unwrap());
    drop(door);
}

#[test]
fn a_position_tells_behind_a_stop() {
    for stop in ["ahead", "behind"] {
        let folder = forgetful(&format!("position-{stop}"), &format!(r#"{{"stop": "{stop}", "then": {{"horizon": [1, 0]}}}}"#));
        let site = Site::start(&program(), &folder).unwrap();
        let since = site.position().unwrap();
        let Ok(Change::InDoubt(doubt)) = site.change_by_key("stock", -3, "order", Some(&since)) else {
            panic!("it was answered")
        };
        drop(site);
        let site = Site::start(&program(), &folder).unwrap();
        let id = committed(site.change_by_key("stock", -3, "order", Some(&since)).unwrap());
        assert_eq!((sold(&folder), id == doubt), (1, stop == "behind"));
        tell(&folder, r#"{"horizon": [9, 0]}"#);
        assert!(is_forgotten(site.change_by_key("stock", -3, "order", Some(&since)), "order") && sold(&folder) == 1);
    }
}

#[test]
fn a_stop_leaves_it_in_doubt_for_good() {
    let folder = forgetful("stopped", r#"{"stop": "behind", "then": {"horizon": [9, 0]}}"#);
    let site = Site::start(&program(), &folder).unwrap();
    let Change::InDoubt(id) = site.change("stock", -3) else { panic!("it was answered") };
    drop(site);
    let site = Site::start(&program(), &folder).unwrap();
    assert!(is_forgotten(site.kept(&id), &id));
    let told = site.kept(&id).unwrap_err().to_string();
    assert!(told.starts_with(&id) && told.ends_with("never ask for the same anew"), "{told}");
    assert_eq!(sold(&folder), 1);
}

#[test]
fn a_log_that_is_whole_is_told_no_position() {
    let folder = forgetful("whole", r#"{"version": 1}"#);
    let site = Site::start(&program(), &folder).unwrap();
    let since = site.position().unwrap();
    let id = committed(site.change_by_key("stock", -3, "order", Some(&since)).unwrap());
    assert_eq!(site.kept_key("order", Some(&since)).unwrap(), Some(id));
    assert!(!fs::read_to_string(format!("{folder}/lines")).unwrap().contains("since"));
}

/// Over the real program, which lets go of the front of its log.
#[test]
fn options_are_those_of_the_program() {
    let folder = forgetful("options", "{}");
    let real = var("ESCROW_SITE").unwrap();
    let site = Site::start_with(&real, &folder, &["--keep", "0", "--no-sync"]).unwrap();
    let (first, start) = (committed(site.change("stock", -1)), site.position().unwrap());
    for _ in 0..4_000 {
        committed(site.change("stock", -1));
        committed(site.change("stock", 1));
    }
    assert!(is_forgotten(site.kept(&first), &first) && is_forgotten(site.kept_key("order", Some(&start)), "order"));
    let size = fs::metadata(format!("{folder}/log")).unwrap().len();
    assert!(size < 60_000, "{size}: 8,001 commits are 120,000 bytes");
    site.end().unwrap();
    for options in [&["--keep"][..], &["--keep", "many"], &["--kept", "0"]] {
        let told = Site::start_with(&real, &folder, options).err().unwrap();
        assert!(matches!(&told, Fault::Ended(it) if it.code() == Some(2)), "{options:?}: {told}");
    }
}

#[test]
fn a_newer_program_is_refused() {
    let folder = forgetful("newer", r#"{"version": 3}"#);
    let told = Site::start(&program(), &folder).err().unwrap();
    assert!(matches!(told, Fault::Newer(3)) && told.to_string().contains("newer than this client"), "{told}");
    let path = format!("{folder}.newer");
    let listener = std::os::unix::net::UnixListener::bind(&path).unwrap();
    thread::spawn(move || {
        let hello = "escrow door 1\nnumber 0\nworld 0123456789\n{}\nready 3 1 4\n";
        listener.accept().unwrap().0.write_all(hello.as_bytes()).unwrap();
    });
    assert!(matches!(Site::connect(&path), Err(Fault::Newer(3))));
}
