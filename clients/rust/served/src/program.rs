//! Starts the process that serves a site, and hears what it begins with.
use crate::lines::{left, wait_for, End};
use crate::{ready_of, Fault};
use std::io::{BufRead, BufReader, Error, ErrorKind};
use std::net::Shutdown;
use std::os::fd::OwnedFd;
use std::os::unix::net::UnixStream;
use std::os::unix::process::CommandExt;
use std::process::{Child, Command};
use std::time::{Duration, Instant};

/// A start takes so many seconds at most.
const SECONDS: u64 = 10;

/// A process that serves, and where its further lines come from.
pub(crate) struct Program {
    pub child: Child,
    pub number: String,
    /// The first digits of the world's name.
    pub world: String,
    /// The epoch, and whether the log was shortened, or may be.
    pub ready: (u32, bool),
    pub input: BufReader<UnixStream>,
}

/// Starts the program over this folder. One that doesn't serve in time is killed.
pub(crate) fn start(program: &str, folder: &str, options: &[&str]) -> Result<Program, Fault> {
    let path = format!("{folder}/site");
    let whose =
        std::fs::read_to_string(&path).map_err(|fault| missing(&fault, &path, "`escrow_site create` makes the folder, once"))?;
    let world = whose.lines().find_map(|it| it.strip_prefix("world ")?.get(..8)).unwrap_or_default().to_string();
    let where_it_is = "give the path of the program escrow_site, or put its folder on PATH";
    let (mut child, peer) = spawn(program, folder, options).map_err(|fault| missing(&fault, program, where_it_is))?;
    let (mut input, end) = (BufReader::new(peer), Some(Instant::now() + Duration::from_secs(SECONDS)));
    match hear(program, &mut input, end) {
        Ok((ready, number)) if !world.is_empty() => Ok(Program { child, number, world, ready, input }),
        told => {
            let _ = input.get_ref().shutdown(Shutdown::Write); // it ends
            let status = wait_for(&mut child, end).map_err(Fault::Io)?;
            Err(match told.err().unwrap_or(Fault::Line(whose)) {
                fault if status.success() || left(end).is_zero() => fault,
                // Its standard error, which is this program's, goes to a file of a site.
                Fault::Line(told) if told.starts_with("escrow_site: ") => Fault::Io(Error::new(ErrorKind::Other, told)),
                _ => Fault::Ended(status),
            })
        }
    }
}

/// A fault that tells the path, and what to do where there is nothing.
fn missing(fault: &Error, path: &str, remedy: &str) -> Fault {
    let remedy = if fault.kind() == ErrorKind::NotFound { format!(": {remedy}") } else { String::new() };
    Fault::Io(Error::new(fault.kind(), format!("{path}: {fault}{remedy}")))
}

/// The process, and the end here of its input and output.
fn spawn(program: &str, folder: &str, options: &[&str]) -> Result<(Child, UnixStream), Error> {
    let (ours, theirs) = UnixStream::pair()?; // writes to a pipe could be given no time
    let folder = if folder.starts_with('-') { format!("./{folder}") } else { folder.to_string() }; // no option
    let child = Command::new(program)
        .args(["serve", &folder])
        .args(options)
        .stdin(OwnedFd::from(theirs.try_clone()?))
        .stdout(OwnedFd::from(theirs))
        .process_group(0) // so that a Ctrl-C is for this program alone, which may end gracefully
        .spawn()?;
    Ok((child, ours))
}

/// What it is ready for, and the number of the site.
fn hear(program: &str, input: &mut BufReader<UnixStream>, end: End) -> Result<((u32, bool), String), Fault> {
    let told = first_lines(input, end).map_err(|fault| match fault.kind() {
        ErrorKind::WouldBlock | ErrorKind::TimedOut => {
            let why = format!("{program}: doesn't answer within {SECONDS} seconds of its start, and was killed");
            Fault::Io(Error::new(ErrorKind::TimedOut, why))
        }
        _ => Fault::Io(fault),
    })?;
    let (ready, restart) = told.split_once('\n').unwrap_or_default();
    let number = restart.split_once(' ').filter(|_| restart.ends_with('\n')).map(|it| it.0.to_string());
    Ok((ready_of(ready)?, number.ok_or(Fault::Line(told))?))
}

/// The first two lines, or what there is of them where the process ends before.
fn first_lines(input: &mut BufReader<UnixStream>, end: End) -> Result<String, Error> {
    let mut told = Vec::new();
    while told.iter().filter(|it| **it == b'\n').count() < 2 {
        if left(end).is_zero() {
            return Err(ErrorKind::TimedOut.into());
        }
        input.get_ref().set_read_timeout(Some(left(end).max(Duration::from_millis(1))))?;
        let found = match input.fill_buf() {
            Err(fault) if fault.kind() == ErrorKind::Interrupted => continue,
            found => found?,
        };
        let many = found.iter().position(|it| *it == b'\n').map_or(found.len(), |at| at + 1);
        told.extend_from_slice(&found[..many]);
        input.consume(many);
        if many == 0 {
            break;
        }
    }
    input.get_ref().set_read_timeout(None)?;
    Ok(String::from_utf8_lossy(&told).into_owned())
}
