//! Comes in by a door: what it begins with, and whether it is the door itself that tells it.
use crate::Fault;
use std::io::{BufRead, BufReader, Error, ErrorKind};
use std::os::fd::{AsRawFd, FromRawFd, OwnedFd};
use std::os::unix::net::UnixStream;
use std::thread;
use std::time::{Duration, Instant};

/// What a door begins with, and where its further lines come from.
pub(crate) struct Hello {
    pub number: String,
    pub world: String,
    pub header: String,
    /// The epoch, and whether the log was shortened, or may be.
    pub ready: (u32, bool),
    /// Whether the door itself is at the other end, and no program in between.
    pub is_direct: bool,
    pub input: BufReader<UnixStream>,
}

/// Comes in by the door at this path, where there is one within this time: it may be about to start.
pub(crate) fn come_in(path: &str, wait: Duration) -> Result<Hello, Fault> {
    let end = Instant::now() + wait;
    loop {
        let left = end.saturating_duration_since(Instant::now());
        let fault = match UnixStream::connect(path) {
            Ok(peer) => match hear(peer, left.max(Duration::from_millis(1))) {
                Err(Fault::Door(why)) => Fault::Door(format!("{path}: {why}")),
                told => return told,
            },
            Err(fault) if matches!(fault.kind(), ErrorKind::NotFound | ErrorKind::ConnectionRefused) => {
                let start = format!("start one: python3 -m escrow.door FOLDER --socket {path}");
                Fault::Door(format!("{path}: nobody is behind this door: {start}: {fault}"))
            }
            Err(fault) if fault.kind() == ErrorKind::PermissionDenied => {
                return Err(Fault::Door(format!("{path}: {fault}: its owner and mode tell who may come in")));
            }
            Err(fault) => return Err(Fault::Door(format!("{path}: {fault}"))),
        };
        if left.is_zero() {
            return Err(fault);
        }
        thread::sleep(left.min(Duration::from_millis(50)));
    }
}

/// Its first lines. `Fault::Door`, where it may be tried anew.
fn hear(peer: UnixStream, wait: Duration) -> Result<Hello, Fault> {
    let none = |fault: Error| match fault.kind() {
        ErrorKind::WouldBlock | ErrorKind::TimedOut => {
            Fault::Door("the door doesn't answer: its site doesn't stand yet, or the door stands still".to_string())
        }
        _ => Fault::Door(format!("the door has ended before it answered: {fault}")),
    };
    peer.set_read_timeout(Some(wait)).map_err(Fault::Io)?;
    let (first, is_direct) = first_byte(&peer).map_err(none)?;
    let (mut input, mut told) = (BufReader::new(peer), String::from(first));
    while told.matches('\n').count() < 5 && !told.starts_with("door end ") {
        if input.read_line(&mut told).map_err(none)? == 0 {
            return Err(none(ErrorKind::UnexpectedEof.into()));
        }
    }
    if let Some(why) = told.strip_prefix("door end ") {
        return Err(Fault::Door(why.trim_end().to_string()));
    }
    input.get_ref().set_read_timeout(None).map_err(Fault::Io)?;
    let lines: Vec<&str> = told.lines().collect();
    let found = (|| {
        let (number, world) = (lines[1].strip_prefix("number ")?, lines[2].strip_prefix("world ")?.get(..8)?);
        Some((number.to_string(), world.to_string(), lines[3].to_string())).filter(|_| lines[0] == "escrow door 1")
    })();
    let (number, world, header) = found.ok_or_else(|| Fault::Line(lines[0].to_string()))?;
    Ok(Hello { number, world, header, ready: crate::ready_of(lines[4])?, is_direct, input })
}

#[repr(C)]
struct Piece {
    base: *mut u8,
    length: usize,
}

#[repr(C)]
struct Message {
    name: *mut u8,
    name_length: u32,
    pieces: *mut Piece,
    piece_count: usize,
    control: *mut u64,
    control_length: usize,
    flags: i32,
}

extern "C" {
    fn recvmsg(socket: i32, message: *mut Message, flags: i32) -> isize;
}

/// The first byte, and whether a descriptor came with it, which no program in between passes on. The standard library of Rust
/// tells nothing of descriptors.
fn first_byte(peer: &UnixStream) -> Result<(char, bool), Error> {
    const CLOSED_IN_CHILDREN: i32 = 0x4000_0000; // MSG_CMSG_CLOEXEC
    let (mut byte, mut control) = (0_u8, [0_u64; 4]); // of the control: its length, SOL_SOCKET with SCM_RIGHTS, the descriptor
    let mut piece = Piece { base: &mut byte, length: 1 };
    let mut message = Message {
        name: std::ptr::null_mut(),
        name_length: 0,
        pieces: &mut piece,
        piece_count: 1,
        control: control.as_mut_ptr(),
        control_length: std::mem::size_of_val(&control),
        flags: 0,
    };
    // SAFETY: the message, its one piece and its control outlive the call, and their lengths are told; Linux has this layout on
    // machines of 64 bits.
    match unsafe { recvmsg(peer.as_raw_fd(), &mut message, CLOSED_IN_CHILDREN) } {
        1 => {}
        0 => return Err(ErrorKind::UnexpectedEof.into()),
        _ => return Err(Error::last_os_error()),
    }
    let has_token = message.control_length >= 20 && control[1] == 1 << 32 | 1;
    if has_token {
        // SAFETY: the system has just made this descriptor, for this process alone.
        drop(unsafe { OwnedFd::from_raw_fd(control[2] as u32 as i32) });
    }
    Ok((char::from(byte), has_token))
}
