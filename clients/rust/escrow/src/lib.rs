//! A site of escrow inside a Rust program: safe calls over the library, of which `include/escrow.h` tells each.
//!
//! A [`Site`] answers commands; its log is the caller's. It opens the site over the bytes that it kept, and asks. What an
//! answer adds to the log is taken by [`Site::take_added`], written and synced, before anybody is told the answer.
//!
//! `no_std`, but for `alloc`. By cargo it is linked with `libescrow_c.so`, which `build.rs` finds; without, name the archive
//! `libescrow_c.a` and the kit's `liblibc_c.a`.
#![no_std]
#![deny(missing_docs)]

extern crate alloc;

use alloc::string::String;
use alloc::vec::Vec;
use core::fmt;

mod raw;

/// A transaction at its site: the epoch in which it was begun, and its number there.
#[derive(Clone, Copy, Debug, PartialEq, Eq, PartialOrd, Ord, Hash)]
pub struct Txn {
    /// The epoch.
    pub epoch: u32,
    /// The number in the epoch, from 1.
    pub number: u32,
}

/// A kind of rights.
#[derive(Clone, Copy, Debug, PartialEq, Eq, PartialOrd, Ord, Hash)]
pub enum Kind {
    /// Rights to lower a field.
    Lower,
    /// Rights to raise a field.
    Raise,
}

/// What a giver tells a receiver: the total of all that it gave it so far, of a kind, on a field.
#[derive(Clone, Copy, Debug, PartialEq, Eq, PartialOrd, Ord, Hash)]
#[allow(missing_docs)]
pub struct Statement {
    pub from: u16,
    pub to: u16,
    pub field: u16,
    pub kind: Kind,
    pub total: u64,
}

/// What a site is asked. Fields are named by their place in the header, from 0; a change is below 0 to lower and above 0 to
/// raise.
#[derive(Clone, Copy, Debug, PartialEq, Eq)]
#[allow(missing_docs)]
pub enum Command {
    Begin,
    Escrow { txn: Txn, field: u16, change: i64 },
    Commit { txn: Txn },
    Abort { txn: Txn },
    Give { to: u16, field: u16, kind: Kind, amount: u64 },
    Restate { to: u16, field: u16, kind: Kind },
    Spare { to: u16, field: u16, kind: Kind, want: u64 },
    Tighten { field: u16, kind: Kind, amount: u64 },
    Accept(Statement),
    Read { field: u16 },
    Share { field: u16 },
    Restart,
}

/// Why a site refused, by the numbers of docs/FORMATS.md.
#[derive(Clone, Copy, Debug, PartialEq, Eq)]
#[allow(missing_docs)]
pub enum Refusal {
    Down,
    NoSite,
    NoField,
    NoTransaction,
    Zero,
    TooLarge,
    Short { share: u64 },
    SelfGift,
    LedgerFull { total: u64 },
    NotYours,
    Forged { room: u64 },
    TooManyOpen,
    TooManyEscrows,
    NumbersFull,
    NothingGiven,
}

/// What a site answers. No answer is in doubt here, since the log in memory never fails.
#[derive(Clone, Copy, Debug, PartialEq, Eq)]
#[allow(missing_docs)]
pub enum Reply {
    Begun(Txn),
    Granted,
    Committed,
    Aborted,
    Given { total: u64 },
    Stated { total: u64 },
    Spared { amount: u64, total: u64 },
    Tightened { total: u64 },
    Accepted { gain: u64 },
    Between { low: i64, high: i64 },
    Shares { lower: u64, raise: u64 },
    Restarted { epoch: u32 },
    Refused(Refusal),
}

/// Why a call did nothing: the site and its log are as they were, but at `Untold`.
#[derive(Clone, Copy, Debug, PartialEq, Eq)]
pub enum Fault {
    /// Memory is wanting.
    NoMemory,
    /// The header tells no schema.
    NoSchema,
    /// The schema has no site of this number.
    NoSite,
    /// This line of the log, counted from 1, is no record of this site, or breaks a rule of a kept log.
    Line(u64),
    /// The line has a line feed, or more than 256 bytes.
    NoLine,
    /// The line spells no command under the schema.
    NoCommand,
    /// The line spells a command of another site.
    OtherSite,
    /// The command was carried out, and memory is wanting for its text.
    Untold,
    /// The site is down.
    Down,
    /// The schema has no field of this number.
    NoField,
    /// The log has fewer bytes than that.
    PastEnd,
    /// Another status, which this library never tells.
    Other(u32),
}

impl fmt::Display for Fault {
    fn fmt(&self, out: &mut fmt::Formatter<'_>) -> fmt::Result {
        match self {
            Fault::NoMemory => out.write_str("memory is wanting"),
            Fault::NoSchema => out.write_str("the header tells no schema"),
            Fault::NoSite => out.write_str("the schema has no site of this number"),
            Fault::Line(line) => write!(out, "line {line} of the log is no record of this site"),
            Fault::NoLine => out.write_str("the text is no line"),
            Fault::NoCommand => out.write_str("the line spells no command"),
            Fault::OtherSite => out.write_str("the line spells a command of another site"),
            Fault::Untold => out.write_str("the command was carried out, and couldn't be told"),
            Fault::Down => out.write_str("the site is down"),
            Fault::NoField => out.write_str("the schema has no such field"),
            Fault::PastEnd => out.write_str("the log has fewer bytes"),
            Fault::Other(status) => write!(out, "status {status}"),
        }
    }
}

impl core::error::Error for Fault {}

/// A site. It may go from thread to thread, and answers one call at a time.
pub struct Site {
    handle: raw::Handle,
    taken: usize,
}

// SAFETY: what a handle owns may go to another thread, which is proved of it, and `&mut self` orders the calls.
unsafe impl Send for Site {}

impl Site {
    /// Opens the site of this number, of the schema that the header tells, over what was kept of its log. A torn end is
    /// cut off the log here; cut it off the file too. Over an empty log the site is up, over any other down until it is
    /// asked to restart.
    pub fn open(header: &str, number: u16, log: &mut Vec<u8>) -> Result<Site, Fault> {
        let (mut handle, mut kept, mut line) = (raw::Handle::NONE, 0, 0);
        // SAFETY: the slices are so long, and nothing else points to what is written.
        let status = unsafe {
            raw::escrow_site_open(
                &mut handle,
                header.as_ptr(),
                header.len(),
                number,
                log.as_ptr(),
                log.len(),
                &mut kept,
                &mut line,
            )
        };
        done(status, line)?;
        log.truncate(kept);
        Ok(Site { handle, taken: kept })
    }

    /// Asks a command. A refusal is an answer.
    pub fn ask(&mut self, command: Command) -> Result<Reply, Fault> {
        let ask = raw::Ask::of(command);
        let mut answer = raw::Answer::default();
        // SAFETY: the three are apart.
        done(unsafe { raw::escrow_site_ask(&mut self.handle, &ask, &mut answer) }, 0)?;
        answer.reply()
    }

    /// Asks a command that a line spells, as `0 escrow 0.1 stock -20`.
    pub fn carry_out(&mut self, line: &str) -> Result<Reply, Fault> {
        let mut answer = raw::Answer::default();
        // SAFETY: the line is so long, and all are apart.
        done(unsafe { raw::escrow_site_do(&mut self.handle, line.as_ptr(), line.len(), &mut answer) }, 0)?;
        answer.reply()
    }

    /// Asks a command that a line spells, and answers the text of the entry, as `0 escrow 0.1 stock -20 -> granted`.
    pub fn tell(&mut self, line: &str) -> Result<String, Fault> {
        let (mut text, mut length) = (alloc::vec![0u8; raw::TEXT], 0);
        // SAFETY: line and room are so long, and all are apart.
        let status = unsafe {
            raw::escrow_site_tell(
                &mut self.handle,
                line.as_ptr(),
                line.len(),
                text.as_mut_ptr(),
                text.len(),
                &mut length,
            )
        };
        done(status, 0)?;
        text.truncate(length);
        String::from_utf8(text).map_err(|_| Fault::Untold)
    }

    /// How many bytes the log has.
    pub fn log_length(&mut self) -> Result<usize, Fault> {
        let mut length = 0;
        // SAFETY: the two are apart.
        done(unsafe { raw::escrow_site_log_length(&mut self.handle, &mut length) }, 0)?;
        Ok(length)
    }

    /// Adds to `out` what the site has added to its log since the last such call, or since it was opened. Write it behind
    /// what the file has, and sync it, before an answer is let out.
    pub fn take_added(&mut self, out: &mut Vec<u8>) -> Result<usize, Fault> {
        let start = out.len();
        let added = self.log_length()? - self.taken;
        out.resize(start + added, 0);
        let mut copied = 0;
        // SAFETY: the room is so long, and all are apart.
        let status = unsafe {
            raw::escrow_site_log(&mut self.handle, self.taken, out[start..].as_mut_ptr(), added, &mut copied)
        };
        done(status, 0)?;
        self.taken += copied;
        Ok(copied)
    }

    /// Between which values a field's committed value lies, both included.
    pub fn interval(&mut self, field: u16) -> Result<(i64, i64), Fault> {
        let (mut low, mut high) = (0, 0);
        // SAFETY: all are apart.
        done(unsafe { raw::escrow_site_interval(&mut self.handle, field, &mut low, &mut high) }, 0)?;
        Ok((low, high))
    }

    /// The free rights on a field, to lower and to raise it.
    pub fn share(&mut self, field: u16) -> Result<(u64, u64), Fault> {
        let (mut lower, mut raise) = (0, 0);
        // SAFETY: all are apart.
        done(unsafe { raw::escrow_site_share(&mut self.handle, field, &mut lower, &mut raise) }, 0)?;
        Ok((lower, raise))
    }
}

impl Drop for Site {
    fn drop(&mut self) {
        // SAFETY: the handle is this one's alone.
        unsafe { raw::escrow_site_close(&mut self.handle) };
    }
}

/// What a status tells.
fn done(status: u32, line: u64) -> Result<(), Fault> {
    Err(match status {
        0 => return Ok(()),
        1 => Fault::NoMemory,
        4 => Fault::NoSchema,
        5 => Fault::NoSite,
        6 => Fault::Line(line),
        7 => Fault::NoLine,
        8 => Fault::NoCommand,
        9 => Fault::OtherSite,
        11 => Fault::Untold,
        12 => Fault::Down,
        13 => Fault::NoField,
        14 => Fault::PastEnd,
        other => Fault::Other(other),
    })
}
