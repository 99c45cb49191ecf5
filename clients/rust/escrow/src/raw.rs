//! What `include/escrow.h` declares, and what its numbers are.

use crate::{Command, Fault, Kind, Refusal, Reply, Txn};
use core::ffi::c_void;

/// `ESCROW_TEXT`: the most bytes of an entry's text.
pub const TEXT: usize = 256;

#[repr(C)]
pub struct Handle {
    at: *mut c_void,
    full: bool,
}

impl Handle {
    pub const NONE: Handle = Handle { at: core::ptr::null_mut(), full: false };
}

#[repr(C)]
#[derive(Clone, Copy, Default)]
pub struct Ask {
    kind: u32,
    right: u32,
    epoch: u32,
    number: u32,
    field: u16,
    from: u16,
    to: u16,
    amount: u64,
    change: i64,
}

#[repr(C)]
#[derive(Clone, Copy, Default)]
pub struct Answer {
    kind: u32,
    code: u32,
    first: u64,
    second: u64,
    low: i64,
    high: i64,
}

unsafe extern "C" {
    pub fn escrow_site_open(
        handle: *mut Handle,
        header: *const u8,
        header_length: usize,
        site: u16,
        log: *const u8,
        log_length: usize,
        kept: *mut usize,
        line: *mut u64,
    ) -> u32;
    pub fn escrow_site_close(handle: *mut Handle) -> u32;
    pub fn escrow_site_ask(handle: *mut Handle, ask: *const Ask, answer: *mut Answer) -> u32;
    pub fn escrow_site_do(handle: *mut Handle, line: *const u8, line_length: usize, answer: *mut Answer) -> u32;
    pub fn escrow_site_tell(
        handle: *mut Handle,
        line: *const u8,
        line_length: usize,
        text: *mut u8,
        room: usize,
        length: *mut usize,
    ) -> u32;
    pub fn escrow_site_log_length(handle: *mut Handle, length: *mut usize) -> u32;
    pub fn escrow_site_log(handle: *mut Handle, from: usize, out: *mut u8, room: usize, copied: *mut usize) -> u32;
    pub fn escrow_site_interval(handle: *mut Handle, field: u16, low: *mut i64, high: *mut i64) -> u32;
    pub fn escrow_site_share(handle: *mut Handle, field: u16, lower: *mut u64, raise: *mut u64) -> u32;
}

fn right(kind: Kind) -> u32 {
    match kind {
        Kind::Lower => 0,
        Kind::Raise => 1,
    }
}

impl Ask {
    fn plain(kind: u32) -> Ask {
        Ask { kind, ..Ask::default() }
    }

    fn of_txn(kind: u32, txn: Txn) -> Ask {
        Ask { kind, epoch: txn.epoch, number: txn.number, ..Ask::default() }
    }

    fn of_rights(kind: u32, to: u16, field: u16, rights: Kind, amount: u64) -> Ask {
        Ask { kind, right: right(rights), field, to, amount, ..Ask::default() }
    }

    /// The numbers of a command.
    pub fn of(command: Command) -> Ask {
        match command {
            Command::Begin => Ask::plain(1),
            Command::Escrow { txn, field, change } => Ask { field, change, ..Ask::of_txn(2, txn) },
            Command::Commit { txn } => Ask::of_txn(3, txn),
            Command::Abort { txn } => Ask::of_txn(4, txn),
            Command::Give { to, field, kind, amount } => Ask::of_rights(5, to, field, kind, amount),
            Command::Restate { to, field, kind } => Ask::of_rights(6, to, field, kind, 0),
            Command::Spare { to, field, kind, want } => Ask::of_rights(7, to, field, kind, want),
            Command::Tighten { field, kind, amount } => Ask::of_rights(8, 0, field, kind, amount),
            Command::Accept(told) => {
                Ask { from: told.from, ..Ask::of_rights(9, told.to, told.field, told.kind, told.total) }
            }
            Command::Read { field } => Ask { field, ..Ask::plain(10) },
            Command::Share { field } => Ask { field, ..Ask::plain(11) },
            Command::Restart => Ask::plain(12),
        }
    }
}

impl Answer {
    fn refusal(&self) -> Option<Refusal> {
        Some(match self.code {
            1 => Refusal::Down,
            2 => Refusal::NoSite,
            3 => Refusal::NoField,
            4 => Refusal::NoTransaction,
            5 => Refusal::Zero,
            6 => Refusal::TooLarge,
            7 => Refusal::Short { share: self.first },
            8 => Refusal::SelfGift,
            9 => Refusal::LedgerFull { total: self.first },
            10 => Refusal::NotYours,
            11 => Refusal::Forged { room: self.first },
            12 => Refusal::TooManyOpen,
            13 => Refusal::TooManyEscrows,
            14 => Refusal::NumbersFull,
            15 => Refusal::NothingGiven,
            _ => return None,
        })
    }

    /// The reply of the numbers.
    pub fn reply(&self) -> Result<Reply, Fault> {
        Ok(match self.kind {
            1 => Reply::Begun(Txn { epoch: self.first as u32, number: self.second as u32 }),
            2 => Reply::Granted,
            3 => Reply::Committed,
            4 => Reply::Aborted,
            5 => Reply::Given { total: self.first },
            6 => Reply::Stated { total: self.first },
            7 => Reply::Spared { amount: self.first, total: self.second },
            8 => Reply::Tightened { total: self.first },
            9 => Reply::Accepted { gain: self.first },
            10 => Reply::Between { low: self.low, high: self.high },
            11 => Reply::Shares { lower: self.first, raise: self.second },
            12 => Reply::Restarted { epoch: self.first as u32 },
            15 => Reply::Refused(self.refusal().ok_or(Fault::Other(self.code))?),
            other => return Err(Fault::Other(other)),
        })
    }
}
