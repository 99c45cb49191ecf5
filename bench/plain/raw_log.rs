//! A plain log: for each line that it reads it appends a record of 16 bytes, syncs it and answers a line. What one read
//! brings is one append and one sync.

use std::env;
use std::fs::OpenOptions;
use std::io::{self, Read, Write};

fn main() -> io::Result<()> {
    let path = env::args().nth(1).expect("the path of the log");
    let mut log = OpenOptions::new().create(true).append(true).open(path)?;
    let (mut input, mut output) = (io::stdin().lock(), io::stdout().lock());
    let mut piece = [0; 65_536];
    loop {
        let count = input.read(&mut piece)?;
        if count == 0 {
            return Ok(());
        }
        let lines = piece[..count].iter().filter(|byte| **byte == b'\n').count();
        log.write_all(&b"C 0 1 0 -1 16 B\n".repeat(lines))?;
        log.sync_data()?;
        output.write_all(&b"appended\n".repeat(lines))?;
        output.flush()?;
    }
}
