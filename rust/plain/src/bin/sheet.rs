//! Writes the support sheet of one file, or one refusal line.
//!
//! The file is named by the first argument, or read from standard input without one.

use plain::{item, node, write_sheet};
use std::fs::File;
use std::io::{self, Read, Write};

/// The largest number of bytes a file may have, and the number of bytes lent for the sheet.
const ROOM: usize = 65_536;

fn main() -> io::Result<()> {
    let mut file = Vec::new();
    match std::env::args_os().nth(1) {
        Some(path) => read(File::open(path)?, &mut file)?,
        None => read(io::stdin(), &mut file)?,
    }
    let mut out = io::stdout();
    if file.len() > ROOM {
        return out.write_all(b"too long\n");
    }
    let mut nodes = vec![0; 256 * node::WORDS];
    let mut items = vec![0; 1024 * item::WORDS];
    let mut sheet = vec![0; ROOM];
    match write_sheet(&file, &mut nodes, &mut items, &mut sheet) {
        Ok(length) => out.write_all(&sheet[..length]),
        Err(refusal) => writeln!(out, "R\t{}\t{}", refusal.number, refusal.place),
    }
}

/// Reads a source up to one byte more than a file may have.
fn read(source: impl Read, file: &mut Vec<u8>) -> io::Result<()> {
    source.take(ROOM as u64 + 1).read_to_end(file)?;
    Ok(())
}
