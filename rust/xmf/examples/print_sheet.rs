//! Prints the support sheet of a file, or one refusal line: `print_sheet FILE`.

use std::io::{self, Write};
use std::{env, fs, process};
use xmf::{File, Tables};

/// The room for a sheet.
const ROOM: usize = 65_536;

fn main() -> io::Result<()> {
    let Some(path) = env::args_os().nth(1) else {
        eprintln!("usage: print_sheet FILE");
        process::exit(2);
    };
    let bytes = fs::read(path)?;
    let mut tables = Box::new(Tables::default());
    let mut room = vec![0; ROOM];
    let sheet = File::read(&bytes, &mut tables).and_then(|mut file| file.write_sheet(&mut room));
    match sheet {
        Ok(sheet) => io::stdout().write_all(sheet),
        Err(refusal) => writeln!(io::stdout(), "R\t{}\t{}", refusal.number, refusal.place),
    }
}
