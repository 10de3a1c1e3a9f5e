//! Writes the files that are timed into a folder: `write_timed FOLDER`.

use generate::timed;
use generate::titles::folders_title;
use std::path::Path;
use std::process::ExitCode;
use std::{env, fs};

/// The seed of the files, which `bench` uses too.
const SEED: u64 = 1;

fn main() -> ExitCode {
    let arguments: Vec<String> = env::args().skip(1).collect();
    let [folder] = arguments.as_slice() else {
        eprintln!("usage: write_timed FOLDER");
        return ExitCode::from(2);
    };
    let folders = ("folders", folders_title(SEED, 15).0);
    let files = timed::all(SEED).into_iter().chain([folders]);
    for (name, file) in files.chain(timed::titles()) {
        let path = Path::new(folder).join(name).with_extension("xmf");
        if let Err(error) = fs::write(&path, file) {
            eprintln!("{}: {error}", path.display());
            return ExitCode::FAILURE;
        }
    }
    ExitCode::SUCCESS
}
