//! Links the proved library.
//!
//! In a checkout whose `target/staticlib/libcapi.a` is there, that archive, made current by `tools/build.sh`. Where it is not there, an
//! installed `libxmf` of this version that pkg-config finds; and where there is none, the archive, which `tools/build.sh` then makes. That
//! proves it, which takes some minutes: what it says goes to the terminal at once, and to the warnings of cargo when it is done.
//! With `XMF_NO_PKG_CONFIG` in the environment no installed library is taken.

use std::env;
use std::fs::{File, OpenOptions};
use std::io::{BufRead, BufReader, Write};
use std::path::{Path, PathBuf};
use std::process::{Command, Stdio};

/// The archive, and what it is made from beside the crates.
const ARCHIVE: &str = "target/staticlib/libcapi.a";
const PARTS: [&str; 4] = ["crates.txt", "share/build.sh", "tools/build.sh", ARCHIVE];

fn main() {
    let manifest = env::var_os("CARGO_MANIFEST_DIR").expect("cargo sets CARGO_MANIFEST_DIR");
    let root = Path::new(&manifest).join("../..");
    println!("cargo::rerun-if-changed=build.rs");
    for variable in ["XMF_NO_PKG_CONFIG", "PKG_CONFIG_PATH", "PKG_CONFIG"] {
        println!("cargo::rerun-if-env-changed={variable}");
    }
    let is_built = root.join(ARCHIVE).exists();
    if !is_built && env::var_os("XMF_NO_PKG_CONFIG").is_none() {
        if let Some(folder) = installed() {
            println!("cargo::warning=the installed libxmf in {folder} is linked; with XMF_NO_PKG_CONFIG=1 the checkout's is built");
            // Once the checkout's archive is there, it is the one.
            println!("cargo::rerun-if-changed={}", root.join(ARCHIVE).display());
            link(&folder, "xmf");
            return;
        }
    }
    if !root.join("tools/build.sh").exists() {
        println!("cargo::error=no libxmf is installed (pkg-config xmf), and this is no checkout that could build it");
        return;
    }
    for part in PARTS
        .map(|part| root.join(part))
        .into_iter()
        .chain(sources(&root))
    {
        println!("cargo::rerun-if-changed={}", part.display());
    }
    if let Err(reason) = build(&root) {
        // This line makes the build fail, with the message.
        println!("cargo::error={reason}");
    }
    link(&root.join("target/staticlib").display().to_string(), "capi");
}

/// The folders of the crates' code and definitions, without those of proofs and of what `rt` keeps.
fn sources(root: &Path) -> Vec<PathBuf> {
    let crates = root
        .join("crates")
        .read_dir()
        .into_iter()
        .flatten()
        .flatten();
    crates
        .flat_map(|folder| ["src", "specs"].map(|part| folder.path().join(part)))
        .filter(|part| part.exists())
        .collect()
}

/// The folder of an installed `libxmf.a` of this version.
fn installed() -> Option<String> {
    let command = env::var_os("PKG_CONFIG").unwrap_or("pkg-config".into());
    let version = env!("CARGO_PKG_VERSION");
    let output = Command::new(command)
        .args(["--variable=libdir", &format!("xmf = {version}")])
        .stderr(Stdio::null())
        .output()
        .ok()?;
    let folder = String::from_utf8(output.stdout).ok()?.trim().to_string();
    let is_there = output.status.success() && Path::new(&folder).join("libxmf.a").exists();
    is_there.then_some(folder)
}

/// Makes the archive current. What is said meanwhile is shown on the terminal, if there is one, and as warnings.
fn build(root: &Path) -> Result<(), String> {
    let script = root.join("tools/build.sh");
    let failed = |error| format!("{}: {error}", script.display());
    let mut child = Command::new(&script)
        .arg("capi")
        .stdin(Stdio::null())
        .stdout(Stdio::null())
        .stderr(Stdio::piped())
        .spawn()
        .map_err(failed)?;
    let said = child.stderr.take().expect("a pipe");
    let mut terminal: Option<File> = None;
    for line in BufReader::new(said).lines().map_while(Result::ok) {
        if terminal.is_none() {
            terminal = OpenOptions::new().write(true).open("/dev/tty").ok();
        }
        if let Some(terminal) = &mut terminal {
            // It is only a message: who cannot see it has the warning.
            let _ = writeln!(terminal, "\rxmf: {line}\x1b[K");
        }
        println!("cargo::warning={line}");
    }
    if child.wait().map_err(failed)?.success() {
        Ok(())
    } else {
        Err("target/staticlib/libcapi.a was not built".to_string())
    }
}

/// Links a static library of a folder.
fn link(folder: &str, name: &str) {
    println!("cargo::rustc-link-search=native={folder}");
    println!("cargo::rustc-link-lib=static={name}");
}
