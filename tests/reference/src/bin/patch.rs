//! Makes a new file from SIGNATURE, OLD and DELTA, on standard output or as NEW; or shows a delta's operations.

use reference::delta::tool::{run, show, READ};
use std::ffi::{OsStr, OsString};
use std::fs::{self, File};
use std::io::{self, Error, Read, Write};

fn main() -> io::Result<()> {
    let arguments: Vec<OsString> = std::env::args_os().skip(1).collect();
    match &arguments[..] {
        [word, delta] if word == "show" => {
            let (lines, refusal) = show(&read(delta)?);
            io::stdout().write_all(lines.as_bytes())?;
            io::stderr().write_all(refusal.as_bytes())
        }
        [signature, old, delta] => patch([signature, old, delta], None),
        [signature, old, delta, new] => patch([signature, old, delta], Some(new)),
        _ => Err(Error::other("patch SIGNATURE OLD DELTA [NEW], patch show FILE")),
    }
}

fn read(path: &OsStr) -> io::Result<Vec<u8>> {
    let mut bytes = Vec::new();
    File::open(path)?.take(READ as u64).read_to_end(&mut bytes)?;
    Ok(bytes)
}

fn patch([signature, old, delta]: [&OsString; 3], new: Option<&OsString>) -> io::Result<()> {
    let (made, said) = run(&read(signature)?, &read(old)?, &read(delta)?);
    match (made, new) {
        (Some(bytes), Some(path)) => store(path, &bytes)?,
        (Some(bytes), None) => io::stdout().write_all(&bytes)?,
        (None, _) => {}
    }
    io::stderr().write_all(said.as_bytes())
}

/// Nobody sees half a file: it has its name only when it is whole.
fn store(path: &OsStr, bytes: &[u8]) -> io::Result<()> {
    let mut unfinished = path.to_os_string();
    unfinished.push(".new");
    fs::write(&unfinished, bytes)?;
    fs::rename(&unfinished, path)
}
