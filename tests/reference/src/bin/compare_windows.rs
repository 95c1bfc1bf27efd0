//! Compares the recordings in two files, FIRST and SECOND.

use reference::windows::tool::{run, READ};
use std::ffi::OsString;
use std::fs::File;
use std::io::{self, Error, Read, Write};

fn main() -> io::Result<()> {
    let mut files = std::env::args_os().skip(1);
    let (first, second) = (recording(files.next())?, recording(files.next())?);
    io::stdout().lock().write_all(&run(&first, &second))
}

fn recording(path: Option<OsString>) -> io::Result<Vec<u8>> {
    let path = path.ok_or_else(|| Error::other("compare_windows FIRST SECOND"))?;
    let mut bytes = Vec::new();
    File::open(path)?.take(READ as u64).read_to_end(&mut bytes)?;
    Ok(bytes)
}
