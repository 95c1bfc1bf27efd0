//! Mends the recording on standard input; what was dropped stands on standard error.

use reference::mend::tool::{run, READ};
use std::io::{self, Read, Write};

fn main() -> io::Result<()> {
    let mut recording = Vec::new();
    io::stdin().lock().take(READ as u64).read_to_end(&mut recording)?;
    let (kept, lines) = run(&recording);
    io::stdout().lock().write_all(&kept)?;
    io::stderr().lock().write_all(lines.as_bytes())
}
