//! Reads signatures, reads and applies deltas as a script on standard input says.

use std::io::{self, Read, Write};

fn main() -> io::Result<()> {
    let mut script = Vec::new();
    io::stdin().lock().read_to_end(&mut script)?;
    let mut out = Vec::new();
    reference::delta::script::run(&script, &mut out);
    io::stdout().lock().write_all(&out)
}
