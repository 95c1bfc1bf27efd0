//! Replays the recording on standard input; answers as it reads.

use reference::replay::Replay;
use std::io::{self, ErrorKind, Read, Write};

const READ: usize = 65_536;

fn main() -> io::Result<()> {
    let (mut input, mut output) = (io::stdin().lock(), io::stdout().lock());
    let mut replay = Replay::default();
    let (mut bytes, mut out) = (vec![0; READ], Vec::new());
    loop {
        let len = match input.read(&mut bytes) {
            Ok(0) => return Ok(()),
            Ok(len) => len,
            Err(error) if error.kind() == ErrorKind::Interrupted => continue,
            Err(error) => return Err(error),
        };
        replay.take(&bytes[..len], &mut out);
        output.write_all(&out)?;
        output.flush()?;
        out.clear();
    }
}
