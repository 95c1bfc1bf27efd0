// Writes a recording to standard output: one session with one file, in `PARTS` parts of `SIZE` bytes of data that looks random.
// With a third word, `base64`, it writes only the data's Base64, a part to a line; with `noise`, screen output before each command.
use std::io::{self, BufWriter, Write};

const LETTERS: &[u8; 64] = b"ABCDEFGHIJKLMNOPQRSTUVWXYZabcdefghijklmnopqrstuvwxyz0123456789+/";

fn encode(data: &[u8], out: &mut Vec<u8>) {
    for group in data.chunks(3) {
        let b = |i: usize| u32::from(*group.get(i).unwrap_or(&0));
        let n = b(0) << 16 | b(1) << 8 | b(2);
        for k in 0..4 {
            let letter = LETTERS[(n >> (18 - 6 * k)) as usize & 63];
            out.push(if k > group.len() { b'=' } else { letter });
        }
    }
}

fn frame(out: &mut impl Write, text: &[u8]) -> io::Result<()> {
    out.write_all(b"\x1b]5113;")?;
    out.write_all(text)?;
    out.write_all(b"\x1b\\")
}

fn main() -> io::Result<()> {
    let words: Vec<String> = std::env::args().collect();
    let parts: usize = words[1].parse().unwrap();
    let size: usize = words[2].parse().unwrap();
    let how = words.get(3).map_or("", String::as_str);
    let bare = how == "base64";
    let screen = if how == "noise" { b"\x1b[31msending\x1b[0m the table of owners\r\n".repeat(6) } else { Vec::new() };
    let mut out = BufWriter::new(io::stdout());
    let mut seed: u64 = 1;
    let mut data = vec![0u8; size];
    if !bare {
        frame(&mut out, b"ac=send;id=m")?;
        frame(&mut out, b"ac=file;id=m;fid=a;n=L256")?;
    }
    for _ in 0..parts {
        for byte in data.iter_mut() {
            seed = seed.wrapping_mul(6364136223846793005).wrapping_add(1442695040888963407);
            *byte = (seed >> 56) as u8;
        }
        let mut text = Vec::new();
        if !bare {
            text.extend_from_slice(b"ac=data;id=m;fid=a;d=");
        }
        encode(&data, &mut text);
        if bare {
            out.write_all(&text)?;
            out.write_all(b"\n")?;
        } else {
            out.write_all(&screen)?;
            frame(&mut out, &text)?;
        }
    }
    if !bare {
        frame(&mut out, b"ac=end_data;id=m;fid=a")?;
        frame(&mut out, b"ac=finish;id=m")?;
    }
    out.flush()
}
