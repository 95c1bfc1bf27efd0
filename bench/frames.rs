// The scan of crates/frames written in Rust over the C library's memchr, to time beside it.
//
//   frames make plain|frames|escapes   writes 100 MB of that kind to standard output
//   frames read                        reads standard input and does nothing with it
//   frames                             scans standard input as crates/scan_bench does
use std::io::{Read, Write};

const LIMIT: usize = 8192;
const PIECE: usize = 65536;
const SIZE: usize = 100_000_000;

extern "C" {
    fn memchr(s: *const u8, c: i32, n: usize) -> *const u8;
}

fn next_escape(s: &[u8]) -> usize {
    let found = unsafe { memchr(s.as_ptr(), 0x1B, s.len()) };
    if found.is_null() {
        s.len()
    } else {
        found as usize - s.as_ptr() as usize
    }
}

#[derive(Clone, Copy)]
enum Framing {
    Plain,
    Escape,
    Text(usize),
    TextEscape(usize),
}

// The places are made as the crate makes them; nobody reads them here.
#[allow(dead_code)]
enum Report {
    Nothing,
    InPiece(usize, usize),
    InCarry(usize),
    TooLong,
    Abandoned,
}

fn after_escape(b: u8) -> Framing {
    match b {
        0x5D => Framing::Text(0),
        0x1B => Framing::Escape,
        _ => Framing::Plain,
    }
}

// Leaves the text of n bytes that ends at `end` of the piece in the carry.
fn keep(piece: &[u8], carry: &mut [u8], end: usize, n: usize) {
    if n <= end {
        let m = n.min(LIMIT);
        carry[..m].copy_from_slice(&piece[end - n..end - n + m]);
    } else if n - end < LIMIT {
        let m = end.min(LIMIT - (n - end));
        carry[n - end..n - end + m].copy_from_slice(&piece[..m]);
    }
}

fn capped(f: Framing) -> Framing {
    match f {
        Framing::Text(n) => Framing::Text(n.min(LIMIT + 1)),
        Framing::TextEscape(n) => Framing::TextEscape(n.min(LIMIT + 1)),
        _ => f,
    }
}

fn scan(framing: Framing, piece: &[u8], carry: &mut [u8]) -> (usize, Framing, Report) {
    let mut f = framing;
    let mut i = 0;
    while i < piece.len() {
        let b = piece[i];
        i += 1;
        f = match f {
            Framing::Plain => if b == 0x1B { Framing::Escape } else { Framing::Plain },
            Framing::Escape => after_escape(b),
            Framing::Text(n) if n < 5 => {
                if b == b"5113;"[n] {
                    Framing::Text(n + 1)
                } else if b == 0x1B {
                    Framing::Escape
                } else {
                    Framing::Plain
                }
            }
            Framing::Text(n) => if b == 0x1B { Framing::TextEscape(n) } else { Framing::Text(n + 1) },
            Framing::TextEscape(n) => {
                let end = i.saturating_sub(2);
                if n > end {
                    keep(piece, carry, end, n);
                }
                if b != 0x5C {
                    return (i, after_escape(b), Report::Abandoned);
                }
                let report = if n > LIMIT {
                    Report::TooLong
                } else if n <= end {
                    Report::InPiece(end - n, n)
                } else {
                    Report::InCarry(n)
                };
                return (i, Framing::Plain, report);
            }
        };
        match f {
            Framing::Plain => i += next_escape(&piece[i..]),
            Framing::Text(n) if n >= 5 => {
                let k = next_escape(&piece[i..]);
                i += k;
                f = Framing::Text(n + k);
            }
            _ => {}
        }
    }
    match f {
        Framing::Text(n) => keep(piece, carry, i, n),
        Framing::TextEscape(n) => keep(piece, carry, i.saturating_sub(1), n),
        _ => {}
    }
    (i, capped(f), Report::Nothing)
}

fn scan_input() {
    let mut input = std::io::stdin().lock();
    let mut piece = vec![0u8; PIECE];
    let mut carry = vec![0u8; LIMIT];
    let mut framing = Framing::Plain;
    let mut reports = 0u64;
    loop {
        let n = input.read(&mut piece).unwrap_or(0);
        if n == 0 {
            break;
        }
        let mut at = 0;
        while at < n {
            let (used, next, report) = scan(framing, &piece[at..n], &mut carry);
            at += used;
            framing = next;
            reports += match report {
                Report::Nothing => 0,
                Report::InPiece(_, _) | Report::InCarry(_) | Report::TooLong | Report::Abandoned => 1,
            };
        }
    }
    println!("{reports}");
}

fn read_input() {
    let mut input = std::io::stdin().lock();
    let mut piece = vec![0u8; PIECE];
    while input.read(&mut piece).unwrap_or(0) > 0 {}
}

fn make(kind: &str) -> Vec<u8> {
    let mut seed = 12345u32;
    let mut next = |low: u8, count: u32| {
        seed ^= seed << 13;
        seed ^= seed >> 17;
        seed ^= seed << 5;
        low + (seed % count) as u8
    };
    let mut out = Vec::with_capacity(SIZE + PIECE);
    while out.len() < SIZE {
        match kind {
            "plain" => out.push(next(b' ', 95)),
            "frames" => {
                out.extend_from_slice(b"\x1b]5113;ac=data;id=m;fid=a;d=");
                for _ in 0..4096 {
                    out.push(next(b'0', 64));
                }
                out.extend_from_slice(b"\x1b\\");
            }
            "escapes" => {
                out.push(0x1B);
                for _ in 1..20 {
                    out.push(next(b' ', 95));
                }
            }
            _ => panic!("plain, frames or escapes"),
        }
    }
    out.truncate(SIZE);
    out
}

fn main() {
    let words: Vec<String> = std::env::args().skip(1).collect();
    match words.as_slice() {
        [] => scan_input(),
        [read] if read == "read" => read_input(),
        [make_it, kind] if make_it == "make" => std::io::stdout().write_all(&make(kind)).unwrap(),
        _ => panic!("frames [read | make plain|frames|escapes]"),
    }
}
