// Decodes random data by the proved decoder, linked from a static library, and by the reference's.
//
//   base64           a line for each length of text and decoder: characters, decoder, MB of text a second, the best of many passes
//   base64 data N    writes N random bytes to standard output
use std::io::Write;
use std::time::Instant;

// The faults that the reference's Base64 tells, as its receiver names them.
#[allow(dead_code)]
#[derive(Clone, Copy, Debug, PartialEq)]
pub enum Refusal {
    Base64Length,
    Base64Character,
    UnusedBits,
}

#[allow(dead_code)]
#[path = "../tests/reference/src/receiver/base64.rs"]
mod base64;
#[allow(dead_code)]
#[path = "../tests/reference/src/receiver/scan.rs"]
mod scan;

// How much text a pass decodes: it stays in the cache, and is too much for a processor to foretell its characters.
const PASS: usize = 1 << 18;
const PASSES: usize = 20;

#[cfg(now)]
extern "C" {
    fn base64_now(text: *const u8, text_len: usize, out: *mut u8, out_len: usize) -> usize;
}

#[cfg(before)]
extern "C" {
    fn base64_before(text: *const u8, text_len: usize, out: *mut u8, out_len: usize) -> usize;
}

// Each decoder gives the number of bytes that it stored, and 0 for a text that it refuses.
type Decoder = fn(&[u8], &mut [u8]) -> usize;

const DECODERS: &[(&str, Decoder)] = &[
    #[cfg(before)]
    ("before", |text, out| unsafe { base64_before(text.as_ptr(), text.len(), out.as_mut_ptr(), out.len()) }),
    #[cfg(now)]
    ("now", |text, out| unsafe { base64_now(text.as_ptr(), text.len(), out.as_mut_ptr(), out.len()) }),
    ("reference", |text, out| match base64::check(text) {
        Ok(n) => {
            base64::decode(text, &mut out[..n]);
            n
        }
        Err(_) => 0,
    }),
];

fn random(n: usize) -> Vec<u8> {
    let mut seed = 88172645463325252u64;
    let next = || {
        seed ^= seed << 13;
        seed ^= seed >> 7;
        seed ^= seed << 17;
        (seed >> 32) as u8
    };
    std::iter::repeat_with(next).take(n).collect()
}

fn encoded(data: &[u8]) -> Vec<u8> {
    let mut text = vec![0; data.len().div_ceil(3) * 4];
    base64::encode(data, &mut text);
    text
}

// The seconds of one pass over all texts.
fn pass(decode: Decoder, texts: &[Vec<u8>], out: &mut [u8]) -> f64 {
    let start = Instant::now();
    for text in texts {
        std::hint::black_box(decode(text, out));
    }
    start.elapsed().as_secs_f64()
}

fn measure(bytes: usize) {
    let data = random(PASS / 4 * 3);
    let parts: Vec<&[u8]> = data.chunks_exact(bytes).collect();
    let texts: Vec<Vec<u8>> = parts.iter().map(|part| encoded(part)).collect();
    let mut out = vec![0; bytes];
    for (name, decode) in DECODERS {
        for (part, text) in parts.iter().zip(&texts) {
            out.fill(0);
            assert!(decode(text, &mut out) == bytes && out == *part, "{name} decodes {bytes} bytes wrongly");
        }
    }
    let mut best = vec![f64::INFINITY; DECODERS.len()];
    for _ in 0..PASSES {
        for (least, (_, decode)) in best.iter_mut().zip(DECODERS) {
            *least = least.min(pass(*decode, &texts, &mut out));
        }
    }
    let characters = texts[0].len();
    for (least, (name, _)) in best.iter().zip(DECODERS) {
        println!("{characters} {name} {:.0}", (texts.len() * characters) as f64 / least / 1e6);
    }
}

fn main() {
    let words: Vec<String> = std::env::args().skip(1).collect();
    match words.as_slice() {
        [] => [12, 48, 512, 4096].into_iter().for_each(measure),
        [word, n] if word == "data" => std::io::stdout().write_all(&random(n.parse().unwrap())).unwrap(),
        _ => panic!("base64 [data N]"),
    }
}
