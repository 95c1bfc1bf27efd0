//! Runs the examples of order 13's page through the reference.

use reference::delta::layout::{entry, operations, signature, Entry, Operation, Signature};
use reference::delta::{apply, layout, measure, script, tool, weak, Refusal, LONGEST};
use reference::notation;

const FILL: u8 = 0xa5;

/// What applying gives, as the examples are written; checks the output.
fn shown(sig: &[u8], old: &[u8], delta: &[u8], room: usize) -> String {
    let mut out = vec![FILL; room];
    let answer = apply(sig, old, delta, &mut out);
    let len = answer.as_ref().map_or(0, |measured| measured.len);
    assert!(out[len..].iter().all(|&byte| byte == FILL));
    let measured = measure(sig, old, delta);
    match answer {
        Ok(given) => {
            assert_eq!(measured.as_ref(), Ok(&given));
            let hash = given.hash.map(|place| format!(" {}:{}", place.start, place.len()));
            format!("\"{}\"{}", out[..len].escape_ascii(), hash.unwrap_or_default())
        }
        Err(refusal) => {
            assert!(measured == Err(refusal) || refusal == Refusal::NoRoom);
            (refusal as u8).to_string()
        }
    }
}

#[test]
fn the_examples() {
    let page = include_str!("order13.txt").lines().filter(|line| !line.starts_with('#'));
    let mut count = 0;
    for line in page {
        let (given, expected) = line.split_once(" => ").unwrap();
        let given: Vec<&str> = given.split('|').map(str::trim).collect();
        let room = given.get(3).map_or(70_000, |room| room.parse().unwrap());
        let (sig, old) = (notation::signature(given[0]), notation::bytes(given[1]));
        let expected = match expected.strip_prefix('"') {
            Some(rest) => {
                let (bytes, hash) = rest.split_once('"').unwrap();
                format!("\"{}\"{hash}", notation::bytes(bytes).escape_ascii())
            }
            None => expected.into(),
        };
        assert_eq!(shown(&sig, &old, &notation::delta(given[2]), room), expected, "{line}");
        count += 1;
    }
    assert_eq!(count, 35);
}

/// Every type from 4 on; every width that is cut off.
#[test]
fn what_cannot_be_read() {
    let sig = notation::signature("H(4)");
    for kind in 4..=255 {
        assert_eq!(shown(&sig, b"abcdefghij", &[kind], 100), "16");
        assert_eq!(shown(&sig, b"abcdefghij", &[kind; 20], 100), "16");
    }
    for whole in ["B 0", "R 0 1", "D abc", "# abc"] {
        let whole = notation::delta(whole);
        for len in 1..whole.len() {
            assert_eq!(shown(&sig, b"abcdefghij", &whole[..len], 100), "16");
        }
    }
}

/// What kitty 0.48 made of `abc` and `abcd` with blocks of 2.
#[test]
fn the_real_vector() {
    let unhex = |text: &str| -> Vec<u8> {
        let digits: String = text.split(' ').collect();
        let byte = |at: usize| u8::from_str_radix(&digits[at..at + 2], 16).unwrap();
        (0..digits.len()).step_by(2).map(byte).collect()
    };
    let sig = unhex(
        "000000000000000002000000 0000000000000000 c3002401 5c73d5249c7173a8 \
         0100000000000000 63006300 1bf8b9469a21408c",
    );
    let delta =
        unhex("00 0000000000000000 01 02000000 6364 02 1000 8d6b60383dfa90c21be79eecd1b1353d");
    assert_eq!(signature(&sig), Ok(Signature { block_size: 2, blocks: 2 }));
    for (place, block) in ["ab", "c"].iter().enumerate() {
        let entry = entry(&sig, place).unwrap().unwrap();
        assert_eq!((entry.index, entry.weak), (place as u64, weak::sum(block.as_bytes())));
    }
    assert_eq!(entry(&sig, 2), Ok(None));
    assert_eq!(shown(&sig, b"abc", &delta, 100), "\"abcd\" 19:16");
    let (made, said) = tool::run(&sig, b"abc", &delta);
    assert_eq!(made.unwrap(), b"abcd");
    assert_eq!(said, "8d6b60383dfa90c21be79eecd1b1353d\n");
    let (lines, refusal) = tool::show(&delta);
    assert_eq!((&lines[..], &refusal[..]), ("block 0\ndata 14 2\nhash 19 16\n", ""));
}

/// The most that a delta can give has far more than 32 bits' worth of bytes.
#[test]
fn the_longest_result_is_counted() {
    let (sig, old) = (notation::signature("H(65536)"), vec![1; LONGEST]);
    let delta = layout::block(0).repeat(7281);
    assert_eq!(shown(&sig, &old, &delta, 0), "9");
    let ranges = layout::blocks(0, 65_535).repeat(5041);
    assert_eq!(shown(&notation::signature("H(1)"), &old, &ranges, 0), "9");
    let hashes = [&ranges[..], &layout::hash(b""), &layout::hash(b"")].concat();
    assert_eq!(hashes.len(), 65_539);
    assert_eq!(shown(&notation::signature("H(1)"), &old, &hashes, 0), "17");
    assert_eq!(shown(&notation::signature("H(1)"), &old, &hashes[13..], 0), "16");
}

#[test]
fn the_weak_sums() {
    assert_eq!(weak::sum(b""), 0);
    assert_eq!(weak::sum(b"abcd"), 980 * 65_536 + 394);
    assert_eq!(weak::sum(b"abcd"), 64_225_674);
    assert_eq!(weak::roll(64_225_674, 4, b'a', b'e'), 64_881_038);
    assert_eq!(weak::sum(b"bcde"), 64_881_038);
    assert_eq!(weak::sum(&[0xff; 65_536]), 2_147_483_648);
}

/// What the page's script gives.
const LINES: &str = "h 0 4 1
b 0 0 64225674 5
b 0 none
i blocks 1 1
i data 18 2
i hash 23 2
i 0
m 0 8 23:2
a 0 8 23:2 60332
x 65666768696a5859
a 9 0 - 60332
w 64225674
l 64881038
";

#[test]
fn the_scripted_form() {
    use script::{Buffer, Op};
    let first = Entry { index: 0, weak: 64_225_674, strong: 5 };
    let sig = [notation::signature("H(4)"), first.laid()].concat();
    let delta = notation::delta("R 1 1, D XY, # <AA><BB>");
    let ops = [
        Op::Append(Buffer::Signature, sig),
        Op::Append(Buffer::Old, b"abcdefghij".to_vec()),
        Op::Append(Buffer::Delta, delta.clone()),
        Op::Signature,
        Op::Entry(0),
        Op::Entry(1),
        Op::Operations,
        Op::Measure,
        Op::Apply,
        Op::Result,
        Op::Lend(7),
        Op::Apply,
        Op::Sum { start: 0, len: 4 },
        Op::Roll { start: 0, len: 4, times: 1 },
    ];
    let mut out = Vec::new();
    script::run(&script::encode(&ops), &mut out);
    assert_eq!(String::from_utf8(out).unwrap(), LINES);
    let (list, end) = operations(&delta);
    let read = [Operation::Blocks(1, 1), Operation::Data(18..20), Operation::Hash(23..25)];
    assert_eq!((&list[..], end), (&read[..], Ok(())));
}

#[test]
fn what_is_no_script() {
    let run = |script: &[u8]| {
        let mut out = Vec::new();
        script::run(script, &mut out);
        String::from_utf8(out).unwrap()
    };
    for bad in [&b"Z"[..], b"s", b"s\x01\x00", b"S\x00\x00\x00\x00", b"b\x00", b"r\x00\x00\x00"] {
        assert_eq!(run(bad), "bad script\n");
    }
    assert_eq!(run(b"xq"), "x -\nbad script\n");
    assert_eq!(run(b"S\x40\x00\x01\x00\x07h"), "h 17 0 0\n");
    assert_eq!(run(b"S\x41\x00\x01\x00\x07h"), "bad script\n");
    assert_eq!(run(b"S\x40\x00\x01\x00\x07s\x00\x00s\x01\x00ah"), "bad script\n");
    assert_eq!(run(&[b'n'; 65_536]), "");
    assert_eq!(run(&[b'n'; 65_537]), "bad script\n");
}
