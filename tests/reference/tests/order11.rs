//! Runs the examples of order 11's page through the reference.

use reference::mend::mended;
use reference::notation::window;
use reference::receiver::Refusal;
use reference::windows::{compare, rows, script, tool, Verdict, LONGEST, ROW};

const FILL: usize = 0xa5;

/// The two recordings, and the rows as the page writes them.
fn examples() -> Vec<(Vec<u8>, Vec<u8>, &'static str)> {
    let page = include_str!("order11.txt").lines().filter(|line| !line.starts_with('#'));
    let example = |line: &'static str| {
        let (given, rows) = line.split_once(" => ").unwrap();
        let (first, second) = given.split_once(" | ").unwrap();
        (window(first), window(second), rows)
    };
    page.map(example).collect()
}

/// What comparing in this room gives, as the page writes it; checks the memory that is lent.
fn shown(first: &[u8], second: &[u8], room: usize) -> String {
    let mut list = vec![FILL; room];
    let result = compare(first, second, &mut list);
    let count = result.unwrap_or(0);
    assert!(list[ROW * count..].iter().all(|&number| number == FILL));
    if let Err(refusal) = result {
        return format!("refused {}", refusal as u8);
    }
    let rows: Vec<String> =
        list.chunks_exact(ROW).take(count).map(|row| shown_row(row, first, second)).collect();
    if rows.is_empty() {
        "(no rows)".into()
    } else {
        rows.join(", ")
    }
}

fn shown_row(row: &[usize], first: &[u8], second: &[u8]) -> String {
    let recording = if row[0] == 2 { second } else { first };
    let name = |start: usize, len: usize| {
        String::from_utf8(recording[start..start + len].to_vec()).unwrap()
    };
    assert!(row[0] == 4 || row[1] == 0);
    let verdict = match row[0] {
        1 => "first".into(),
        2 => "second".into(),
        3 => "same".into(),
        4 => format!("different {}", row[1]),
        other => panic!("no such verdict: {other}"),
    };
    format!("{}/{} {verdict}", name(row[2], row[3]), name(row[4], row[5]))
}

#[test]
fn the_examples() {
    let examples = examples();
    assert_eq!(examples.len(), 19);
    for (first, second, expected) in examples {
        assert_eq!(shown(&first, &second, 100), expected);
    }
}

/// Each example in the room that it needs, and in less.
#[test]
fn the_examples_in_their_rooms() {
    for (first, second, expected) in examples() {
        let needed = ROW * rows(&first, &second).unwrap().len();
        assert_eq!(shown(&first, &second, needed), expected);
        for room in [needed.saturating_sub(1), needed / ROW] {
            let expected = if room < needed { "refused 9" } else { expected };
            assert_eq!(shown(&first, &second, room), expected);
        }
    }
}

/// The page's laws: against itself and against its mended form a recording is same, and exchanged the verdicts are mirrored.
#[test]
fn the_laws() {
    for (first, second, _) in examples() {
        for recording in [&first, &second] {
            let kept = mended(recording).unwrap().kept;
            for other in [recording, &kept] {
                let rows = rows(recording, other).unwrap();
                assert!(rows.iter().all(|row| row.verdict == Verdict::Same));
            }
        }
        let numbers = |a, b| {
            let mut all: Vec<usize> =
                rows(a, b).unwrap().iter().map(|row| row.verdict.number()).collect();
            all.sort();
            all
        };
        let mirror = |number| if number < 3 { 3 - number } else { number };
        let mut mirrored: Vec<usize> = numbers(&second, &first).into_iter().map(mirror).collect();
        mirrored.sort();
        assert_eq!(numbers(&first, &second), mirrored);
    }
}

#[test]
fn both_limits() {
    let of_length = |len: usize| {
        let mut recording = window("s m, f m a");
        recording.resize(len, b'x');
        recording
    };
    let (longest, longer) = (of_length(LONGEST), of_length(LONGEST + 1));
    assert_eq!(shown(&longest, &longest, 6), "m/a same");
    assert_eq!(shown(&longest, &[], 6), "m/a first");
    for (first, second) in [(&longer, &longest), (&longest, &longer), (&longer, &longer)] {
        assert_eq!(compare(first, second, &mut []), Err(Refusal::PastLimit));
        assert_eq!(tool::run(first, second), b"refused 17\n");
    }
    assert_eq!(compare(&longest, &longest, &mut [0; 5]), Err(Refusal::ShortBuffer));
}

#[test]
fn the_scripted_form() {
    let run = |script: &[u8]| {
        let mut out = Vec::new();
        script::run(script, &mut out);
        String::from_utf8(out).unwrap()
    };
    let (first, second) = (window("s m, f m a, d m a abc"), window("s m, f m a"));
    assert_eq!(run(&script::encode(100, &first, &second)), "0 1 46547\n4 0 39 1 45 1\n");
    assert!(run(&script::encode(5, &first, &second)).starts_with("9 0 "));
    assert!(run(&script::encode(6, &first, &second)).starts_with("0 1 "));
    assert!(run(&[0; 6]).starts_with("0 0 "));
    assert!(run(&[0; 65_536]).starts_with("0 0 "));
    for bad in [&[0; 5][..], &[0, 0, 0, 1, 0, 0], &[0; 65_537]] {
        assert_eq!(run(bad), "bad script\n");
    }
}

#[test]
fn the_tool() {
    let first = window("s m, f m a, d m a abc, f m b, f m c, d m c x");
    let second = window("s m, f m a, d m a abX, f m d, f m c, d m c x");
    let lines =
        "m\ta\tdifferent at 2\nm\tb\tonly in the first\nm\tc\tsame\nm\td\tonly in the second\n\
        1 same, 1 different, 1 only in the first, 1 only in the second\n";
    assert_eq!(String::from_utf8(tool::run(&first, &second)).unwrap(), lines);
    let none = b"0 same, 0 different, 0 only in the first, 0 only in the second\n";
    assert_eq!(tool::run(b"", &vec![b'x'; 65_536]), none);
}
