//! The lines of order 14's page, run through the reference, and what one session sees in two of them.

mod running;

use reference::notation::session_item;
use running::run;

const PAGE: &str = include_str!("order14.txt");
/// The number of worked lines, so that none is lost unseen.
const LINES: usize = 9;

/// The items of a line, each command as its frame, and the results.
fn lines() -> Vec<(Vec<String>, Vec<&'static str>)> {
    let line = |line: &'static str| {
        let (given, expected) = line.split_once(" => ").unwrap();
        let (_, items) = given.split_once(' ').unwrap();
        let item = |item: &str| match item.starts_with('[') {
            true => item.to_string(),
            false => String::from_utf8(session_item(item)).unwrap(),
        };
        (items.split(" | ").map(item).collect(), expected.split(" | ").collect())
    };
    PAGE.lines().filter(|line| !line.starts_with('#')).map(line).collect()
}

#[test]
fn the_lines_of_the_page() {
    let lines = lines();
    assert_eq!(lines.len(), LINES);
    for (items, expected) in lines {
        assert_eq!(run(&items.join(" | ")), expected.join(" | "), "{items:?}");
    }
}

/// Of each item of m's, by the places that the page's first two lines have them in, what it gave.
#[test]
fn m_sees_the_same_in_the_first_two() {
    let lines = lines();
    let of = |line: usize, places: [usize; 6]| {
        let (items, results) = &lines[line];
        places.map(|place| (items[place].clone(), results[place]))
    };
    assert_eq!(of(0, [0, 1, 2, 3, 4, 5]), of(1, [2, 4, 7, 9, 10, 11]));
}
