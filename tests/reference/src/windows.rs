//! Order 11: compares two recordings of one window, file by file.

pub mod heard;
pub mod script;
pub mod tool;

use crate::receiver::Refusal;
use heard::{heard, Start};
use std::collections::{HashMap, VecDeque};
use std::ops::Range;

/// A longer recording is not taken.
pub const LONGEST: usize = 65_536;
/// The numbers of a row in the list: verdict, offset, then start and length of the session id and of the file id.
pub const ROW: usize = 6;

/// How a start compares.
#[derive(Clone, Copy, Debug, PartialEq)]
pub enum Verdict {
    OnlyFirst,
    OnlySecond,
    Same,
    /// The first offset at which the contents differ.
    Different(usize),
}

impl Verdict {
    pub fn number(self) -> usize {
        match self {
            Verdict::OnlyFirst => 1,
            Verdict::OnlySecond => 2,
            Verdict::Same => 3,
            Verdict::Different(_) => 4,
        }
    }

    fn offset(self) -> usize {
        match self {
            Verdict::Different(offset) => offset,
            _ => 0,
        }
    }
}

/// A verdict, and where its ids stand: in the second recording if only that has the start, else in the first.
#[derive(Clone, Debug, PartialEq)]
pub struct Row {
    pub verdict: Verdict,
    pub id: Range<usize>,
    pub fid: Range<usize>,
}

impl Row {
    fn new(verdict: Verdict, start: &Start) -> Row {
        Row { verdict, id: start.id.clone(), fid: start.fid.clone() }
    }

    fn numbers(&self) -> [usize; ROW] {
        let (id, fid) = (&self.id, &self.fid);
        [self.verdict.number(), self.verdict.offset(), id.start, id.len(), fid.start, fid.len()]
    }
}

/// Compares into a lent list: gives the number of rows. Refused, the list is as before.
pub fn compare(first: &[u8], second: &[u8], list: &mut [usize]) -> Result<usize, Refusal> {
    let rows = rows(first, second)?;
    if list.len() < ROW * rows.len() {
        return Err(Refusal::ShortBuffer);
    }
    for (place, row) in list.chunks_exact_mut(ROW).zip(&rows) {
        place.copy_from_slice(&row.numbers());
    }
    Ok(rows.len())
}

/// All rows: the first's starts in order, then those that only the second has.
pub fn rows(first: &[u8], second: &[u8]) -> Result<Vec<Row>, Refusal> {
    if first.len() > LONGEST || second.len() > LONGEST {
        return Err(Refusal::PastLimit);
    }
    let (ours, theirs) = (heard(first), heard(second));
    let mut waiting = Waiting::new(second, &theirs);
    let mut rows = Vec::new();
    for start in &ours {
        let verdict = match waiting.next(start.pair(first)) {
            Some(other) => contents(&start.content, &theirs[other].content),
            None => Verdict::OnlyFirst,
        };
        rows.push(Row::new(verdict, start));
    }
    let left = waiting.left();
    rows.extend(left.into_iter().map(|place| Row::new(Verdict::OnlySecond, &theirs[place])));
    Ok(rows)
}

/// The second's starts that have no partner yet, by their pair, in order.
struct Waiting<'r>(HashMap<(&'r [u8], &'r [u8]), VecDeque<usize>>);

impl<'r> Waiting<'r> {
    fn new(recording: &'r [u8], starts: &[Start]) -> Self {
        let mut waiting: HashMap<_, VecDeque<usize>> = HashMap::new();
        for (place, start) in starts.iter().enumerate() {
            waiting.entry(start.pair(recording)).or_default().push_back(place);
        }
        Waiting(waiting)
    }

    /// The pair's next start, which is then taken.
    fn next(&mut self, pair: (&'r [u8], &'r [u8])) -> Option<usize> {
        self.0.get_mut(&pair)?.pop_front()
    }

    fn left(self) -> Vec<usize> {
        let mut left: Vec<usize> = self.0.into_values().flatten().collect();
        left.sort();
        left
    }
}

/// The verdict on two contents. Where one is the start of the other they differ at the shorter one's length.
fn contents(ours: &[u8], theirs: &[u8]) -> Verdict {
    if ours == theirs {
        return Verdict::Same;
    }
    let differ = ours.iter().zip(theirs).position(|(a, b)| a != b);
    Verdict::Different(differ.unwrap_or(ours.len().min(theirs.len())))
}
