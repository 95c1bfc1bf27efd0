//! Frames: finding texts between `1B 5D` and `1B 5C` in pieces cut anywhere.

use super::scan;
use super::{Place, LONGEST_TEXT};

const ESCAPE: u8 = 0x1b;
const OPEN: u8 = 0x5d;
const CLOSE: u8 = 0x5c;

/// How a command text starts.
pub const PREFIX: &[u8; 5] = b"5113;";
/// How a text of drag and drop starts (order 12).
const DRAG_DROP: &[u8; 3] = b"72;";

/// What a reported text starts with.
#[derive(Clone, Copy, Debug, PartialEq)]
pub enum Mark {
    Transfer,
    DragDrop,
}

impl Mark {
    fn bytes(self) -> &'static [u8] {
        match self {
            Mark::Transfer => PREFIX,
            Mark::DragDrop => DRAG_DROP,
        }
    }

    /// The only mark that a text can have, by its first byte.
    fn of(text: &[u8]) -> Mark {
        match text.first() {
            Some(b'7') => Mark::DragDrop,
            _ => Mark::Transfer,
        }
    }
}

/// Where the scanner stands between two bytes.
#[derive(Clone, Copy, Debug, PartialEq)]
enum State {
    /// Outside texts.
    Plain,
    /// Outside texts, after a 1B.
    Escape,
    /// In a text that has its mark or may get it.
    Text,
    /// After the 1B that ends a text with a mark.
    TextEscape,
    /// In a text known to have no mark.
    Other,
    /// After the 1B that ends a text which has no mark.
    OtherEscape,
}

/// What a piece led to.
#[derive(Debug, PartialEq)]
pub enum Found {
    Nothing,
    Text(Mark, Place),
    TooLong,
    Abandoned,
}

/// The scanner. Between calls, the text so far stands in the carry.
#[derive(Clone, Debug)]
pub struct Frames {
    state: State,
    /// Of the current text, from its first byte on.
    mark: Mark,
    /// Length of the text so far from earlier pieces; the carry holds its first 8,192 bytes.
    carried: usize,
}

/// The part of the current text that lies in this piece.
struct Span {
    start: usize,
    end: usize,
}

fn after_escape(byte: u8) -> State {
    match byte {
        OPEN => State::Text,
        ESCAPE => State::Escape,
        _ => State::Plain,
    }
}

impl Frames {
    pub const fn new() -> Self {
        Frames { state: State::Plain, mark: Mark::Transfer, carried: 0 }
    }

    /// Goes through the piece up to the first thing found; gives the bytes consumed.
    pub fn advance(&mut self, piece: &[u8], carry: &mut [u8]) -> (usize, Found) {
        let mut at = 0;
        let mut span = Span { start: 0, end: 0 };
        while at < piece.len() {
            match self.state {
                State::Plain => at = self.skip(piece, at, State::Escape),
                State::Other => at = self.skip(piece, at, State::OtherEscape),
                State::Text => at = self.through_text(piece, at, &mut span),
                State::TextEscape => return (at + 1, self.finish(piece, at, span, carry)),
                State::Escape => {
                    at += 1;
                    self.begin(after_escape(piece[at - 1]), at, &mut span);
                }
                State::OtherEscape => {
                    at += 1;
                    let state = match piece[at - 1] {
                        CLOSE => State::Plain,
                        byte => after_escape(byte),
                    };
                    self.begin(state, at, &mut span);
                }
            }
        }
        self.leave(piece, span, carry);
        (at, Found::Nothing)
    }

    fn begin(&mut self, state: State, at: usize, span: &mut Span) {
        self.state = state;
        self.carried = 0;
        *span = Span { start: at, end: at };
    }

    /// Skips to just after the next 1B, or to the end of the piece.
    fn skip(&mut self, piece: &[u8], at: usize, next: State) -> usize {
        match scan::find(&piece[at..], ESCAPE) {
            Some(place) => {
                self.state = next;
                at + place + 1
            }
            None => piece.len(),
        }
    }

    /// Goes through the text to just after its 1B, or to the end of the piece.
    fn through_text(&mut self, piece: &[u8], at: usize, span: &mut Span) -> usize {
        let escape = scan::find(&piece[at..], ESCAPE).map(|place| at + place);
        span.end = escape.unwrap_or(piece.len());
        let text = &piece[span.start..span.end];
        if self.carried == 0 {
            self.mark = Mark::of(text);
        }
        let mark = self.mark.bytes();
        let wanted = &mark[self.carried.min(mark.len())..];
        let common = wanted.len().min(text.len());
        let matches = text[..common] == wanted[..common];
        self.state = match (escape.is_some(), matches) {
            (false, true) => State::Text,
            (false, false) => State::Other,
            // Less than the whole mark grows no more after its 1B.
            (true, true) if common == wanted.len() => State::TextEscape,
            (true, _) => State::OtherEscape,
        };
        escape.map_or(piece.len(), |place| place + 1)
    }

    /// The byte at `at` follows the 1B of a text with a mark: it closes or abandons it.
    fn finish(&mut self, piece: &[u8], at: usize, span: Span, carry: &mut [u8]) -> Found {
        let inside = span.end - span.start;
        let len = self.carried.saturating_add(inside);
        let place = if self.carried == 0 {
            Place::Piece { start: span.start, len }
        } else {
            self.keep(&piece[span.start..span.end], carry);
            Place::Carry { len }
        };
        self.carried = 0;
        if piece[at] != CLOSE {
            self.state = after_escape(piece[at]);
            return Found::Abandoned;
        }
        self.state = State::Plain;
        if len > LONGEST_TEXT {
            Found::TooLong
        } else {
            Found::Text(self.mark, place)
        }
    }

    /// At the end of the piece: leaves a text that has a mark, or may get one, in the carry.
    fn leave(&mut self, piece: &[u8], span: Span, carry: &mut [u8]) {
        if matches!(self.state, State::Text | State::TextEscape) {
            self.keep(&piece[span.start..span.end], carry);
        }
    }

    /// Adds bytes to the text in the carry, as far as its first 8,192 bytes.
    fn keep(&mut self, bytes: &[u8], carry: &mut [u8]) {
        let from = self.carried.min(LONGEST_TEXT);
        let len = bytes.len().min(LONGEST_TEXT - from);
        carry[from..from + len].copy_from_slice(&bytes[..len]);
        self.carried = self.carried.saturating_add(bytes.len());
    }
}
