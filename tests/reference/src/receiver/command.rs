//! The command reader: from a text to its fields, or to the refusal.

use super::frames::PREFIX;
use super::{base64, integer, scan, Refusal, LONGEST_ID, LONGEST_TEXT, SCRATCH};
use std::ops::Range;

#[derive(Clone, Copy, Debug, PartialEq)]
pub enum Action {
    Send,
    Receive,
    File,
    Data,
    EndData,
    Finish,
    Cancel,
    Status,
}

#[derive(Clone, Copy, Debug, Default, PartialEq)]
pub enum FileType {
    #[default]
    Regular,
    Directory,
    Symlink,
    Link,
}

#[derive(Clone, Copy, Debug, Default, PartialEq)]
pub enum Transmission {
    #[default]
    Simple,
    Rsync,
}

/// The fields of a command. Strings lie in the text; `n`, `st` and `d` are places in the scratch.
#[derive(Clone, Debug, Default)]
pub struct Command<'t> {
    pub action: Option<Action>,
    pub file_type: FileType,
    pub transmission: Transmission,
    pub id: &'t [u8],
    pub fid: &'t [u8],
    pub bypass: &'t [u8],
    pub quiet: u8,
    pub modified: i64,
    pub permissions: i64,
    pub size: i64,
    pub name: Range<usize>,
    pub status: Range<usize>,
    pub parent: &'t [u8],
    pub data: Range<usize>,
}

/// The known keys; the place in this list is the bit that notes that the key stood.
const KEYS: [&[u8]; 15] = [
    b"ac", b"zip", b"ft", b"tt", b"id", b"fid", b"pw", b"q", b"mod", b"prm", b"sz", b"n", b"st",
    b"pr", b"d",
];

/// Reads a text. The decoded values stand from the scratch's start, in the text's order.
pub fn read<'t>(text: &'t [u8], scratch: &mut [u8]) -> Result<Command<'t>, Refusal> {
    if scratch.len() < SCRATCH {
        return Err(Refusal::ShortBuffer);
    }
    if text.len() > LONGEST_TEXT {
        return Err(Refusal::TooLong);
    }
    if !scan::all(text, |b| b.wrapping_sub(0x20) < 0x5f) {
        return Err(Refusal::BadByte);
    }
    let fields = text.strip_prefix(PREFIX).ok_or(Refusal::BadField)?;
    let mut reader = Reader { command: Command::default(), stood: 0, scratch, filled: 0 };
    reader.fields(fields)?;
    match reader.command {
        Command { action: None, .. } | Command { id: [], .. } => Err(Refusal::Missing),
        command => Ok(command),
    }
}

struct Reader<'t, 's> {
    command: Command<'t>,
    /// One bit for each known key that stood.
    stood: u16,
    scratch: &'s mut [u8],
    /// The scratch bytes already taken.
    filled: usize,
}

impl<'t> Reader<'t, '_> {
    fn fields(&mut self, mut rest: &'t [u8]) -> Result<(), Refusal> {
        loop {
            let key_len = rest.iter().position(|&b| !in_key(b)).unwrap_or(rest.len());
            if key_len == 0 || rest.get(key_len) != Some(&b'=') {
                return Err(Refusal::BadField);
            }
            let (key, after) = (&rest[..key_len], &rest[key_len + 1..]);
            let end = scan::find(after, b';');
            self.field(key, &after[..end.unwrap_or(after.len())])?;
            match end {
                Some(end) => rest = &after[end + 1..],
                None => return Ok(()),
            }
        }
    }

    fn field(&mut self, key: &[u8], value: &'t [u8]) -> Result<(), Refusal> {
        let Some(place) = KEYS.iter().position(|&known| known == key) else {
            return Ok(());
        };
        if self.stood >> place & 1 == 1 {
            return Err(Refusal::Repeated);
        }
        self.stood |= 1 << place;
        match key {
            b"ac" => self.command.action = Some(action(value)?),
            b"zip" => compression(value)?,
            b"ft" => self.command.file_type = file_type(value)?,
            b"tt" => self.command.transmission = transmission(value)?,
            b"id" => self.command.id = short(value)?,
            b"fid" => self.command.fid = short(value)?,
            b"pr" => self.command.parent = short(value)?,
            b"pw" => self.command.bypass = safe(value)?,
            b"q" => self.command.quiet = quiet(value)?,
            b"mod" => self.command.modified = integer::parse(value)?,
            b"prm" => self.command.permissions = integer::parse(value)?,
            b"sz" => self.command.size = integer::parse(value)?,
            b"n" => self.command.name = self.decode(value)?,
            b"st" => self.command.status = self.decode(value)?,
            _ => self.command.data = self.decode(value)?,
        }
        Ok(())
    }

    /// Decodes a value behind those already in the scratch. A text of 8,192 bytes never fills it.
    fn decode(&mut self, value: &[u8]) -> Result<Range<usize>, Refusal> {
        let len = base64::check(value)?;
        let place = self.filled..self.filled + len;
        base64::decode(value, &mut self.scratch[place.clone()]);
        self.filled = place.end;
        Ok(place)
    }
}

#[inline]
fn in_key(b: u8) -> bool {
    b.is_ascii_alphanumeric() || b == b'_'
}

fn action(value: &[u8]) -> Result<Action, Refusal> {
    Ok(match value {
        b"send" => Action::Send,
        b"receive" => Action::Receive,
        b"file" => Action::File,
        b"data" => Action::Data,
        b"end_data" => Action::EndData,
        b"finish" | b"finished" => Action::Finish,
        b"cancel" => Action::Cancel,
        b"status" => Action::Status,
        _ => return Err(Refusal::UnknownWord),
    })
}

fn compression(value: &[u8]) -> Result<(), Refusal> {
    match value {
        b"none" => Ok(()),
        _ => Err(Refusal::UnknownWord),
    }
}

fn file_type(value: &[u8]) -> Result<FileType, Refusal> {
    Ok(match value {
        b"regular" => FileType::Regular,
        b"directory" => FileType::Directory,
        b"symlink" => FileType::Symlink,
        b"link" => FileType::Link,
        _ => return Err(Refusal::UnknownWord),
    })
}

fn transmission(value: &[u8]) -> Result<Transmission, Refusal> {
    Ok(match value {
        b"simple" => Transmission::Simple,
        b"rsync" => Transmission::Rsync,
        _ => return Err(Refusal::UnknownWord),
    })
}

/// One of three texts; whatever else stands there, also what is no integer, is out of range.
fn quiet(value: &[u8]) -> Result<u8, Refusal> {
    match value {
        [digit @ b'0'..=b'2'] => Ok(digit - b'0'),
        _ => Err(Refusal::OutOfRange),
    }
}

fn safe(value: &[u8]) -> Result<&[u8], Refusal> {
    let of_kind = |b: u8| b.is_ascii_alphanumeric() || b"_:./@-".contains(&b);
    if !value.iter().all(|&b| of_kind(b)) {
        return Err(Refusal::UnsafeCharacter);
    }
    Ok(value)
}

/// An id: of its kind, then not too long.
pub fn short(value: &[u8]) -> Result<&[u8], Refusal> {
    let value = safe(value)?;
    if value.len() > LONGEST_ID {
        return Err(Refusal::LongId);
    }
    Ok(value)
}
