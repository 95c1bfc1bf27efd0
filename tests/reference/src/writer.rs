//! The commands that a sender and a receiver write: canonical text in its frame. Replies have a writer of their own.

use crate::receiver::command::{short, FileType};
use crate::receiver::frames::PREFIX;
use crate::receiver::{base64, Refusal, LONGEST_TEXT};

/// The shortest buffer that a command is written into: the longest text in its frame.
pub const OUT: usize = 8196;

pub fn room(out: &[u8]) -> Result<(), Refusal> {
    (out.len() >= OUT).then_some(()).ok_or(Refusal::ShortBuffer)
}

/// What a command says. Empty strings, zeros and a regular file are defaults and left out.
#[derive(Default)]
pub struct Command<'a> {
    pub action: &'static str,
    pub file_type: FileType,
    pub id: &'a [u8],
    pub fid: &'a [u8],
    pub modified: i64,
    pub permissions: i64,
    /// Wider than what can be written, since a sender may be given more.
    pub size: i128,
    pub name: &'a [u8],
    pub status: &'a [u8],
    pub parent: &'a [u8],
    pub data: &'a [u8],
}

impl Command<'_> {
    /// Writes the frame and gives its length. A refusal leaves the buffer, which has room for the longest frame.
    pub fn write(&self, out: &mut [u8]) -> Result<usize, Refusal> {
        let frame = self.frame()?;
        out[..frame.len()].copy_from_slice(&frame);
        Ok(frame.len())
    }

    /// The frame, or why it cannot be written.
    pub fn frame(&self) -> Result<Vec<u8>, Refusal> {
        self.check()?;
        let text = self.text();
        if text.len() > LONGEST_TEXT {
            return Err(Refusal::ShortBuffer);
        }
        Ok([b"\x1b]", &text[..], b"\x1b\\"].concat())
    }

    /// The fields in writing order, then an id that is missing.
    fn check(&self) -> Result<(), Refusal> {
        short(self.id)?;
        short(self.fid)?;
        if self.size > i64::MAX as i128 {
            return Err(Refusal::OutOfRange);
        }
        short(self.parent)?;
        if self.id.is_empty() {
            return Err(Refusal::Missing);
        }
        Ok(())
    }

    /// The text, whether it may be written or not.
    pub fn text(&self) -> Vec<u8> {
        let (modified, permissions) = (shown(self.modified), shown(self.permissions));
        let size = shown(self.size);
        let (name, status, data) = (encoded(self.name), encoded(self.status), encoded(self.data));
        let fields: [(&str, &[u8]); 10] = [
            ("ft", file_type(self.file_type)),
            ("id", self.id),
            ("fid", self.fid),
            ("mod", modified.as_bytes()),
            ("prm", permissions.as_bytes()),
            ("sz", size.as_bytes()),
            ("n", &name),
            ("st", &status),
            ("pr", self.parent),
            ("d", &data),
        ];
        let mut text = [&PREFIX[..], b"ac=", self.action.as_bytes()].concat();
        for (key, value) in fields.into_iter().filter(|(_, value)| !value.is_empty()) {
            text.extend([&b";"[..], key.as_bytes(), b"=", value].concat());
        }
        text
    }
}

fn file_type(of: FileType) -> &'static [u8] {
    match of {
        FileType::Regular => b"",
        FileType::Directory => b"directory",
        FileType::Symlink => b"symlink",
        FileType::Link => b"link",
    }
}

fn shown(number: impl Into<i128>) -> String {
    match number.into() {
        0 => String::new(),
        number => number.to_string(),
    }
}

fn encoded(bytes: &[u8]) -> Vec<u8> {
    let mut out = vec![0; bytes.len().div_ceil(3) * 4];
    base64::encode(bytes, &mut out);
    out
}

#[cfg(test)]
mod tests {
    use super::*;

    /// Document 01's order of fields, all of those that are ever written.
    #[test]
    fn every_field_in_writing_order() {
        let command = Command {
            action: "file",
            file_type: FileType::Symlink,
            id: b"m",
            fid: b"a",
            modified: i64::MIN,
            permissions: 420,
            size: i64::MAX.into(),
            name: b"/nz",
            status: b"7",
            parent: b"p",
            data: b"abc",
        };
        let text = "5113;ac=file;ft=symlink;id=m;fid=a;mod=-9223372036854775808;prm=420;\
            sz=9223372036854775807;n=L256;st=Nw==;pr=p;d=YWJj";
        assert_eq!(String::from_utf8(command.text()).unwrap(), text);
    }
}
