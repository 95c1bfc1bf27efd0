//! Replies: status words and the canonical status text in its frame.

use super::base64;

#[derive(Clone, Copy, Debug, PartialEq)]
pub enum Status {
    Ok,
    Started,
    Progress,
    Canceled,
    Busy,
    NotSupported,
    Invalid,
    Denied,
    Io,
    NoEntry,
    NoSpace,
    Exists,
    TooManyFiles,
    TooBig,
}

impl Status {
    pub fn word(self) -> &'static str {
        match self {
            Status::Ok => "OK",
            Status::Started => "STARTED",
            Status::Progress => "PROGRESS",
            Status::Canceled => "CANCELED",
            Status::Busy => "EBUSY",
            Status::NotSupported => "ENOTSUP",
            Status::Invalid => "EINVAL",
            Status::Denied => "EPERM",
            Status::Io => "EIO",
            Status::NoEntry => "ENOENT",
            Status::NoSpace => "ENOSPC",
            Status::Exists => "EEXIST",
            Status::TooManyFiles => "EMFILE",
            Status::TooBig => "EFBIG",
        }
    }

    pub(super) fn held_back(self, quiet: u8) -> bool {
        let good =
            matches!(self, Status::Ok | Status::Started | Status::Progress | Status::Canceled);
        quiet == 2 || quiet == 1 && good
    }
}

/// What a reply says. An empty fid and a size of zero are defaults and left out.
pub struct Reply<'a> {
    pub quiet: u8,
    pub id: &'a [u8],
    pub fid: &'a [u8],
    pub size: u64,
    pub status: Status,
}

impl Reply<'_> {
    /// Writes the reply and gives its length, 0 if quiet holds it back.
    pub fn write(&self, buffer: &mut [u8]) -> usize {
        if self.status.held_back(self.quiet) {
            return 0;
        }
        let mut out = Writer { buffer, at: 0 };
        out.bytes(b"\x1b]5113;ac=status;id=");
        out.bytes(self.id);
        if !self.fid.is_empty() {
            out.bytes(b";fid=");
            out.bytes(self.fid);
        }
        if self.size != 0 {
            out.bytes(b";sz=");
            out.number(self.size);
        }
        out.bytes(b";st=");
        out.base64(self.status.word().as_bytes());
        out.bytes(b"\x1b\\");
        out.at
    }
}

struct Writer<'b> {
    buffer: &'b mut [u8],
    at: usize,
}

impl Writer<'_> {
    fn bytes(&mut self, bytes: &[u8]) {
        self.buffer[self.at..self.at + bytes.len()].copy_from_slice(bytes);
        self.at += bytes.len();
    }

    fn number(&mut self, mut n: u64) {
        let mut digits = [0; 20];
        let mut from = digits.len();
        while from == digits.len() || n > 0 {
            from -= 1;
            digits[from] = b'0' + (n % 10) as u8;
            n /= 10;
        }
        self.bytes(&digits[from..]);
    }

    fn base64(&mut self, bytes: &[u8]) {
        self.at += base64::encode(bytes, &mut self.buffer[self.at..]);
    }
}

#[cfg(test)]
mod tests {
    use super::*;

    #[test]
    fn the_longest_reply_has_124_bytes() {
        let mut buffer = [0xa5; 192];
        let reply = Reply {
            quiet: 0,
            id: &[b'i'; 32],
            fid: &[b'f'; 32],
            size: 1 << 40,
            status: Status::Progress,
        };
        assert_eq!(reply.write(&mut buffer), 124);
        assert_eq!(buffer[122..125], [0x1b, b'\\', 0xa5]);
    }

    #[test]
    fn canceled_is_written_as_document_01_says() {
        let mut buffer = [0; 124];
        let status = Status::Canceled;
        let len = Reply { quiet: 0, id: b"m", fid: b"", size: 0, status }.write(&mut buffer);
        assert_eq!(&buffer[..len], b"\x1b]5113;ac=status;id=m;st=Q0FOQ0VMRUQ=\x1b\\");
    }
}
