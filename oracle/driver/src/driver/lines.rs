//! Reads a stream line by line in bounded memory.
use std::io::{self, BufRead};

/// The most bytes a line may have, its line feed left out.
pub const LONGEST: usize = 65536;

pub struct Lines<R> {
    input: R,
    /// The number of the line last read, from 1.
    pub number: u64,
}

/// A line without its line feed; of one that is too long, its beginning.
pub struct RawLine {
    pub bytes: Vec<u8>,
    pub too_long: bool,
}

impl<R: BufRead> Lines<R> {
    pub fn new(input: R) -> Self {
        Self { input, number: 0 }
    }

    /// The next line, or `None` at the end. A last line without a line feed is taken.
    pub fn next_line(&mut self) -> io::Result<Option<RawLine>> {
        let mut line = RawLine {
            bytes: Vec::new(),
            too_long: false,
        };
        let mut begun = false;
        loop {
            let chunk = self.input.fill_buf()?;
            if chunk.is_empty() {
                break;
            }
            begun = true;
            let feed = chunk.iter().position(|byte| *byte == b'\n');
            line.take(&chunk[..feed.unwrap_or(chunk.len())]);
            let used = feed.map_or(chunk.len(), |place| place + 1);
            self.input.consume(used);
            if feed.is_some() {
                break;
            }
        }
        self.number += u64::from(begun);
        Ok(begun.then_some(line))
    }
}

impl RawLine {
    fn take(&mut self, piece: &[u8]) {
        let room = LONGEST - self.bytes.len();
        self.too_long |= piece.len() > room;
        self.bytes
            .extend_from_slice(&piece[..piece.len().min(room)]);
    }

    /// Whether the line is empty or a remark.
    pub fn is_skipped(&self) -> bool {
        matches!(self.bytes.first(), None | Some(b'#'))
    }
}

#[cfg(test)]
mod tests {
    use super::{Lines, LONGEST};

    fn lengths(text: &[u8]) -> Vec<(usize, bool)> {
        let mut lines = Lines::new(text);
        let mut found = Vec::new();
        while let Some(line) = lines.next_line().unwrap() {
            found.push((line.bytes.len(), line.too_long));
        }
        assert_eq!(lines.number, found.len() as u64);
        found
    }

    #[test]
    fn lines_end_at_line_feeds_and_at_the_end() {
        assert_eq!(lengths(b""), []);
        assert_eq!(lengths(b"\n"), [(0, false)]);
        assert_eq!(lengths(b"ab\n\nc"), [(2, false), (0, false), (1, false)]);
    }

    #[test]
    fn a_long_line_is_cut_and_the_next_is_whole() {
        let mut text = vec![b'x'; LONGEST];
        text.push(b'\n');
        assert_eq!(lengths(&text), [(LONGEST, false)]);
        text.insert(0, b'x');
        text.push(b'y');
        assert_eq!(lengths(&text), [(LONGEST, true), (1, false)]);
    }
}
