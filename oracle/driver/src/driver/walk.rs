//! Where the reading of a datagram stops, by the rules of the protobuf encoding and the schema's field numbers.
//! prost says whether bytes are well formed but not where they aren't: this walk finds the place, and every answer
//! checks its verdict against prost's.
use std::ops::ControlFlow;

/// What the schema has at a field number.
#[derive(Clone, Copy)]
enum Known {
    Text,
    Number,
    Message(Level),
    Nothing,
}

/// The four levels of the schema.
#[derive(Clone, Copy)]
enum Level {
    Datagram,
    Action,
    Gossip,
    Event,
}

/// A field that cannot be read.
#[derive(Clone, Copy, Debug, PartialEq, Eq)]
pub struct Fault {
    /// The start of its key in the datagram.
    pub place: usize,
    /// It starts a group, which prost skips where the field is unknown.
    pub is_group: bool,
}

/// The first field that cannot be read, the innermost one; `None` if all is well formed.
pub fn first_fault(bytes: &[u8]) -> Option<Fault> {
    match message(Level::Datagram, bytes, 0) {
        ControlFlow::Continue(()) => None,
        ControlFlow::Break(fault) => Some(fault),
    }
}

fn known(level: Level, number: u64) -> Known {
    match (level, number) {
        (Level::Datagram, 1..=3) => Known::Message(Level::Action),
        (Level::Action, 1 | 2) => Known::Text,
        (Level::Action, 3) => Known::Message(Level::Gossip),
        (Level::Gossip, 1..=4) => Known::Message(Level::Event),
        (Level::Event, 1 | 2) => Known::Text,
        (Level::Event, 3) => Known::Number,
        _ => Known::Nothing,
    }
}

/// A message's bytes, which start at a place of the datagram.
fn message(level: Level, bytes: &[u8], start: usize) -> ControlFlow<Fault> {
    let mut at = 0;
    while at < bytes.len() {
        at += field(level, &bytes[at..], start + at)?;
    }
    ControlFlow::Continue(())
}

/// The length of the field at the front of the rest of a message.
fn field(level: Level, rest: &[u8], place: usize) -> ControlFlow<Fault, usize> {
    let fault = |is_group| ControlFlow::Break(Fault { place, is_group });
    let Some(read) = split(rest) else {
        return fault(false);
    };
    let Split {
        number,
        wire,
        head,
        content,
    } = read;
    match (known(level, number), wire, content) {
        (_, 3, _) => return fault(true),
        (_, _, None) => return fault(false),
        (Known::Text, 2, Some(content)) if std::str::from_utf8(content).is_ok() => {}
        (Known::Message(inner), 2, Some(content)) => message(inner, content, place + head)?,
        (Known::Number, 0, _) | (Known::Nothing, _, _) => {}
        _ => return fault(false),
    }
    ControlFlow::Continue(head + content.map_or(0, <[u8]>::len))
}

/// A field taken apart.
struct Split<'a> {
    number: u64,
    wire: u64,
    /// The bytes of the key, and of the length where there is one.
    head: usize,
    /// What follows them; `None` where it can't be had whole.
    content: Option<&'a [u8]>,
}

/// `None` if the key can't be read.
fn split(rest: &[u8]) -> Option<Split<'_>> {
    let (key, mut head) = varint(rest)?;
    if key > u64::from(u32::MAX) || key < 8 {
        return None;
    }
    let (number, wire) = (key >> 3, key & 7);
    let length = match wire {
        0 => varint(&rest[head..]).map(|(_, size)| size as u64),
        1 => Some(8),
        2 => varint(&rest[head..]).map(|(length, size)| {
            head += size;
            length
        }),
        5 => Some(4),
        _ => None,
    };
    let left = (rest.len() - head) as u64;
    let content = length
        .filter(|length| *length <= left)
        .map(|length| &rest[head..head + length as usize]);
    Some(Split {
        number,
        wire,
        head,
        content,
    })
}

/// A number of seven bits a byte, the lowest first, ten bytes at most and below 2^64: its value and how many bytes it has.
fn varint(bytes: &[u8]) -> Option<(u64, usize)> {
    let mut value = 0;
    for (place, byte) in bytes.iter().enumerate().take(10) {
        let bits = u64::from(byte & 0x7f);
        if place == 9 && bits > 1 {
            return None;
        }
        value |= bits << (7 * place);
        if byte & 0x80 == 0 {
            return Some((value, place + 1));
        }
    }
    None
}

#[cfg(test)]
mod tests {
    use super::first_fault;

    fn place(bytes: &[u8]) -> Option<usize> {
        first_fault(bytes).map(|fault| fault.place)
    }

    #[test]
    fn well_formed_bytes_have_no_fault() {
        assert_eq!(place(b""), None);
        assert_eq!(place(b"\x0a\x00"), None);
        // an unknown field of each wire type, its key with a needless byte
        assert_eq!(place(b"\xa0\x80\x00\x05"), None);
        assert_eq!(place(b"\x21\x01\x02\x03\x04\x05\x06\x07\x08"), None);
        assert_eq!(place(b"\x22\x02\xff\xff"), None);
        assert_eq!(place(b"\x25\x01\x02\x03\x04"), None);
        // a number of ten bytes
        assert_eq!(place(b"\x20\xff\xff\xff\xff\xff\xff\xff\xff\xff\x01"), None);
    }

    #[test]
    fn keys_lengths_and_numbers_are_tested() {
        // cut, of field 0, of wire types 3, 4, 6, 7, above 2^32 - 1
        for key in [
            &b"\x8a"[..],
            b"\x02\x00",
            b"\x23",
            b"\x24",
            b"\x26",
            b"\x27",
            b"\x80\x80\x80\x80\x10",
        ] {
            assert_eq!(place(key), Some(0), "{key:x?}");
            let later = [b"\x0a\x00", key].concat();
            assert_eq!(place(&later), Some(2), "{later:x?}");
        }
        // eleven bytes, and a tenth byte of 2
        assert_eq!(
            place(b"\x20\xff\xff\xff\xff\xff\xff\xff\xff\xff\x81\x00"),
            Some(0)
        );
        assert_eq!(
            place(b"\x20\xff\xff\xff\xff\xff\xff\xff\xff\xff\x02"),
            Some(0)
        );
        assert_eq!(place(b"\x22\x02\xff"), Some(0));
        assert_eq!(place(b"\x25\x01\x02\x03"), Some(0));
    }

    #[test]
    fn the_innermost_field_is_the_place() {
        // an action of another wire type, a text of another wire type, a text that is not UTF-8
        assert_eq!(place(b"\x08\x00"), Some(0));
        assert_eq!(place(b"\x0a\x02\x08\x00"), Some(2));
        assert_eq!(place(b"\x0a\x03\x0a\x01\xff"), Some(2));
        // a gossip with an event with a text that would pass the event's end, though not the datagram's
        assert_eq!(place(b"\x0a\x08\x1a\x04\x0a\x02\x0a\x03\x41\x41"), Some(6));
        // a length past the end is the place of the field that says it
        assert_eq!(place(b"\x0a\x03\x0a\x01"), Some(0));
        // a number with another wire type, in an event
        assert_eq!(place(b"\x0a\x06\x1a\x04\x0a\x02\x1a\x00"), Some(6));
    }

    #[test]
    fn groups_are_told_apart() {
        assert!(first_fault(b"\x23\x24").is_some_and(|fault| fault.is_group));
        assert!(first_fault(b"\x24").is_some_and(|fault| !fault.is_group));
        assert!(first_fault(b"\x26").is_some_and(|fault| !fault.is_group));
    }
}
