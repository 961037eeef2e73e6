//! Bytes that nobody wrote as a message: spoiled datagrams, noise, and what somebody means ill with.
use super::fields::shortest;
use crate::driver::rng::Rng;

/// More bytes than any datagram has; the longest line has room for them.
const LONG: u64 = 30_000;

/// Some bytes changed, put in, left out, or the end cut off.
pub fn spoil(rng: &mut Rng, bytes: &mut Vec<u8>) {
    for _ in 0..rng.between(1, 3) {
        if bytes.is_empty() {
            return;
        }
        let place = rng.below(bytes.len() as u64) as usize;
        match rng.below(6) {
            0 => bytes[place] = rng.next() as u8,
            1 | 2 => bytes[place] ^= 1 << rng.below(8),
            3 => {
                bytes.remove(place);
            }
            4 => bytes.insert(place, rng.next() as u8),
            _ => bytes.truncate(place),
        }
    }
}

/// Any bytes; half of them small ones, as keys and lengths are.
pub fn noise(rng: &mut Rng) -> Vec<u8> {
    let (length, small) = (rng.below(40), rng.chance(50));
    let byte = |_| match small {
        true => rng.below(40) as u8,
        false => rng.next() as u8,
    };
    (0..length).map(byte).collect()
}

pub fn hostile(rng: &mut Rng) -> Vec<u8> {
    let long = rng.below(300) == 0;
    let room = match long {
        true => rng.between(2000, LONG),
        false => rng.between(0, 120),
    };
    match rng.below(4) {
        0 => nested(rng, room),
        1 => repeated(rng, room),
        2 => vec![0x80; room as usize],
        _ => nested_past_the_end(rng, room),
    }
}

/// Fields in fields, each as long as what is in it, far deeper than the schema goes.
fn nested(rng: &mut Rng, room: u64) -> Vec<u8> {
    let mut bytes = Vec::new();
    while (bytes.len() as u64) < room {
        let key = [0x0a, 0x12, 0x1a, 0x22];
        let mut outer = vec![*rng.pick(&key)];
        outer.extend(shortest(bytes.len() as u64));
        outer.extend(&bytes);
        bytes = outer;
    }
    bytes
}

/// The same field over and over: empty records, empty texts, unknown numbers.
fn repeated(rng: &mut Rng, room: u64) -> Vec<u8> {
    let field: &[u8] = rng.pick::<&[u8]>(&[
        b"\x1a\x00",
        b"\x0a\x00",
        b"\x20\x00",
        b"\x1a\x02\x0a\x00",
        b"\x22\x00",
        b"\x25\x00\x00\x00\x00",
    ]);
    let inner = field.repeat(room as usize / field.len());
    let mut bytes = vec![*rng.pick(&[0x0a, 0x12, 0x1a])];
    bytes.extend(shortest(inner.len() as u64));
    bytes.extend(inner);
    bytes
}

/// Each length says as much as there is, so all but the outermost pass their message's end.
fn nested_past_the_end(rng: &mut Rng, room: u64) -> Vec<u8> {
    let room = room.min(100) as usize;
    let depth = rng.between(1, 4) as usize;
    let mut bytes: Vec<u8> = [0x0a, 0x1a, 0x0a, 0x0a][..depth]
        .iter()
        .flat_map(|key| [*key, room as u8])
        .collect();
    let rest = (room + 2).saturating_sub(rng.below(4) as usize);
    bytes.extend(vec![b'1'; rest]);
    bytes
}
