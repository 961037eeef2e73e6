//! Messages for the writer.
use super::texts;
use crate::driver::rng::Rng;
use crate::driver::words::{Address, Gossips, Kind, Packet, PacketKind, Record, ADDRESS_LIMIT};

const KINDS: [Kind; 4] = [
    Kind::Joined,
    Kind::Recovered,
    Kind::Suspected,
    Kind::Deceased,
];

/// A message in range.
pub fn in_range(rng: &mut Rng) -> Packet {
    let count = match rng.below(40) {
        0 => rng.between(60, 64),
        1..=3 => rng.below(30),
        _ => rng.below(4),
    };
    packet(rng, count, 0)
}

/// Any message; at times it has too many records, or an address that is too large.
pub fn any(rng: &mut Rng) -> Packet {
    let large = match rng.chance(20) {
        true => rng.between(1, 30),
        false => 0,
    };
    let count = match rng.below(60) {
        0 => rng.between(60, 70),
        1 => rng.between(64, 256),
        2..=6 => rng.below(40),
        _ => rng.below(4),
    };
    packet(rng, count, large)
}

/// A message of so many records, each address too large `large` times in a hundred.
fn packet(rng: &mut Rng, count: u64, large: u64) -> Packet {
    let kind = *rng.pick(&[PacketKind::Ping, PacketKind::Req, PacketKind::Ack]);
    let given = kind == PacketKind::Req || rng.chance(40);
    Packet {
        kind,
        from: address(rng, large),
        other: given.then(|| address(rng, large)),
        gossip: gossip(rng, count, large),
    }
}

fn gossip(rng: &mut Rng, count: u64, large: u64) -> Gossips {
    let item = |_| match rng.chance(7) {
        true => None,
        false => Some(Record {
            kind: *rng.pick(&KINDS),
            from: address(rng, large),
            subject: address(rng, large),
            number: number(rng),
        }),
    };
    (0..count).map(item).collect()
}

fn address(rng: &mut Rng, large: u64) -> Address {
    match rng.chance(large) {
        true => match rng.below(3) {
            0 => out_of_range(rng),
            _ => Address::four(*rng.pick(&[ADDRESS_LIMIT, ADDRESS_LIMIT + 1, u64::MAX, 1 << 63])),
        },
        false => texts::address(rng),
    }
}

/// Of another family, or of IPv4 with more than 32 bits.
fn out_of_range(rng: &mut Rng) -> Address {
    let (high, low, port) = (rng.below(2), rng.next(), rng.next() as u16);
    let family = *rng.pick(&[0, 4, 5, 7, 255]);
    match family {
        4 => Address { family, high: 1 + high, low, port },
        _ => Address { family, high, low, port },
    }
}

/// A number of any length as a varint.
pub fn number(rng: &mut Rng) -> u64 {
    match rng.below(4) {
        0 => 0,
        1 => rng.below(300),
        2 => (1u64 << (7 * rng.between(1, 9))) - rng.below(2),
        _ => rng.next() >> rng.below(64),
    }
}
