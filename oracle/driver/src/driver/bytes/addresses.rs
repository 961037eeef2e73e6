//! The verb `addresses`: `write` lines whose messages hold structured addresses of IPv6, 130 each, so that their texts and
//! lengths are compared: each of the 256 patterns of zero groups in turn, and mapped, compatible and nearly such ones.
use std::io::{self, Write};

use crate::driver::packets;
use crate::driver::rng::Rng;
use crate::driver::words::{Address, Kind, Packet, PacketKind, Record};

/// As many as a message holds.
const RECORDS: usize = 64;

/// Counts up, so that every pattern comes in its turn, with other digits each time.
struct Source {
    rng: Rng,
    next: u64,
}

impl Source {
    fn address(&mut self) -> Address {
        let pattern = self.next % 256;
        let round = self.next / 256 % 8;
        self.next += 1;
        let bits = match round {
            0 => 0xffff_0000_0000 | self.ending(pattern),
            1 => self.ending(pattern),
            2 => self.nearly(pattern),
            _ => self.groups(pattern),
        };
        let port = *self.rng.pick(&[0, 9, 10, 99, 100, 999, 1000, 9999, 10000, 65535]);
        Address::six(bits, port)
    }

    /// A group of one to four digits, not zero.
    fn group(&mut self) -> u128 {
        let digits = self.rng.between(1, 4);
        u128::from(self.rng.between(1 << (4 * (digits - 1)), (1 << (4 * digits)) - 1))
    }

    /// Zero groups where the pattern has a 0.
    fn groups(&mut self, pattern: u64) -> u128 {
        (0..8).filter(|place| pattern >> place & 1 == 1).map(|place| self.group() << (16 * place)).sum()
    }

    /// The last four bytes, zero where the low half of the pattern has a 0.
    fn ending(&mut self, pattern: u64) -> u128 {
        (0..4).filter(|place| pattern >> place & 1 == 1).map(|place| u128::from(self.rng.between(1, 255)) << (8 * place)).sum()
    }

    /// Mapped but for one of the bits before the last four bytes.
    fn nearly(&mut self, pattern: u64) -> u128 {
        (0xffff_0000_0000 ^ 1 << self.rng.between(32, 127)) | self.ending(pattern)
    }

    fn record(&mut self) -> Record {
        Record {
            kind: Kind::Suspected,
            from: self.address(),
            subject: self.address(),
            number: 1,
        }
    }
}

pub fn generate(out: &mut impl Write, seed: u64, lines: u64) -> io::Result<()> {
    let mut source = Source {
        rng: Rng::new(seed),
        next: 0,
    };
    for _ in 0..lines {
        let packet = Packet {
            kind: PacketKind::Req,
            from: source.address(),
            other: Some(source.address()),
            gossip: (0..RECORDS).map(|_| Some(source.record())).collect(),
        };
        writeln!(out, "{}", packets::write_line(packet))?;
    }
    Ok(())
}
