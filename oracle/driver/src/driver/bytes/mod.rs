//! The verb `bytes`: a script of `read` and `write` lines with every kind of datagram and message that may come up;
//! the same seed gives the same script.
pub mod addresses;
mod fields;
mod packets;
mod spoil;
pub mod texts;

use std::io::{self, Write};

use super::datagram::{self, Reading, Writing};
use super::rng::Rng;
use super::script::{self, Line};
use super::words::Packet;
use fields::Maker;
pub use packets::in_range as packet_in_range;

/// From so many lines on, everything must come up.
const MANY: u64 = 10_000;

/// How many of the lines came to what.
#[derive(Default)]
pub struct Tally {
    counts: [(&'static str, u64); 11],
}

const OUTCOMES: [&str; 11] = [
    "read",
    "read: refused 3",
    "read: refused 4",
    "read: refused 11 inside",
    "read: refused 11 at the end",
    "a group prost skips, left out",
    "written",
    "write: refused 4",
    "write: refused 5",
    "write: refused 12",
    "written to a row of exactly its length",
];

impl Tally {
    fn new() -> Self {
        Self {
            counts: OUTCOMES.map(|outcome| (outcome, 0)),
        }
    }

    fn note(&mut self, outcome: &str) {
        let place = OUTCOMES.iter().position(|known| *known == outcome);
        self.counts[place.expect("an outcome of the list")].1 += 1;
    }

    /// Writes the counts; `false` if something never came up in a long script.
    pub fn write(&self, lines: u64, out: &mut impl Write) -> io::Result<bool> {
        for (outcome, count) in &self.counts {
            writeln!(out, "{count:9}  {outcome}")?;
        }
        Ok(lines < MANY || self.counts.iter().all(|(_, count)| *count > 0))
    }
}

/// Writes a script of so many lines, and returns what they come to.
pub fn generate(out: &mut impl Write, seed: u64, lines: u64) -> io::Result<Tally> {
    let mut rng = Rng::new(seed);
    let mut tally = Tally::new();
    writeln!(out, "# oracle bytes {seed} {lines}")?;
    for _ in 0..lines {
        let line = match rng.chance(75) {
            true => Line::Read(read_line(&mut rng, &mut tally)),
            false => Line::Write(write_line(&mut rng, &mut tally)),
        };
        writeln!(out, "{line}")?;
    }
    Ok(tally)
}

/// A datagram on which prost is the judge.
fn read_line(rng: &mut Rng, tally: &mut Tally) -> script::Read {
    loop {
        let bytes = datagram(rng);
        let places = places(rng);
        let reading = datagram::read(places, &bytes);
        tally.note(match &reading {
            Reading::Read(_) => "read",
            Reading::Refused(3) => "read: refused 3",
            Reading::Refused(_) => "read: refused 4",
            Reading::Malformed(place) if *place < bytes.len() => "read: refused 11 inside",
            Reading::Malformed(_) => "read: refused 11 at the end",
            Reading::Group(_) => "a group prost skips, left out",
        });
        if !matches!(reading, Reading::Group(_)) {
            return script::Read { places, bytes };
        }
    }
}

fn places(rng: &mut Rng) -> usize {
    match rng.below(40) {
        0 => rng.below(64) as usize,
        1 => 63,
        2 => rng.between(65, 1024) as usize,
        _ => 64,
    }
}

fn datagram(rng: &mut Rng) -> Vec<u8> {
    let mut bytes = match rng.below(20) {
        0..=3 => datagram::encode(&packets::in_range(rng)),
        4..=17 => Maker::new(rng).datagram(),
        18 => spoil::hostile(rng),
        _ => spoil::noise(rng),
    };
    if rng.chance(35) {
        spoil::spoil(rng, &mut bytes);
    }
    bytes
}

fn write_line(rng: &mut Rng, tally: &mut Tally) -> script::Write {
    let packet = packets::any(rng);
    let room = room(rng, &packet);
    let writing = datagram::write(room, &packet);
    tally.note(match &writing {
        Writing::Written(bytes) if bytes.len() == room => "written to a row of exactly its length",
        Writing::Written(_) => "written",
        Writing::Refused(4) => "write: refused 4",
        Writing::Refused(5) => "write: refused 5",
        Writing::Refused(_) => "write: refused 12",
    });
    script::Write { room, packet }
}

/// About the length of the encoding.
fn room(rng: &mut Rng, packet: &Packet) -> usize {
    let length = match datagram::write(usize::MAX, packet) {
        Writing::Written(bytes) => bytes.len(),
        Writing::Refused(_) => 1536,
    };
    match rng.below(8) {
        0..=2 => length,
        3 => length - 1,
        4 => length + 1,
        5 => rng.below(2000) as usize,
        6 => 0,
        _ => 65536,
    }
}
