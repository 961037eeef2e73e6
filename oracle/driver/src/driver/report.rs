//! How an answer and a state are written, line by line.
use std::fmt::Display;
use std::io::{self, Write};

use super::datagram::{Reading, Writing};
use super::host::{Answer, State, Verdict};
use super::words::Bytes;

pub fn answer(out: &mut impl Write, answer: &Answer) -> io::Result<()> {
    match answer.verdict {
        Verdict::Ok { used } => writeln!(out, "= ok {used}")?,
        Verdict::Already => writeln!(out, "= already")?,
        Verdict::NotDue => writeln!(out, "= notdue")?,
    }
    for sent in &answer.sent {
        writeln!(out, "> {} {}", sent.target, sent.packet)?;
    }
    for event in &answer.events {
        writeln!(out, "! {event}")?;
    }
    Ok(())
}

/// What a `read` line gives.
pub fn reading(out: &mut impl Write, reading: &Reading) -> io::Result<()> {
    match reading {
        Reading::Read(packet) => writeln!(out, "= ok 0\n< {packet}"),
        Reading::Malformed(place) => writeln!(out, "= refused 11 {place}"),
        Reading::Refused(number) => writeln!(out, "= refused {number}"),
        Reading::Group(_) => writeln!(out, "? outside"),
    }
}

/// What a `write` line gives.
pub fn writing(out: &mut impl Write, writing: &Writing) -> io::Result<()> {
    match writing {
        Writing::Written(bytes) => writeln!(out, "= ok 0\n< {}", Bytes(bytes)),
        Writing::Refused(number) => writeln!(out, "= refused {number}"),
    }
}

pub fn state(out: &mut impl Write, state: &State) -> io::Result<()> {
    row(out, &format!("@ {}", state.position), &state.members)?;
    let lamps = state.lamps;
    writeln!(
        out,
        "l {} {} {}",
        lamps.alive, lamps.pending, lamps.suspected
    )?;
    row(out, "+", &state.alive)?;
    row(out, "x", &state.deceased)?;
    row(out, "t", &state.timers)?;
    writeln!(out, "w {}", state.wait)?;
    row(out, "d", &state.departed)
}

fn row(out: &mut impl Write, head: &str, items: &[impl Display]) -> io::Result<()> {
    write!(out, "{head}")?;
    for item in items {
        write!(out, " {item}")?;
    }
    writeln!(out)
}
