//! The verb `time`: runs a script and writes the nanoseconds that the published code took for each call.
use std::io::{self, BufRead, Write};

use super::clock;
use super::datagram;
use super::host::{Host, Outcome};
use super::lines::Lines;
use super::script::{self, Line};

/// One number for each call; `false` if a call left the domain, since there is nothing to compare with then.
pub fn time(input: impl BufRead, mut out: impl Write) -> io::Result<bool> {
    let overhead = clock::overhead();
    let mut lines = Lines::new(input);
    let mut host: Option<Host> = None;
    while let Some(line) = lines.next_line()? {
        match (script::parse(&line.bytes), &mut host) {
            (Some(Line::New(creation)), _) => host = Host::new(&creation).ok(),
            (Some(Line::Wait(wait)), Some(node)) => node.lend_wait(wait),
            (Some(Line::Rows(rows)), Some(node)) => node.lend_rows(rows),
            (Some(Line::Call(call)), Some(node)) => {
                let Outcome::Inside(_) = node.call(&call) else {
                    return Ok(false);
                };
                writeln!(out, "{}", clock::last().saturating_sub(overhead))?;
            }
            (Some(Line::Read(call)), _) => {
                datagram::read(call.places, &call.bytes);
                writeln!(out, "{}", clock::last().saturating_sub(overhead))?;
            }
            (Some(Line::Write(call)), _) => {
                datagram::write(call.room, &call.packet);
                writeln!(out, "{}", clock::last().saturating_sub(overhead))?;
            }
            _ => {}
        }
    }
    out.flush()?;
    Ok(true)
}
