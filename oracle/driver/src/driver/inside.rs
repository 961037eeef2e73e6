//! The verb `inside`: a script without the calls that are outside the domain, so that what is left can be compared byte
//! for byte.
use std::io::{self, BufRead, Write};

use super::host::{Host, Outcome};
use super::lines::Lines;
use super::script::{self, Line};

pub fn inside(input: impl BufRead, mut out: impl Write) -> io::Result<bool> {
    let mut lines = Lines::new(input);
    let mut host: Option<Host> = None;
    while let Some(line) = lines.next_line()? {
        let read = match line.is_skipped() {
            true => None,
            false => script::parse(&line.bytes),
        };
        if stays(read, &mut host) {
            out.write_all(&line.bytes)?;
            writeln!(out)?;
        }
    }
    out.flush()?;
    Ok(true)
}

/// Whether a line stays. A call that leaves the domain takes along all of its node's lines that follow it.
fn stays(line: Option<Line>, host: &mut Option<Host>) -> bool {
    match (line, &mut *host) {
        (Some(Line::New(creation)), _) => {
            *host = Host::new(&creation).ok();
            host.is_some()
        }
        (Some(Line::Call(call)), Some(node)) => match node.call(&call) {
            Outcome::Inside(_) => true,
            Outcome::Outside { .. } => {
                *host = None;
                false
            }
        },
        (Some(Line::Wait(wait)), Some(node)) => {
            node.lend_wait(wait);
            true
        }
        (Some(Line::Rows(rows)), Some(node)) => {
            node.lend_rows(rows);
            true
        }
        (Some(Line::Call(_) | Line::Wait(_) | Line::Rows(_)), None) => false,
        (Some(Line::Read(_) | Line::Write(_)) | None, _) => true,
    }
}
