//! The verbs `run` and `past`: a script in, the published code's answers out.
use std::io::{self, BufRead, Write};

use super::datagram::{self, Reading};
use super::host::{Answer, Host, Outcome, Verdict};
use super::lines::Lines;
use super::report;
use super::script::{self, Call, Creation, Line};

/// How a run is written.
#[derive(Clone, Copy)]
pub struct Manner {
    /// Leave out the state after each call.
    pub quiet: bool,
    /// Past the domain's edge, show what the published code does there.
    pub past: bool,
}

/// Where a run stands.
enum Stage {
    /// Before the first `new`.
    Before,
    Live(Box<Host>),
    /// A call, or a refused `new`, has left the domain.
    Outside,
}

struct Run<W> {
    out: W,
    manner: Manner,
    stage: Stage,
}

pub fn run(input: impl BufRead, out: impl Write, manner: Manner) -> io::Result<()> {
    let mut lines = Lines::new(input);
    let mut run = Run {
        out,
        manner,
        stage: Stage::Before,
    };
    while let Some(line) = lines.next_line()? {
        if line.is_skipped() {
            continue;
        }
        let read = match line.too_long {
            true => None,
            false => script::parse(&line.bytes),
        };
        match read {
            Some(read) => run.line(&read)?,
            None => writeln!(run.out, "? {}", lines.number)?,
        }
        run.out.flush()?;
    }
    Ok(())
}

impl<W: Write> Run<W> {
    fn line(&mut self, line: &Line) -> io::Result<()> {
        match (line, &mut self.stage) {
            (Line::New(creation), _) => self.create(creation),
            (Line::Call(call), _) => self.call(call),
            (Line::Wait(wait), Stage::Live(host)) => {
                host.lend_wait(*wait);
                Ok(())
            }
            (Line::Rows(rows), Stage::Live(host)) => {
                host.lend_rows(*rows);
                Ok(())
            }
            (Line::Wait(_) | Line::Rows(_), Stage::Before | Stage::Outside) => Ok(()),
            // These need no node and leave the one there is.
            (Line::Read(call), _) => self.read(&datagram::read(call.places, &call.bytes)),
            (Line::Write(call), _) => {
                report::writing(&mut self.out, &datagram::write(call.room, &call.packet))
            }
        }
    }

    fn create(&mut self, creation: &Creation) -> io::Result<()> {
        match Host::new(creation) {
            Ok(host) => {
                self.stage = Stage::Live(Box::new(host));
                self.answer(&created())
            }
            // Refusals 5 and 1 leave no node, and neither a refusal nor a node that collects or remembers is the published code's to give.
            Err(_) => self.leave(),
        }
    }

    fn call(&mut self, call: &Call) -> io::Result<()> {
        let host = match &mut self.stage {
            Stage::Before => return writeln!(self.out, "= none"),
            Stage::Outside => return writeln!(self.out, "? outside"),
            Stage::Live(host) => host,
        };
        match host.call(call) {
            Outcome::Inside(answer) => self.answer(&answer),
            Outcome::Outside { .. } if !self.manner.past => self.leave(),
            Outcome::Outside { why, ran } => {
                writeln!(self.out, "? outside {why:?}")?;
                match ran {
                    Some(answer) => self.answer(&answer),
                    None => Ok(()),
                }
            }
        }
    }

    /// What was read; where prost skips a group, past the domain's edge, what it comes to.
    fn read(&mut self, reading: &Reading) -> io::Result<()> {
        match reading {
            Reading::Group(skipped) if self.manner.past => {
                writeln!(self.out, "? outside Group")?;
                report::reading(&mut self.out, skipped)
            }
            reading => report::reading(&mut self.out, reading),
        }
    }

    fn leave(&mut self) -> io::Result<()> {
        self.stage = Stage::Outside;
        writeln!(self.out, "? outside")
    }

    /// Writes an answer and the state after it.
    fn answer(&mut self, answer: &Answer) -> io::Result<()> {
        report::answer(&mut self.out, answer)?;
        match &self.stage {
            Stage::Live(host) if !self.manner.quiet => report::state(&mut self.out, &host.state()),
            _ => Ok(()),
        }
    }
}

fn created() -> Answer {
    Answer {
        verdict: Verdict::Ok { used: 0 },
        sent: Vec::new(),
        events: Vec::new(),
    }
}
