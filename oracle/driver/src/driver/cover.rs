//! The verb `cover`: runs a script and counts what it reaches.
use std::io::{self, BufRead};

use super::coverage::{Coverage, Seen};
use super::host::{Host, Outcome};
use super::lines::Lines;
use super::script::{self, Call, Line};

/// Prints the counts; `false` if something never came up. Lines that are not of the form, and calls without a node
/// inside the domain, are passed over.
pub fn cover(input: impl BufRead) -> io::Result<bool> {
    let mut coverage = Coverage::default();
    let mut lines = Lines::new(input);
    let mut host: Option<Host> = None;
    let mut calls = 0;
    while let Some(line) = lines.next_line()? {
        match (script::parse(&line.bytes), &mut host) {
            (Some(Line::New(creation)), _) => host = Host::new(&creation).ok(),
            (Some(Line::Call(call)), Some(node)) => {
                calls += 1;
                if !observe(&mut coverage, node, &call) {
                    host = None;
                }
            }
            (Some(Line::Wait(wait)), Some(node)) => {
                node.lend_wait(wait);
                coverage.line_wait();
            }
            (Some(Line::Rows(rows)), Some(node)) => node.lend_rows(rows),
            _ => {}
        }
    }
    coverage.write(&mut io::stdout().lock())?;
    let full = coverage.is_full();
    println!(
        "cover: {calls} calls, {}",
        if full {
            "everything came up"
        } else {
            "not everything came up"
        }
    );
    Ok(full)
}

/// Runs a call and counts it; `false` if it left the domain.
fn observe(coverage: &mut Coverage, host: &mut Host, call: &Call) -> bool {
    let before = host.state();
    let answer = match host.call(call) {
        Outcome::Inside(answer) => answer,
        Outcome::Outside { why, .. } => {
            coverage.left(why);
            return false;
        }
    };
    coverage.observe(&Seen {
        settings: &host.settings,
        own: host.own,
        call,
        before: &before,
        answer: &answer,
        after: &host.state(),
    });
    true
}
