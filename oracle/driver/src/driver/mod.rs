//! What drives the published code: the replay text, the host around a node, the verbs.
mod bench;
mod bytes;
mod checks;
mod clock;
mod convert;
mod cover;
mod coverage;
mod datagram;
mod domain;
mod gen;
mod host;
mod inside;
mod lines;
mod overflow;
mod packets;
mod report;
mod rng;
mod run;
mod script;
#[cfg(test)]
mod tests;
mod time;
mod walk;
mod wire;
mod words;

use std::io::{self, BufWriter, Write};
use std::process::ExitCode;

use rng::Rng;
use run::Manner;
use words::Packet;

const USAGE: &str = "\
usage: oracle run [quiet]            answer the script on standard input
       oracle past [quiet]           the same, and go on past the domain's edge as the published code does
       oracle gen SEED NODES CALLS   write a random script; its coverage goes to standard error
       oracle inside                 write the script on standard input without the calls outside the domain
       oracle bytes SEED LINES       write a random script of read and write lines; what it comes to goes to standard error
       oracle encode                 write the read line, with prost's bytes, of each message on standard input
       oracle decode                 write the message that prost reads in each line of bytes on standard input
       oracle texts SEED N           write N messages in protobuf's text format, for protoc
       oracle writes SEED N          write the write lines of the same messages
       oracle addresses SEED LINES   write write lines, each with 130 structured addresses of IPv6
       oracle split                  write protoc's bytes of them as answers to the write lines
       oracle cover                  count what the script on standard input reaches; all of it must come up
       oracle time                   write the nanoseconds of each call of the script on standard input
       oracle limits                 compare the 585 send limits
       oracle sizes N                compare the sizes of N random gossips, and of those at the edges
       oracle heap N                 compare N random sequences of heap operations
       oracle schema                 compare the message types with swim.proto";

/// Runs a verb; the exit code says whether all was well.
pub fn main(arguments: &[String]) -> ExitCode {
    overflow::quiet_hook();
    let words: Vec<&str> = arguments.iter().map(String::as_str).collect();
    let result = match play(&words)
        .or_else(|| check(&words))
        .or_else(|| carry(&words))
    {
        Some(result) => result,
        None => {
            eprintln!("{USAGE}");
            return ExitCode::from(2);
        }
    };
    match result {
        Ok(true) => ExitCode::SUCCESS,
        Ok(false) => ExitCode::FAILURE,
        // Whoever read the output has seen enough.
        Err(error) if error.kind() == io::ErrorKind::BrokenPipe => ExitCode::FAILURE,
        Err(error) => {
            eprintln!("oracle: {error}");
            ExitCode::FAILURE
        }
    }
}

/// The verbs about scripts.
fn play(words: &[&str]) -> Option<io::Result<bool>> {
    Some(match words {
        ["run"] => run_script(false, false),
        ["run", "quiet"] => run_script(true, false),
        ["past"] => run_script(false, true),
        ["past", "quiet"] => run_script(true, true),
        ["gen", seed, nodes, calls] => generate(seed, nodes, calls),
        ["bytes", seed, lines] => generate_bytes(seed, lines),
        ["inside"] => inside::inside(io::stdin().lock(), buffered_output()),
        ["cover"] => cover::cover(io::stdin().lock()),
        ["time"] => time::time(io::stdin().lock(), buffered_output()),
        _ => return None,
    })
}

/// The verbs that compare one rule each.
fn check(words: &[&str]) -> Option<io::Result<bool>> {
    Some(match words {
        ["limits"] => Ok(checks::limits::check()),
        ["sizes", count] => count_of(count).map(checks::sizes::check),
        ["heap", count] => count_of(count).map(checks::heap::check),
        ["schema"] => Ok(checks::schema::check()),
        _ => return None,
    })
}

/// The verbs that carry messages to bytes and back.
fn carry(words: &[&str]) -> Option<io::Result<bool>> {
    Some(match words {
        ["encode"] => packets::encode(io::stdin().lock(), buffered_output()),
        ["decode"] => packets::decode(io::stdin().lock(), buffered_output()),
        ["texts", seed, count] => made(seed, count, packets::text_of),
        ["writes", seed, count] => made(seed, count, packets::write_line),
        ["addresses", seed, lines] => addresses(seed, lines),
        ["split"] => packets::split(io::stdin().lock(), buffered_output()),
        _ => return None,
    })
}

/// So many messages in range, each as a line.
fn made(seed: &str, count: &str, line: fn(Packet) -> String) -> io::Result<bool> {
    let mut rng = Rng::new(count_of(seed)?);
    let mut out = buffered_output();
    for _ in 0..count_of(count)? {
        writeln!(out, "{}", line(bytes::packet_in_range(&mut rng)))?;
    }
    out.flush()?;
    Ok(true)
}

fn run_script(quiet: bool, past: bool) -> io::Result<bool> {
    let manner = Manner { quiet, past };
    run::run(io::stdin().lock(), buffered_output(), manner)?;
    Ok(true)
}

fn buffered_output() -> impl Write {
    BufWriter::with_capacity(1 << 16, io::stdout().lock())
}

fn generate(seed: &str, nodes: &str, calls: &str) -> io::Result<bool> {
    let mut out = buffered_output();
    let coverage = gen::generate(
        &mut out,
        count_of(seed)?,
        count_of(nodes)?,
        count_of(calls)?,
    )?;
    out.flush()?;
    coverage.write(&mut io::stderr().lock())?;
    Ok(true)
}

fn generate_bytes(seed: &str, lines: &str) -> io::Result<bool> {
    let mut out = buffered_output();
    let lines = count_of(lines)?;
    let tally = bytes::generate(&mut out, count_of(seed)?, lines)?;
    out.flush()?;
    tally.write(lines, &mut io::stderr().lock())
}

fn addresses(seed: &str, lines: &str) -> io::Result<bool> {
    let mut out = buffered_output();
    bytes::addresses::generate(&mut out, count_of(seed)?, count_of(lines)?)?;
    out.flush()?;
    Ok(true)
}

fn count_of(word: &str) -> io::Result<u64> {
    let not_a_number = |_| io::Error::other(format!("{word} is not a count"));
    word.parse().map_err(not_a_number)
}
