//! The lines of a script: what each one says, and how it is read and written.
//! A line that is not of the form reads as `None`.
use std::fmt;

use super::words::{Address, Bytes, Gossips, Kind, Packet, PacketKind, Peer, Phase, Record, Wait};

const MOST_RECORDS: usize = 256;
const MOST_DRAWS: usize = 1024;
const MOST_ROWS: u64 = 1024;
const MOST_ROOM: u64 = 65536;

/// The eight settings of a node, in the order of the `new` line.
#[derive(Clone, Copy, Debug, PartialEq, Eq)]
pub struct Settings {
    pub ping_interval: u32,
    pub ping_timeout: u32,
    pub ping_req_timeout: u32,
    pub suspect_timeout: u32,
    pub group: u32,
    pub send_constant: u32,
    pub max_selected: u32,
    pub max_size: u32,
}

/// A creation: the settings, own address and number, and the tick of a fresh wait record.
#[derive(Clone, Copy, Debug, PartialEq, Eq)]
pub struct Creation {
    pub settings: Settings,
    pub own: Peer,
    pub tick: u32,
    /// Is old news collected? The published code has no such setting.
    pub collect: bool,
    /// Is D taken from the row of the departed? Nor this one.
    pub remember: bool,
}

/// A call on a node.
#[derive(Clone, Debug, PartialEq, Eq)]
pub enum Call {
    Add { peer: Peer, draws: Vec<u64> },
    Message { packet: Packet, draws: Vec<u64> },
    Step { now: u32, draws: Vec<u64> },
    Timer { now: u32 },
}

/// How many gossip and event places the host lends.
#[derive(Clone, Copy, Debug, PartialEq, Eq)]
pub struct Rows {
    pub gossip: usize,
    pub events: usize,
}

#[derive(Clone, Debug, PartialEq, Eq)]
pub enum Line {
    New(Creation),
    Call(Call),
    Wait(Wait),
    Rows(Rows),
    Read(Read),
    Write(Write),
}

/// The reader's call, with so many gossip places lent.
#[derive(Clone, Debug, PartialEq, Eq)]
pub struct Read {
    pub places: usize,
    pub bytes: Vec<u8>,
}

/// The writer's call, with a row of so many bytes lent.
#[derive(Clone, Debug, PartialEq, Eq)]
pub struct Write {
    pub room: usize,
    pub packet: Packet,
}

/// Reads a line, its line feed left out.
pub fn parse(line: &[u8]) -> Option<Line> {
    let line = std::str::from_utf8(line).ok()?;
    let words: Vec<&str> = line.split(' ').collect();
    let (verb, rest) = words.split_first()?;
    match *verb {
        "new" => creation(rest).map(Line::New),
        "wait" => wait(rest).map(Line::Wait),
        "rows" => rows(rest).map(Line::Rows),
        "timer" => timer(rest).map(Line::Call),
        "add" => add(rest).map(Line::Call),
        "step" => step(rest).map(Line::Call),
        "read" => read(rest).map(Line::Read),
        "write" => write(rest).map(Line::Write),
        _ => message(&words).map(Line::Call),
    }
}

fn read(words: &[&str]) -> Option<Read> {
    let &[places, bytes] = words else {
        return None;
    };
    Some(Read {
        places: number(places).filter(|&count| count <= MOST_ROWS)? as usize,
        bytes: bytes_of(bytes)?,
    })
}

fn write(words: &[&str]) -> Option<Write> {
    let (room, words) = words.split_first()?;
    Some(Write {
        room: number(room).filter(|&count| count <= MOST_ROOM)? as usize,
        packet: packet(words)?,
    })
}

/// Pairs of lower-case hexadecimal digits, `-` for none.
pub fn bytes_of(word: &str) -> Option<Vec<u8>> {
    if word == "-" {
        return Some(Vec::new());
    }
    let digits = word.as_bytes();
    if digits.is_empty() || digits.len() % 2 == 1 {
        return None;
    }
    let byte = |pair: &[u8]| Some(hex_digit(pair[0])? << 4 | hex_digit(pair[1])?);
    digits.chunks(2).map(byte).collect()
}

fn hex_digit(digit: u8) -> Option<u8> {
    match digit {
        b'0'..=b'9' => Some(digit - b'0'),
        b'a'..=b'f' => Some(digit - b'a' + 10),
        _ => None,
    }
}

fn creation(words: &[&str]) -> Option<Creation> {
    let (words, remember) = without(words, "remember");
    let (words, collect) = without(words, "collect");
    let &[i, t, r, s, g, c, m, z, own, number_word, tick] = words else {
        return None;
    };
    let settings = Settings {
        ping_interval: number32(i)?,
        ping_timeout: number32(t)?,
        ping_req_timeout: number32(r)?,
        suspect_timeout: number32(s)?,
        group: number32(g)?,
        send_constant: number32(c)?,
        max_selected: number32(m)?,
        max_size: number32(z)?,
    };
    Some(Creation {
        settings,
        own: peer(own, number_word)?,
        tick: number32(tick)?,
        collect,
        remember,
    })
}

/// The words without a last one, if it stands there.
fn without<'a, 'b>(words: &'a [&'b str], last: &str) -> (&'a [&'b str], bool) {
    match words.split_last() {
        Some((word, others)) if *word == last => (others, true),
        _ => (words, false),
    }
}

fn wait(words: &[&str]) -> Option<Wait> {
    let (phase, tick) = match *words {
        ["ping", tick] => (Phase::SendingPing, tick),
        ["ack", address, number, tick] => (Phase::WaitingForPingAck(peer(address, number)?), tick),
        ["req", address, number, tick] => (Phase::SendingPingReq(peer(address, number)?), tick),
        ["reqack", address, number, tick] => {
            (Phase::WaitingForPingReqAck(peer(address, number)?), tick)
        }
        ["dead", address, number, tick] => (Phase::Declaring(peer(address, number)?), tick),
        _ => return None,
    };
    let tick = number32(tick)?;
    Some(Wait { phase, tick })
}

fn rows(words: &[&str]) -> Option<Rows> {
    let &[gossip, events] = words else {
        return None;
    };
    let count = |word| number(word).filter(|&count| count <= MOST_ROWS);
    Some(Rows {
        gossip: count(gossip)? as usize,
        events: count(events)? as usize,
    })
}

fn timer(words: &[&str]) -> Option<Call> {
    let &[now] = words else {
        return None;
    };
    Some(Call::Timer {
        now: number32(now)?,
    })
}

fn add(words: &[&str]) -> Option<Call> {
    let (words, draws) = split_at_bar(words)?;
    let &[address, number] = words else {
        return None;
    };
    let peer = peer(address, number)?;
    Some(Call::Add { peer, draws })
}

fn step(words: &[&str]) -> Option<Call> {
    let (words, draws) = split_at_bar(words)?;
    let &[now] = words else {
        return None;
    };
    let now = number32(now)?;
    Some(Call::Step { now, draws })
}

fn message(words: &[&str]) -> Option<Call> {
    let (words, draws) = split_at_bar(words)?;
    let packet = packet(words)?;
    Some(Call::Message { packet, draws })
}

/// A message's words, its kind the first of them.
pub fn packet(words: &[&str]) -> Option<Packet> {
    let [kind, from, other, records @ ..] = words else {
        return None;
    };
    let kind = match *kind {
        "ping" => PacketKind::Ping,
        "req" => PacketKind::Req,
        "ack" => PacketKind::Ack,
        _ => return None,
    };
    // A ping request without a suspect is no message.
    let other = match *other {
        "-" if kind == PacketKind::Req => return None,
        "-" => None,
        word => Some(address(word)?),
    };
    Some(Packet {
        kind,
        from: address(from)?,
        other,
        gossip: gossip(records)?,
    })
}

fn split_at_bar<'a, 'b>(words: &'a [&'b str]) -> Option<(&'a [&'b str], Vec<u64>)> {
    let bar = words.iter().position(|word| *word == "|")?;
    let draws = &words[bar + 1..];
    if draws.len() > MOST_DRAWS {
        return None;
    }
    let draws = draws
        .iter()
        .map(|word| number(word))
        .collect::<Option<_>>()?;
    Some((&words[..bar], draws))
}

fn gossip(words: &[&str]) -> Option<Gossips> {
    if words.len() > MOST_RECORDS {
        return None;
    }
    words.iter().map(|word| gossip_record(word)).collect()
}

/// A word of the gossip list: `Some(None)` is a record of no event.
fn gossip_record(word: &str) -> Option<Option<Record>> {
    if word == "n" {
        return Some(None);
    }
    let parts: Vec<&str> = word.split(':').collect();
    let &[letter, from, subject, incarnation] = parts.as_slice() else {
        return None;
    };
    let kind = match letter {
        "j" => Kind::Joined,
        "r" => Kind::Recovered,
        "s" => Kind::Suspected,
        "d" => Kind::Deceased,
        _ => return None,
    };
    Some(Some(Record {
        kind,
        from: address(from)?,
        subject: address(subject)?,
        number: number(incarnation)?,
    }))
}

fn peer(address: &str, incarnation: &str) -> Option<Peer> {
    let address = self::address(address)?;
    let number = number(incarnation)?;
    Some(Peer { address, number })
}

/// An address in the shortest form that says it.
fn address(word: &str) -> Option<Address> {
    Address::of_word(word, number)
}

/// A decimal number below 2^64, without sign or leading zeros.
fn number(word: &str) -> Option<u64> {
    let digits_only = !word.is_empty() && word.bytes().all(|byte| byte.is_ascii_digit());
    let leading_zero = word.len() > 1 && word.starts_with('0');
    if !digits_only || leading_zero {
        return None;
    }
    word.parse().ok()
}

/// A tick or a setting: a number below 2^32.
fn number32(word: &str) -> Option<u32> {
    number(word)?.try_into().ok()
}

impl fmt::Display for Line {
    fn fmt(&self, f: &mut fmt::Formatter<'_>) -> fmt::Result {
        match self {
            Line::New(creation) => write!(f, "new {creation}"),
            Line::Call(call) => write!(f, "{call}"),
            Line::Wait(wait) => write!(f, "wait {wait}"),
            Line::Rows(rows) => write!(f, "rows {} {}", rows.gossip, rows.events),
            Line::Read(read) => write!(f, "read {} {}", read.places, Bytes(&read.bytes)),
            Line::Write(write) => write!(f, "write {} {}", write.room, write.packet),
        }
    }
}

impl fmt::Display for Creation {
    fn fmt(&self, f: &mut fmt::Formatter<'_>) -> fmt::Result {
        let s = &self.settings;
        let waits = [
            s.ping_interval,
            s.ping_timeout,
            s.ping_req_timeout,
            s.suspect_timeout,
        ];
        let others = [s.group, s.send_constant, s.max_selected, s.max_size];
        for setting in waits.iter().chain(&others) {
            write!(f, "{setting} ")?;
        }
        write!(f, "{} {} {}", self.own.address, self.own.number, self.tick)?;
        f.write_str(if self.collect { " collect" } else { "" })?;
        f.write_str(if self.remember { " remember" } else { "" })
    }
}

impl fmt::Display for Call {
    fn fmt(&self, f: &mut fmt::Formatter<'_>) -> fmt::Result {
        let draws = match self {
            Call::Timer { now } => return write!(f, "timer {now}"),
            Call::Add { peer, draws } => {
                write!(f, "add {} {} |", peer.address, peer.number)?;
                draws
            }
            Call::Message { packet, draws } => {
                write!(f, "{packet} |")?;
                draws
            }
            Call::Step { now, draws } => {
                write!(f, "step {now} |")?;
                draws
            }
        };
        draws.iter().try_for_each(|draw| write!(f, " {draw}"))
    }
}

#[cfg(test)]
mod tests {
    use super::parse;

    fn reads(line: &str) -> bool {
        parse(line.as_bytes()).is_some()
    }

    #[test]
    fn lines_of_the_form_are_read() {
        for line in [
            "read 0 -",
            "read 1024 00ff0a",
            "write 65536 ping 1 -",
            "write 0 req 1 2 n j:1:2:3",
            "new 1 1 1 1 1 3 6 1169 1 0 0",
            "new 4294967295 1 1 1 1 3 6 1169 18446744073709551615 0 4294967295",
            "add 5 0 |",
            "add 5 18446744073709551615 | 1 2",
            "ping 5 - |",
            "ping 5 6 n j:1:2:3 |",
            "req 5 6 |",
            "ack 5 - r:0:0:0 s:1:1:1 d:2:2:2 | 0",
            "step 0 | 18446744073709551615",
            "timer 4294967295",
            "wait ping 0",
            "wait ack 5 1 700",
            "wait req 5 1 700",
            "wait reqack 5 1 700",
            "wait dead 5 1 700",
            "rows 1024 0",
        ] {
            let read = parse(line.as_bytes());
            let written = read.map(|read| read.to_string());
            assert_eq!(written.as_deref(), Some(line));
        }
    }

    #[test]
    fn other_lines_are_not_read() {
        for line in [
            " ",
            "read 64",
            "read 64 ",
            "read 64 0",
            "read 64 0A",
            "read 64 0g",
            "read 64 --",
            "read 64 00 00",
            "read 64 00 |",
            "read 1025 00",
            "read - 00",
            "write 65537 ping 1 -",
            "write 1 ping 1 - |",
            "write 1 req 1 -",
            "write 1 add 1 0",
            "write ping 1 -",
            "write 1",
            "new 1 1 1 1 1 3 6 1169 1 0",
            "new 4294967296 1 1 1 1 3 6 1169 1 0 0",
            "new 1 1 1 1 1 3 6 1169 - 0 0",
            "new 1 1 1 1 1 3 6 1169 1 0 0 |",
            "add 5 0",
            "add 5 0 ",
            "add 5 0 | ",
            "add  5 0 |",
            " add 5 0 |",
            "add - 0 |",
            "add +5 0 |",
            "add 05 0 |",
            "add 5 18446744073709551616 |",
            "add 5 0 | 1 | 2",
            "add 5 0 |1",
            "add 5 0 | 1\r",
            "ping - - |",
            "ping 5 |",
            "ping 5 - m |",
            "ping 5 - n: |",
            "ping 5 - j:-:2:3 |",
            "ping 5 - j:1:2 |",
            "ping 5 - j:1:2:3:4 |",
            "req 5 - |",
            "step 4294967296 |",
            "step -1 |",
            "timer 0 |",
            "timer",
            "wait ping",
            "wait ack - 1 700",
            "wait done 5 1 700",
            "rows 1025 0",
            "rows 64",
            "Add 5 0 |",
            "add 5 0 | é",
        ] {
            assert!(!reads(line), "{line}");
        }
    }

    #[test]
    fn records_and_draws_have_a_limit() {
        let records = |count| format!("ping 5 -{} |", " n".repeat(count));
        assert!(reads(&records(256)) && !reads(&records(257)));
        let draws = |count| format!("add 5 0 |{}", " 0".repeat(count));
        assert!(reads(&draws(1024)) && !reads(&draws(1025)));
    }
}
