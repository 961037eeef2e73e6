//! The verbs that carry messages between the replay text and bytes without judging them: `encode`, `decode`,
//! and those around protoc, `texts`, `writes` and `split`.
use std::io::{self, BufRead, Read, Write};

use prost::Message;

use super::convert;
use super::datagram;
use super::script::{self, Line};
use super::words::{Bytes, Kind, Packet, PacketKind, Record};
use crate::pb::SwimMessage;

/// Every row that is lent here is long enough.
const ROOM: usize = 65536;
const PLACES: usize = 64;

/// `encode`: for each message, a line of its words, the `read` line with its bytes as prost writes them.
pub fn encode(input: impl BufRead, mut out: impl Write) -> io::Result<bool> {
    for line in input.lines() {
        let line = line?;
        let words: Vec<&str> = line.split(' ').collect();
        let packet = script::packet(&words).ok_or_else(|| not_of_the_form(&line))?;
        let bytes = datagram::encode(&packet);
        let places = PLACES;
        writeln!(out, "{}", Line::Read(script::Read { places, bytes }))?;
    }
    out.flush()?;
    Ok(true)
}

/// `decode`: for each line of bytes, the words of the message that prost reads there.
pub fn decode(input: impl BufRead, mut out: impl Write) -> io::Result<bool> {
    for line in input.lines() {
        let line = line?;
        let bytes = script::bytes_of(&line).ok_or_else(|| not_of_the_form(&line))?;
        let message = SwimMessage::decode(bytes.as_slice()).map_err(io::Error::other)?;
        let action = message.action.ok_or_else(|| not_of_the_form(&line))?;
        writeln!(out, "{}", convert::packet(&action))?;
    }
    out.flush()?;
    Ok(true)
}

fn not_of_the_form(line: &str) -> io::Error {
    io::Error::other(format!("not of the form: {line}"))
}

/// The `write` line of a message.
pub fn write_line(packet: Packet) -> String {
    Line::Write(script::Write { room: ROOM, packet }).to_string()
}

/// The message that holds them, as protoc writes it: field 1 is repeated, and nothing else is there.
#[derive(Clone, PartialEq, Message)]
struct All {
    #[prost(bytes = "vec", repeated, tag = "1")]
    all: Vec<Vec<u8>>,
}

/// `split`: the bytes of each message in protoc's encoding, as answers to the `write` lines.
pub fn split(mut input: impl Read, mut out: impl Write) -> io::Result<bool> {
    let mut bytes = Vec::new();
    input.read_to_end(&mut bytes)?;
    let All { all } = All::decode(bytes.as_slice()).map_err(io::Error::other)?;
    for one in &all {
        writeln!(out, "= ok 0\n< {}", Bytes(one))?;
    }
    out.flush()?;
    Ok(true)
}

/// A message in protobuf's text format, as one `all` of the message that holds them.
pub fn text_of(packet: Packet) -> String {
    let (case, field) = match packet.kind {
        PacketKind::Ping => ("ping", "requested_by"),
        PacketKind::Req => ("ping_req", "suspect"),
        PacketKind::Ack => ("ack", "forward_to"),
    };
    let from = convert::text(packet.from);
    let other = packet.other.map_or_else(String::new, convert::text);
    let gossip: String = packet.gossip.iter().map(gossip_text).collect();
    format!("all {{ {case} {{ from: \"{from}\" {field}: \"{other}\" {gossip}}} }}")
}

fn gossip_text(held: &Option<Record>) -> String {
    let Some(record) = held else {
        return "gossip { } ".to_string();
    };
    let (case, subject, number) = match record.kind {
        Kind::Joined => ("node_joined", "new_member", "joined_incarnation_no"),
        Kind::Recovered => ("node_recovered", "recovered", "recovered_incarnation_no"),
        Kind::Suspected => ("node_suspected", "suspect", "suspect_incarnation_no"),
        Kind::Deceased => ("node_deceased", "deceased", "deceased_incarnation_no"),
    };
    let (from, about) = (convert::text(record.from), convert::text(record.subject));
    format!(
        "gossip {{ {case} {{ from: \"{from}\" {subject}: \"{about}\" {number}: {} }} }} ",
        record.number
    )
}
