//! The calls without a node: bytes are read and written by prost, and judged by the table of refusals.

use prost::Message;

use super::clock::timed;
use super::convert;
use super::domain::{self, MOST_GOSSIP};
use super::walk::{self, Fault};
use super::words::{Address, Gossips, Kind, Packet, PacketKind, Record};
use crate::pb::swim_message::{Ack, Action, Ping, PingReq};
use crate::pb::{Gossip, SwimMessage};
use crate::Event;

/// What became of a `read` line.
#[derive(Clone, Debug, PartialEq, Eq)]
pub enum Reading {
    Read(Packet),
    /// Refusal 11 with its place.
    Malformed(usize),
    /// Refusal 3 or 4.
    Refused(u8),
    /// prost skips a group, which the port refuses, and comes to this.
    Group(Box<Reading>),
}

/// What became of a `write` line.
#[derive(Clone, Debug, PartialEq, Eq)]
pub enum Writing {
    Written(Vec<u8>),
    /// Refusal 4, 5 or 12.
    Refused(u8),
}

/// Reads bytes, with so many places lent: 3, then 11, then 4.
pub fn read(places: usize, bytes: &[u8]) -> Reading {
    if places < MOST_GOSSIP {
        return Reading::Refused(3);
    }
    let (decoded, packet) = timed(|| {
        let decoded = SwimMessage::decode(bytes);
        let packet = decoded.as_ref().ok().and_then(packet);
        (decoded, packet)
    });
    match (walk::first_fault(bytes), decoded) {
        (None, Ok(message)) => judged(packet, &message, bytes.len()),
        (Some(fault), Err(_)) => Reading::Malformed(fault.place),
        (Some(Fault { is_group: true, .. }), Ok(message)) => {
            Reading::Group(Box::new(judged(packet, &message, bytes.len())))
        }
        (fault, decoded) => {
            panic!("the walk finds {fault:?} where prost gives {decoded:?}: {bytes:02x?}")
        }
    }
}

/// Well formed bytes: the packet, if its texts are those that its numbers are written as. Without one the action or an
/// address is missing, or no address.
fn judged(packet: Option<Packet>, message: &SwimMessage, length: usize) -> Reading {
    let canonical = |packet: &Packet| message.action.as_ref() == Some(&convert::action(packet));
    match packet.filter(canonical) {
        None => Reading::Malformed(length),
        Some(packet) if packet.gossip.len() > MOST_GOSSIP => Reading::Refused(4),
        Some(packet) => Reading::Read(packet),
    }
}

/// Writes a message to a row of so many bytes: 4, then 5, then 12.
pub fn write(room: usize, packet: &Packet) -> Writing {
    if let Err(domain::Outside::Refusal(number)) = domain::check_packet(packet) {
        return Writing::Refused(number);
    }
    let bytes = timed(|| encode(packet));
    match bytes.len() <= room {
        true => Writing::Written(bytes),
        false => Writing::Refused(12),
    }
}

/// The bytes of a message in range, as prost writes them.
pub fn encode(packet: &Packet) -> Vec<u8> {
    let action = Some(convert::action(packet));
    SwimMessage { action }.encode_to_vec()
}

/// The numbers of a message whose needed addresses are there.
fn packet(message: &SwimMessage) -> Option<Packet> {
    let (kind, from, other, gossip) = match message.action.as_ref()? {
        Action::Ping(Ping {
            from,
            requested_by,
            gossip,
        }) => (PacketKind::Ping, from, requested_by, gossip),
        Action::PingReq(PingReq {
            from,
            suspect,
            gossip,
        }) => (PacketKind::Req, from, suspect, gossip),
        Action::Ack(Ack {
            from,
            forward_to,
            gossip,
        }) => (PacketKind::Ack, from, forward_to, gossip),
    };
    // A ping request without a suspect is no message.
    let other = match other.as_str() {
        "" if kind == PacketKind::Req => return None,
        "" => None,
        text => Some(Address::of_text(text)?),
    };
    Some(Packet {
        kind,
        from: Address::of_text(from)?,
        other,
        gossip: gossips(gossip)?,
    })
}

fn gossips(gossip: &[Gossip]) -> Option<Gossips> {
    let item = |held: &Gossip| match &held.event {
        None => Some(None),
        Some(event) => record(event).map(Some),
    };
    gossip.iter().map(item).collect()
}

/// The record of an event whose texts are addresses.
fn record(event: &Event) -> Option<Record> {
    let (kind, from, subject, incarnation) = match event {
        Event::NodeJoined(e) => (
            Kind::Joined,
            &e.from,
            &e.new_member,
            e.joined_incarnation_no,
        ),
        Event::NodeRecovered(e) => (
            Kind::Recovered,
            &e.from,
            &e.recovered,
            e.recovered_incarnation_no,
        ),
        Event::NodeSuspected(e) => (
            Kind::Suspected,
            &e.from,
            &e.suspect,
            e.suspect_incarnation_no,
        ),
        Event::NodeDeceased(e) => (
            Kind::Deceased,
            &e.from,
            &e.deceased,
            e.deceased_incarnation_no,
        ),
    };
    Some(Record {
        kind,
        from: Address::of_text(from)?,
        subject: Address::of_text(subject)?,
        number: incarnation,
    })
}
