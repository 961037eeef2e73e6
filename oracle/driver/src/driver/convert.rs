//! Between the replay text's numbers and the published code's strings and generated types.

use super::words::{
    Address, Gossips, Kind, Member, MemberState, Packet, PacketKind, Peer, Phase, Record,
};
use crate::core::detection::{AckType, FailureDetectorState};
use crate::pb::swim_message::{Ack, Action, Ping, PingReq};
use crate::pb::{self, Gossip};
use crate::{Event, NodeDeceased, NodeJoined, NodeRecovered, NodeState, NodeSuspected};

/// The canonical text `a.b.c.d:port`.
pub fn text(address: Address) -> String {
    let socket = address.socket().expect("the domain has addresses in range only");
    socket.to_string()
}

pub fn address(text: &str) -> Address {
    Address::of_text(text).expect("the oracle lends canonical addresses only")
}

fn optional_text(address: Option<Address>) -> String {
    address.map_or_else(String::new, text)
}

fn optional_address(text: &str) -> Option<Address> {
    (!text.is_empty()).then(|| address(text))
}

pub fn event(record: &Record) -> Event {
    let (from, subject, number) = (text(record.from), text(record.subject), record.number);
    match record.kind {
        Kind::Joined => Event::new_node_joined(from, subject, number),
        Kind::Recovered => Event::new_node_recovered(from, subject, number),
        Kind::Suspected => Event::new_node_suspected(from, subject, number),
        Kind::Deceased => Event::new_node_deceased(from, subject, number),
    }
}

pub fn record(event: &Event) -> Record {
    let (kind, from, subject, number) = match event {
        Event::NodeJoined(NodeJoined {
            from,
            new_member,
            joined_incarnation_no,
        }) => (Kind::Joined, from, new_member, joined_incarnation_no),
        Event::NodeRecovered(NodeRecovered {
            from,
            recovered,
            recovered_incarnation_no,
        }) => (Kind::Recovered, from, recovered, recovered_incarnation_no),
        Event::NodeSuspected(NodeSuspected {
            from,
            suspect,
            suspect_incarnation_no,
        }) => (Kind::Suspected, from, suspect, suspect_incarnation_no),
        Event::NodeDeceased(NodeDeceased {
            from,
            deceased,
            deceased_incarnation_no,
        }) => (Kind::Deceased, from, deceased, deceased_incarnation_no),
    };
    Record {
        kind,
        from: address(from),
        subject: address(subject),
        number: *number,
    }
}

fn gossip_out(gossip: &[Gossip]) -> Gossips {
    gossip
        .iter()
        .map(|item| item.event.as_ref().map(record))
        .collect()
}

pub fn gossip_in(gossip: &Gossips) -> Vec<Gossip> {
    let item = |held: &Option<Record>| Gossip {
        event: held.as_ref().map(event),
    };
    gossip.iter().map(item).collect()
}

pub fn action(packet: &Packet) -> Action {
    let (from, other) = (text(packet.from), optional_text(packet.other));
    let gossip = gossip_in(&packet.gossip);
    match packet.kind {
        PacketKind::Ping => Action::new_ping(from, other, gossip),
        PacketKind::Req => Action::new_ping_req(from, other, gossip),
        PacketKind::Ack => Action::new_ack(from, other, gossip),
    }
}

pub fn packet(action: &Action) -> Packet {
    let (kind, from, other, gossip) = match action {
        Action::Ping(Ping {
            from,
            requested_by,
            gossip,
        }) => (PacketKind::Ping, from, requested_by, gossip),
        Action::PingReq(PingReq {
            from,
            suspect,
            gossip,
        }) => (PacketKind::Req, from, suspect, gossip),
        Action::Ack(Ack {
            from,
            forward_to,
            gossip,
        }) => (PacketKind::Ack, from, forward_to, gossip),
    };
    Packet {
        kind,
        from: address(from),
        other: optional_address(other),
        gossip: gossip_out(gossip),
    }
}

pub fn member(member: &pb::Member) -> Member {
    let state =
        match NodeState::try_from(member.state).expect("the published code sets known states") {
            NodeState::Alive => MemberState::Alive,
            NodeState::Pending => MemberState::Pending,
            NodeState::Suspected => MemberState::Suspected,
        };
    Member {
        address: address(&member.addr),
        state,
        number: member.incarnation,
    }
}

pub fn detector_state(phase: &Phase) -> FailureDetectorState {
    let waiting = |peer: &Peer, ack_type| FailureDetectorState::WaitingForAck {
        target: text(peer.address),
        ack_type,
        incarnation: peer.number,
    };
    match phase {
        Phase::SendingPing => FailureDetectorState::SendingPing,
        Phase::WaitingForPingAck(peer) => waiting(peer, AckType::PingAck),
        Phase::WaitingForPingReqAck(peer) => waiting(peer, AckType::PingReqAck),
        Phase::SendingPingReq(peer) => FailureDetectorState::SendingPingReq {
            target: text(peer.address),
            incarnation: peer.number,
        },
        Phase::Declaring(peer) => FailureDetectorState::DeclaringNodeAsDead {
            target: text(peer.address),
            incarnation: peer.number,
        },
    }
}

pub fn phase(state: &FailureDetectorState) -> Phase {
    let peer = |target: &str, number: &u64| Peer {
        address: address(target),
        number: *number,
    };
    match state {
        FailureDetectorState::SendingPing => Phase::SendingPing,
        FailureDetectorState::SendingPingReq {
            target,
            incarnation,
        } => Phase::SendingPingReq(peer(target, incarnation)),
        FailureDetectorState::WaitingForAck {
            target,
            ack_type: AckType::PingAck,
            incarnation,
        } => Phase::WaitingForPingAck(peer(target, incarnation)),
        FailureDetectorState::WaitingForAck {
            target,
            ack_type: AckType::PingReqAck,
            incarnation,
        } => Phase::WaitingForPingReqAck(peer(target, incarnation)),
        FailureDetectorState::DeclaringNodeAsDead {
            target,
            incarnation,
        } => Phase::Declaring(peer(target, incarnation)),
    }
}

#[cfg(test)]
mod tests {
    use super::{address, text, Address};

    #[test]
    fn addresses_go_to_text_and_back() {
        assert_eq!(text(Address::four(0)), "0.0.0.0:0");
        assert_eq!(text(Address::four((1 << 48) - 1)), "255.255.255.255:65535");
        assert_eq!(text(Address::four((10 << 24 | 1) << 16 | 7000)), "10.0.0.1:7000");
        assert_eq!(text(Address::six(0, 0)), "[::]:0");
        assert_eq!(text(Address::six(0xffff_0102_0304, 80)), "[::ffff:1.2.3.4]:80");
        assert_eq!(text(Address::six(0x0102_0304, 80)), "[::102:304]:80");
        for number in [0, 1, 65536, 0x0a00_0001_1b58, (1 << 48) - 1] {
            assert_eq!(address(&text(Address::four(number))), Address::four(number));
        }
    }
}
