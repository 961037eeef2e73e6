//! The message types of `swim.proto` in the form prost's generator gives them; `oracle schema` compares the two.
use prost::{Enumeration, Message, UnknownEnumValue};

#[derive(Clone, Copy, Debug, PartialEq, Eq, Hash, PartialOrd, Ord, Enumeration)]
#[repr(i32)]
pub enum NodeState {
    Alive = 0,
    Pending = 1,
    Suspected = 2,
}

impl TryFrom<i32> for NodeState {
    type Error = UnknownEnumValue;

    fn try_from(value: i32) -> Result<Self, Self::Error> {
        NodeState::from_i32(value).ok_or(UnknownEnumValue(value))
    }
}

#[derive(Clone, PartialEq, Message)]
pub struct Member {
    #[prost(string, tag = "1")]
    pub addr: String,
    #[prost(enumeration = "NodeState", tag = "2")]
    pub state: i32,
    #[prost(uint64, tag = "3")]
    pub incarnation: u64,
}

#[derive(Clone, PartialEq, Message)]
pub struct Gossip {
    #[prost(oneof = "gossip::Event", tags = "1, 2, 3, 4")]
    pub event: Option<gossip::Event>,
}

pub mod gossip {
    use prost::{Message, Oneof};

    #[derive(Clone, PartialEq, Eq, Hash, Message)]
    pub struct NodeJoined {
        #[prost(string, tag = "1")]
        pub from: String,
        #[prost(string, tag = "2")]
        pub new_member: String,
        #[prost(uint64, tag = "3")]
        pub joined_incarnation_no: u64,
    }

    #[derive(Clone, PartialEq, Eq, Hash, Message)]
    pub struct NodeRecovered {
        #[prost(string, tag = "1")]
        pub from: String,
        #[prost(string, tag = "2")]
        pub recovered: String,
        #[prost(uint64, tag = "3")]
        pub recovered_incarnation_no: u64,
    }

    #[derive(Clone, PartialEq, Eq, Hash, Message)]
    pub struct NodeSuspected {
        #[prost(string, tag = "1")]
        pub from: String,
        #[prost(string, tag = "2")]
        pub suspect: String,
        #[prost(uint64, tag = "3")]
        pub suspect_incarnation_no: u64,
    }

    #[derive(Clone, PartialEq, Eq, Hash, Message)]
    pub struct NodeDeceased {
        #[prost(string, tag = "1")]
        pub from: String,
        #[prost(string, tag = "2")]
        pub deceased: String,
        #[prost(uint64, tag = "3")]
        pub deceased_incarnation_no: u64,
    }

    #[derive(Clone, PartialEq, Eq, Hash, Oneof)]
    pub enum Event {
        #[prost(message, tag = "1")]
        NodeJoined(NodeJoined),
        #[prost(message, tag = "2")]
        NodeRecovered(NodeRecovered),
        #[prost(message, tag = "3")]
        NodeSuspected(NodeSuspected),
        #[prost(message, tag = "4")]
        NodeDeceased(NodeDeceased),
    }
}

#[derive(Clone, PartialEq, Message)]
pub struct SwimMessage {
    #[prost(oneof = "swim_message::Action", tags = "1, 2, 3")]
    pub action: Option<swim_message::Action>,
}

pub mod swim_message {
    use super::Gossip;
    use prost::{Message, Oneof};

    #[derive(Clone, PartialEq, Message)]
    pub struct Ping {
        #[prost(string, tag = "1")]
        pub from: String,
        #[prost(string, tag = "2")]
        pub requested_by: String,
        #[prost(message, repeated, tag = "3")]
        pub gossip: Vec<Gossip>,
    }

    #[derive(Clone, PartialEq, Message)]
    pub struct PingReq {
        #[prost(string, tag = "1")]
        pub from: String,
        #[prost(string, tag = "2")]
        pub suspect: String,
        #[prost(message, repeated, tag = "3")]
        pub gossip: Vec<Gossip>,
    }

    #[derive(Clone, PartialEq, Message)]
    pub struct Ack {
        #[prost(string, tag = "1")]
        pub from: String,
        #[prost(string, tag = "2")]
        pub forward_to: String,
        #[prost(message, repeated, tag = "3")]
        pub gossip: Vec<Gossip>,
    }

    #[derive(Clone, PartialEq, Oneof)]
    pub enum Action {
        #[prost(message, tag = "1")]
        Ping(Ping),
        #[prost(message, tag = "2")]
        PingReq(PingReq),
        #[prost(message, tag = "3")]
        Ack(Ack),
    }
}
