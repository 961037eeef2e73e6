//! `schema`: the types in `pb` against `swim.proto`: every message, field, case, number and type, both ways.
use std::collections::BTreeMap;

use prost::Message;

use crate::pb::gossip::{Event, NodeDeceased, NodeJoined, NodeRecovered, NodeSuspected};
use crate::pb::swim_message::{Ack, Action, Ping, PingReq};
use crate::pb::{Gossip, Member, NodeState, SwimMessage};

const SCHEMA: &str = include_str!("../../../swim.proto");

/// What a field that holds one sample value looks like on the wire, by `Message.field`.
type Encodings = BTreeMap<String, Vec<u8>>;

const SAMPLE_TEXT: &str = "x";
const SAMPLE_NUMBER: u64 = 300;
const SAMPLE_STATE: NodeState = NodeState::Suspected;

pub fn check() -> bool {
    let schema = match read(SCHEMA) {
        Ok(schema) => schema,
        Err(line) => {
            println!("schema: swim.proto: a line not understood: {line}");
            return false;
        }
    };
    let types = encoded_by_types();
    let mut differences = 0;
    for name in schema
        .keys()
        .chain(types.keys().filter(|name| !schema.contains_key(*name)))
    {
        let (said, done) = (schema.get(name), types.get(name));
        if said != done {
            differences += 1;
            println!("{name}: swim.proto says {said:?}, the types encode {done:?}");
        }
    }
    println!("schema: {} fields and enumeration values of swim.proto compared with the types' encodings, {differences} differences", schema.len());
    differences == 0
}

/// Encodes, for each field of a message type, a value with that field alone set. The pattern names every field,
/// so a field that is missing here does not compile.
macro_rules! fields {
    ($found:ident, $type:ident { $($field:ident: $sample:expr),* $(,)? }) => {
        let $type { $($field: _),* } = $type::default();
        $(
            let value = $type { $field: $sample, ..Default::default() };
            $found.insert(format!("{}.{}", stringify!($type), stringify!($field)), value.encode_to_vec());
        )*
    };
}

/// Encodes each case of a oneof with its message empty. The match names every case.
macro_rules! cases {
    ($found:ident, $type:ident.$field:ident, $oneof:ident { $($case:ident as $name:literal),* $(,)? }) => {
        for case in [$($oneof::$case(Default::default())),*] {
            let name = match &case { $($oneof::$case(_) => $name),* };
            let value = $type { $field: Some(case) };
            $found.insert(format!("{}.{name}", stringify!($type)), value.encode_to_vec());
        }
    };
}

fn encoded_by_types() -> Encodings {
    let mut found = Encodings::new();
    let text = || SAMPLE_TEXT.to_string();
    let number = SAMPLE_NUMBER;
    let gossip = || vec![Gossip::default()];
    fields!(
        found,
        NodeJoined {
            from: text(),
            new_member: text(),
            joined_incarnation_no: number
        }
    );
    fields!(
        found,
        NodeRecovered {
            from: text(),
            recovered: text(),
            recovered_incarnation_no: number
        }
    );
    fields!(
        found,
        NodeSuspected {
            from: text(),
            suspect: text(),
            suspect_incarnation_no: number
        }
    );
    fields!(
        found,
        NodeDeceased {
            from: text(),
            deceased: text(),
            deceased_incarnation_no: number
        }
    );
    fields!(
        found,
        Ping {
            from: text(),
            requested_by: text(),
            gossip: gossip()
        }
    );
    fields!(
        found,
        PingReq {
            from: text(),
            suspect: text(),
            gossip: gossip()
        }
    );
    fields!(
        found,
        Ack {
            from: text(),
            forward_to: text(),
            gossip: gossip()
        }
    );
    fields!(
        found,
        Member {
            addr: text(),
            state: SAMPLE_STATE as i32,
            incarnation: number
        }
    );
    cases!(found, Gossip.event, Event {
        NodeJoined as "node_joined",
        NodeRecovered as "node_recovered",
        NodeSuspected as "node_suspected",
        NodeDeceased as "node_deceased",
    });
    cases!(found, SwimMessage.action, Action {
        Ping as "ping",
        PingReq as "ping_req",
        Ack as "ack",
    });
    for state in [NodeState::Alive, NodeState::Pending, NodeState::Suspected] {
        found.insert(format!("NodeState.{state:?}"), vec![state as u8]);
    }
    found
}

/// Reads the schema and works out, from each field's number and type, how its sample must be encoded.
fn read(schema: &str) -> Result<Encodings, String> {
    let mut found = Encodings::new();
    let mut open: Vec<&str> = Vec::new();
    for line in schema.lines() {
        let line = line.split("//").next().unwrap_or("").trim();
        let words: Vec<&str> = line.trim_end_matches(';').split_whitespace().collect();
        match words.as_slice() {
            [] | ["syntax", ..] | ["package", _] => {}
            // The cases of a oneof belong to the message around it.
            ["oneof", _, "{"] => open.push(open.last().copied().ok_or(line)?),
            ["message" | "enum", name, "{"] => open.push(name),
            ["}"] => {
                open.pop().ok_or(line)?;
            }
            [name, "=", number] => {
                let number: u8 = number.parse().map_err(|_| line)?;
                found.insert(qualified(&open, name, line)?, vec![number]);
            }
            ["repeated", kind, name, "=", number] | [kind, name, "=", number] => {
                let number: u8 = number.parse().map_err(|_| line)?;
                if !(1..=15).contains(&number) {
                    return Err(format!("{line}: a field number is from 1 to 15"));
                }
                found.insert(qualified(&open, name, line)?, sample_encoding(kind, number));
            }
            _ => return Err(line.to_string()),
        }
    }
    Ok(found)
}

fn qualified(open: &[&str], name: &str, line: &str) -> Result<String, String> {
    let message = open.last().ok_or_else(|| line.to_string())?;
    Ok(format!("{message}.{name}"))
}

/// The protobuf encoding of the sample of a type: 0 is the wire type of numbers, 2 that of text and messages.
fn sample_encoding(kind: &str, number: u8) -> Vec<u8> {
    match kind {
        "string" => vec![number << 3 | 2, 1, b'x'],
        "uint64" => vec![number << 3, 0xac, 0x02],
        "NodeState" => vec![number << 3, SAMPLE_STATE as u8],
        _empty_message => vec![number << 3 | 2, 0],
    }
}
