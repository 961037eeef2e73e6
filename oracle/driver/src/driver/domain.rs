//! The edge of the domain in which the published code is the judge: no refusal is met, the list is never emptied, no
//! number is lowered, no timer ends for an address that is to stay or is gone, no old news is collected, and
//! D is not taken from the row of the departed.
//! Past it the answers are the port's own, so the oracle says only that the edge was passed.
use rand::Lent;

use super::script::{Call, Creation, Rows, Settings};
use super::words::{
    Address, Gossips, Kind, Member, MemberState, Packet, Peer, Record, Wait,
};

pub const MOST_LISTED: usize = 64;
pub const MOST_HELD: usize = 128;
pub const MOST_TIMERS: usize = 16;
pub const MOST_GOSSIP: usize = 64;

/// Why a call is outside the domain.
#[derive(Clone, Copy, Debug, PartialEq, Eq)]
pub enum Outside {
    /// The refusal of this number would be given.
    Refusal(u8),
    /// The list was emptied.
    Emptied,
    /// A listed peer's number was lowered.
    Lowered,
    /// A timer ended for an address that is Alive or has a greater number than the timer.
    Refuted,
    /// A timer ended for an address that is not listed.
    Gone,
    /// The node collects old news.
    Collecting,
    /// The node takes D from the row of the departed.
    Remembering,
}

/// What the published code did in one call.
pub struct Trace<'a> {
    pub heaps_before: (usize, usize),
    pub events: &'a [Record],
    pub lent: &'a Lent,
    pub position_and_length: (usize, usize),
}

fn refuse(number: u8, if_so: bool) -> Result<(), Outside> {
    match if_so {
        true => Err(Outside::Refusal(number)),
        false => Ok(()),
    }
}

fn too_large(address: Address) -> bool {
    !address.in_range()
}

pub fn check_creation(creation: &Creation) -> Result<(), Outside> {
    refuse(5, too_large(creation.own.address))?;
    refuse(1, !in_range(&creation.settings))?;
    match (creation.collect, creation.remember) {
        (true, _) => Err(Outside::Collecting),
        (_, true) => Err(Outside::Remembering),
        _ => Ok(()),
    }
}

fn in_range(settings: &Settings) -> bool {
    let waits = [
        settings.ping_interval,
        settings.ping_timeout,
        settings.ping_req_timeout,
        settings.suspect_timeout,
    ];
    waits.iter().all(|wait| *wait < 1 << 31)
        && settings.group <= 4
        && settings.send_constant <= 8
        && (1..=64).contains(&settings.max_selected)
        && (111..=1169).contains(&settings.max_size)
}

/// Refusals 3, 4 and 5, which depend on the inputs alone.
pub fn check_inputs(call: &Call, rows: Option<Rows>, wait: &Wait) -> Result<(), Outside> {
    if let (Some(lent), Some(needed)) = (rows, rows_needed(call)) {
        let short = lent.gossip < needed.gossip || lent.events < needed.events;
        refuse(3, short)?;
    }
    match call {
        Call::Add { peer, .. } => refuse(5, too_large(peer.address)),
        Call::Message { packet, .. } => check_packet(packet),
        Call::Step { .. } => refuse(5, wait.phase.address().is_some_and(too_large)),
        Call::Timer { .. } => Ok(()),
    }
}

/// Refusals 4 and 5 of a message.
pub fn check_packet(packet: &Packet) -> Result<(), Outside> {
    refuse(4, packet.gossip.len() > MOST_GOSSIP)?;
    let ends = [Some(packet.from), packet.other];
    refuse(5, ends.into_iter().flatten().any(too_large))?;
    refuse(5, gossip_too_large(&packet.gossip))
}

fn gossip_too_large(gossip: &Gossips) -> bool {
    let large = |record: &Record| too_large(record.from) || too_large(record.subject);
    gossip.iter().flatten().any(large)
}

fn rows_needed(call: &Call) -> Option<Rows> {
    let rows = |gossip, events| Some(Rows { gossip, events });
    match call {
        Call::Add { .. } => None,
        Call::Message { .. } => rows(64, 65),
        Call::Step { .. } => rows(256, 1),
        Call::Timer { .. } => rows(0, 1),
    }
}

/// Refusals 7, 8 and 9 and the emptied list, read from what the published code did.
pub fn check_trace(trace: &Trace) -> Result<(), Outside> {
    // An insertion draws a place from the list's length at that time.
    refuse(
        7,
        trace
            .lent
            .lengths
            .iter()
            .any(|length| *length >= MOST_LISTED),
    )?;
    refuse(8, trace.lent.ran_out())?;

    // In every call all pushes come before the first choice of gossip, so nothing left a heap between them.
    let is_death = |event: &&Record| event.kind == Kind::Deceased;
    let deaths = trace.events.iter().filter(is_death).count();
    let others = trace.events.len() - deaths;
    let (alive, deceased) = trace.heaps_before;
    refuse(
        9,
        alive + others > MOST_HELD || deceased + deaths > MOST_HELD,
    )?;

    // An emptied list leaves the position below zero, come round to 2^64 - 1, also if it was filled again.
    let (position, length) = trace.position_and_length;
    match position < length {
        true => Ok(()),
        false => Err(Outside::Emptied),
    }
}

/// Whether a listed peer has a lower number after a step. A ping request writes the number that the wait record
/// remembers, which may be below the held one; no other update of the published code can lower a number.
pub fn lowers(before: &[Member], after: &[Member]) -> bool {
    let falls = |held: &Member| {
        let now = after.iter().find(|member| member.address == held.address);
        now.is_some_and(|member| member.number < held.number)
    };
    before.iter().any(falls)
}

/// Why a timer that ends removes nobody, if so. The published code removes its address and reports the death whatever the
/// list says.
pub fn spares(members: &[Member], peer: Peer) -> Option<Outside> {
    match members.iter().find(|held| held.address == peer.address) {
        None => Some(Outside::Gone),
        Some(held) if held.state == MemberState::Alive => Some(Outside::Refuted),
        Some(held) if held.number > peer.number => Some(Outside::Refuted),
        Some(_) => None,
    }
}
