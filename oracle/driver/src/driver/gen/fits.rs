//! Whether a call surely stays inside the domain, or leaves it by a lowered number or a timer that removes nobody where that
//! is asked for. It errs on the safe side: a call it turns down might have stayed inside.
use crate::driver::coverage::{is_listed, member};
use crate::driver::domain::{spares, MOST_HELD, MOST_LISTED, MOST_TIMERS};
use crate::driver::host::{is_over, State};
use crate::driver::script::{Call, Settings};
use crate::driver::words::{Address, Kind, Packet, PacketKind, Peer, Phase, Record, Timer};

pub fn fits(
    call: &Call,
    state: &State,
    settings: &Settings,
    own: Address,
    may_leave: bool,
) -> bool {
    match call {
        Call::Add { peer, .. } => {
            is_listed(state, peer.address) || state.members.len() < MOST_LISTED
        }
        Call::Message { packet, .. } => message_fits(packet, state, own),
        Call::Step { .. } => match state.wait.phase {
            Phase::SendingPingReq(peer) => {
                state.alive.len() < MOST_HELD && (may_leave || !lowers(state, peer))
            }
            Phase::Declaring(_) => state.timers.len() < MOST_TIMERS,
            _ => true,
        },
        Call::Timer { now } => {
            let over = |timer: &&Timer| is_over(timer.tick, *now, settings.suspect_timeout);
            let ends = state.timers.iter().find(over);
            ends.map_or(true, |timer| timer_fits(timer.peer, state, may_leave))
        }
    }
}

/// A timer may not end for the last member, and it must remove.
fn timer_fits(peer: Peer, state: &State, may_leave: bool) -> bool {
    let empties = state.members.len() == 1 && is_listed(state, peer.address);
    let removes = spares(&state.members, peer).is_none();
    state.deceased.len() < MOST_HELD && !empties && (may_leave || removes)
}

/// Whether a ping request writes a number below the held one.
fn lowers(state: &State, peer: Peer) -> bool {
    member(state, peer.address).is_some_and(|held| peer.number < held.number)
}

fn message_fits(packet: &Packet, state: &State, own: Address) -> bool {
    let records: Vec<&Record> = packet.gossip.iter().flatten().collect();
    let of = |kind| records.iter().filter(move |record| record.kind == kind);
    let dies = |address| of(Kind::Deceased).any(|record| record.subject == address);
    let may_enter = |address| !is_listed(state, address) || dies(address);
    let sender_enters = packet.kind == PacketKind::Ping && may_enter(packet.from);

    let deaths = of(Kind::Deceased).count();
    let pushes = records.len() - deaths + usize::from(sender_enters);
    let heaps_hold =
        state.alive.len() + pushes <= MOST_HELD && state.deceased.len() + deaths <= MOST_HELD;

    let entries = of(Kind::Joined)
        .filter(|record| may_enter(record.subject))
        .count();
    let list_holds = state.members.len() + entries + usize::from(sender_enters) <= MOST_LISTED;

    let stays = |address| !dies(address);
    let someone_stays = state.members.iter().any(|member| stays(member.address));

    let last_number = |address| {
        let held = state.deceased.iter().map(|entry| &entry.record);
        let mut deaths = held.chain(of(Kind::Deceased).copied());
        deaths.any(|record| record.subject == address && record.number == u64::MAX)
    };
    let needs_too_much = of(Kind::Joined).any(|record| last_number(record.subject))
        || of(Kind::Suspected).any(|record| record.subject == own && record.number == u64::MAX)
        || (sender_enters && last_number(packet.from));

    heaps_hold && list_holds && someone_stays && !needs_too_much
}
