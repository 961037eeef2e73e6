//! Counts what a script reaches, so that a generator that has gone tame is noticed.
use std::collections::BTreeMap;
use std::io::{self, Write};

use super::domain::Outside;
use super::host::{Answer, State, Verdict};
use super::script::{Call, Settings};
use super::words::{Address, Kind, Member, MemberState, Packet, PacketKind, Phase, Record};

/// One call as the coverage sees it.
pub struct Seen<'a> {
    pub settings: &'a Settings,
    pub own: Address,
    pub call: &'a Call,
    pub before: &'a State,
    pub answer: &'a Answer,
    pub after: &'a State,
}

#[derive(Default)]
pub struct Coverage {
    counts: BTreeMap<&'static str, u64>,
    most: BTreeMap<&'static str, u64>,
}

/// What a script must reach to count as covering the rules: the name of a maximum and the least it must be.
const LEAST: [(&str, u64); 5] = [
    ("listed", 64),
    ("alive heap", 120),
    ("deceased heap", 120),
    ("timers", 16),
    ("sends held", 22),
];

impl Coverage {
    /// Whether everything counted came up, and every maximum is high enough.
    pub fn is_full(&self) -> bool {
        let high =
            |(name, least): &(&str, u64)| self.most.get(name).is_some_and(|most| most >= least);
        self.counts.values().all(|count| *count > 0) && LEAST.iter().all(high)
    }

    pub fn write(&self, out: &mut impl Write) -> io::Result<()> {
        for (name, count) in &self.counts {
            let mark = if *count == 0 { "  <- never" } else { "" };
            writeln!(out, "{count:>9}  {name}{mark}")?;
        }
        for (name, most) in &self.most {
            writeln!(out, "{most:>9}  most {name}")?;
        }
        Ok(())
    }

    /// A call that is outside the domain.
    pub fn outside(&mut self) {
        self.count("outside: call", true);
    }

    /// A call that is the first of its node outside the domain, and why.
    pub fn left(&mut self, why: Outside) {
        self.count(
            "outside: node whose ping request lowered a number",
            why == Outside::Lowered,
        );
        self.count(
            "outside: node whose timer was refuted",
            why == Outside::Refuted,
        );
        self.count(
            "outside: node whose timer found its peer gone",
            why == Outside::Gone,
        );
    }

    pub fn line_wait(&mut self) {
        self.count("line wait", true);
    }

    pub fn observe(&mut self, seen: &Seen) {
        self.observe_settings(seen.settings);
        self.observe_answer(seen);
        match seen.call {
            Call::Message { packet, .. } => self.observe_message(packet, seen),
            Call::Step { now, .. } => self.observe_step(*now, seen),
            Call::Timer { .. } => self.observe_timer(seen),
            Call::Add { .. } => self.count("call add", true),
        }
        self.observe_state(seen);
    }

    /// Counts a case; one that did not come up is still named.
    fn count(&mut self, name: &'static str, came_up: bool) {
        *self.counts.entry(name).or_default() += u64::from(came_up);
    }

    fn most(&mut self, name: &'static str, value: usize) {
        let held = self.most.entry(name).or_default();
        *held = (*held).max(value as u64);
    }

    fn observe_settings(&mut self, settings: &Settings) {
        self.count("setting group 0", settings.group == 0);
        self.count("setting group 4", settings.group == 4);
        self.count("setting send constant 0", settings.send_constant == 0);
        self.count("setting send constant 8", settings.send_constant == 8);
        self.count("setting max_selected 1", settings.max_selected == 1);
        self.count("setting max_selected 64", settings.max_selected == 64);
        self.count("setting max_size 111", settings.max_size == 111);
        self.count("setting max_size 1169", settings.max_size == 1169);
    }

    fn observe_answer(&mut self, seen: &Seen) {
        let answer = seen.answer;
        let draws = match seen.call {
            Call::Add { draws, .. } | Call::Message { draws, .. } | Call::Step { draws, .. } => {
                draws.len()
            }
            Call::Timer { .. } => 0,
        };
        let used = match answer.verdict {
            Verdict::Ok { used } => used,
            Verdict::Already | Verdict::NotDue => 0,
        };
        self.count("answer already", answer.verdict == Verdict::Already);
        self.count("draws used exactly", used > 0 && used == draws);
        self.count("draws left over", used < draws);
        for event in &answer.events {
            self.count("event Joined", event.kind == Kind::Joined);
            self.count("event Recovered", event.kind == Kind::Recovered);
            self.count("event Suspected", event.kind == Kind::Suspected);
            self.count("event Deceased", event.kind == Kind::Deceased);
            self.count(
                "event number of 2^64 - 2 or more",
                event.number >= u64::MAX - 1,
            );
        }
        for sent in &answer.sent {
            self.most("records sent in a message", sent.packet.gossip.len());
        }
        self.most("draws used", used);
        self.most("messages sent in a call", answer.sent.len());
    }

    fn observe_message(&mut self, packet: &Packet, seen: &Seen) {
        let is = |kind, other| packet.kind == kind && packet.other.is_some() == other;
        self.count("call ping", is(PacketKind::Ping, false));
        self.count("call ping requested by another", is(PacketKind::Ping, true));
        self.count("call req", packet.kind == PacketKind::Req);
        self.count("call ack", is(PacketKind::Ack, false));
        self.count("call ack to forward", is(PacketKind::Ack, true));
        self.count("message of 64 records", packet.gossip.len() == 64);
        self.count("record of no event", packet.gossip.contains(&None));
        self.most("records in a message", packet.gossip.len());
        for record in packet.gossip.iter().flatten() {
            self.observe_record(record, seen);
        }
        let admitted = packet.kind == PacketKind::Ping && !is_listed(seen.before, packet.from);
        self.count("sender admitted", admitted);
        let raised = first_death(seen.before, packet.from).filter(|_| admitted);
        let by_death = raised.is_some_and(|number| reported(seen, packet.from, number + 1));
        self.count("sender admitted over a held death", by_death);
    }

    fn observe_record(&mut self, record: &Record, seen: &Seen) {
        let own = record.subject == seen.own;
        let held = member(seen.before, record.subject);
        let pending = held.is_some_and(|member| member.state == MemberState::Pending);
        self.count("record Joined", record.kind == Kind::Joined);
        self.count("record Recovered", record.kind == Kind::Recovered);
        self.count("record Suspected", record.kind == Kind::Suspected);
        self.count("record Deceased", record.kind == Kind::Deceased);
        self.count(
            "record Suspected of own address",
            own && record.kind == Kind::Suspected,
        );
        self.count(
            "record Suspected of a Pending peer",
            pending && record.kind == Kind::Suspected,
        );
        if record.kind == Kind::Joined {
            let death = first_death(seen.before, record.subject);
            let raised = death.filter(|number| *number >= record.number);
            let by_death = raised.is_some_and(|number| reported(seen, record.subject, number + 1));
            self.count("record Joined raised by a held death", by_death);
        }
    }

    fn observe_step(&mut self, now: u32, seen: &Seen) {
        let (before, after) = (seen.before.wait, seen.after.wait);
        if seen.answer.verdict == Verdict::NotDue {
            self.count("step not due", true);
            return;
        }
        let to_ping = after.phase == Phase::SendingPing;
        match before.phase {
            Phase::SendingPing => {
                self.count("step SendingPing, no target", to_ping);
                self.count("step SendingPing, a target", !to_ping);
                let chosen = seen.after.alive != seen.before.alive;
                self.count("step SendingPing, gossip spent unsent", to_ping && chosen);
            }
            Phase::WaitingForPingAck(_) => {
                self.count("step WaitingForPingAck to SendingPing", to_ping);
                self.count("step WaitingForPingAck to SendingPingReq", !to_ping);
            }
            Phase::SendingPingReq(peer) => {
                let listed = is_listed(seen.before, peer.address);
                self.count("step SendingPingReq", listed);
                self.count("step SendingPingReq, suspect not listed", !listed);
                self.count(
                    "step SendingPingReq, one peer twice",
                    one_target_twice(seen.answer),
                );
            }
            Phase::WaitingForPingReqAck(_) => {
                self.count("step WaitingForPingReqAck to SendingPing", to_ping);
                self.count("step WaitingForPingReqAck to Declaring", !to_ping);
            }
            Phase::Declaring(_) => self.count("step Declaring", true),
        }
        self.count(
            "step after the ticks came round",
            now < before.tick && before.tick - now > 1 << 31,
        );
        self.count(
            "step with the clock set back",
            now < before.tick && before.tick - now <= 1 << 31,
        );
        let moved = seen.before.position > seen.after.position;
        self.count(
            "step that shuffles",
            moved && seen.after.members != seen.before.members,
        );
    }

    fn observe_timer(&mut self, seen: &Seen) {
        let not_due = seen.answer.verdict == Verdict::NotDue;
        self.count("timer not due", not_due);
        self.count("timer ended", !not_due);
        for event in &seen.answer.events {
            let held = member(seen.before, event.subject);
            let pending = held.is_some_and(|member| member.state == MemberState::Pending);
            let lower = held.is_some_and(|member| member.number < event.number);
            self.count("timer ended, peer Pending", pending);
            self.count("timer ended, peer Suspected", !pending);
            self.count("timer ended, peer at a lower number", lower);
        }
        let first_gone = seen.before.timers.first() != seen.after.timers.first();
        self.count(
            "timer ended, not the first of the row",
            !not_due && !first_gone,
        );
    }

    fn observe_state(&mut self, seen: &Seen) {
        let (before, after) = (seen.before, seen.after);
        let own_gone = is_listed(before, seen.own) && !is_listed(after, seen.own);
        self.count("own address removed", own_gone);
        self.count("two deaths of one peer held", one_death_twice(after));
        self.most("listed", after.members.len());
        self.most("alive heap", after.alive.len());
        self.most("deceased heap", after.deceased.len());
        self.most("timers", after.timers.len());
        let held = after.alive.iter().chain(&after.deceased);
        let sends = held.map(|entry| entry.sends).max().unwrap_or(0);
        self.most("sends held", sends);
    }
}

pub fn member(state: &State, address: Address) -> Option<&Member> {
    state
        .members
        .iter()
        .find(|member| member.address == address)
}

pub fn is_listed(state: &State, address: Address) -> bool {
    member(state, address).is_some()
}

/// The number of the first death of the address in the deceased heap's array order, if a number follows it.
fn first_death(state: &State, address: Address) -> Option<u64> {
    let mut deaths = state.deceased.iter().map(|entry| entry.record);
    let first = deaths.find(|record| record.subject == address)?;
    (first.number < u64::MAX).then_some(first.number)
}

fn reported(seen: &Seen, subject: Address, number: u64) -> bool {
    let is_it = |event: &Record| {
        event.kind == Kind::Joined && event.subject == subject && event.number == number
    };
    seen.answer.events.iter().any(is_it)
}

fn one_target_twice(answer: &Answer) -> bool {
    let mut targets: Vec<Address> = answer.sent.iter().map(|sent| sent.target).collect();
    targets.sort_unstable();
    targets.windows(2).any(|pair| pair[0] == pair[1])
}

fn one_death_twice(state: &State) -> bool {
    let mut dead: Vec<Address> = state
        .deceased
        .iter()
        .map(|entry| entry.record.subject)
        .collect();
    dead.sort_unstable();
    dead.windows(2).any(|pair| pair[0] == pair[1])
}
