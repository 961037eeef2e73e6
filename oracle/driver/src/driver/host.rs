//! The host of one node: it decides what is due by the ticks, lends draws and the wait record, and tells when a call
//! leaves the domain. Everything else is decided by the published code on the bench.
use std::fmt;
use std::time::Duration;

use tokio::task::Parked;

use super::bench::Bench;
use super::domain::{self, Outside, Trace};
use super::overflow;
use super::script::{Call, Creation, Rows, Settings};
use super::words::{
    Address, Entry, Kind, Member, MemberState, Peer, Phase, Record, Sent, Timer, Wait,
};

#[derive(Clone, Copy, Debug, PartialEq, Eq)]
pub enum Verdict {
    Ok { used: usize },
    Already,
    NotDue,
}

/// The answer to a call.
#[derive(Clone, Debug, PartialEq, Eq)]
pub struct Answer {
    pub verdict: Verdict,
    pub sent: Vec<Sent>,
    pub events: Vec<Record>,
}

/// What became of a call.
pub enum Outcome {
    Inside(Answer),
    /// Outside the domain; `ran` is what the published code did nevertheless, if it ran to its end.
    Outside {
        why: Outside,
        ran: Option<Answer>,
    },
}

impl Outcome {
    /// What ran inside the domain is outside of it nevertheless, if there is a reason.
    fn past(self, why: Option<Outside>) -> Self {
        match (self, why) {
            (Self::Inside(answer), Some(why)) => {
                let ran = Some(answer);
                Self::Outside { why, ran }
            }
            (outcome, _) => outcome,
        }
    }
}

/// How many peers are in each state, counted from the published code's own list with the own address left out.
#[derive(Clone, Copy, Debug, PartialEq, Eq)]
pub struct Lamps {
    pub alive: usize,
    pub pending: usize,
    pub suspected: usize,
}

impl Lamps {
    fn of(members: &[Member], own: Address) -> Self {
        let lit = |state| {
            let peers = members.iter().filter(|member| member.address != own);
            peers.filter(|peer| peer.state == state).count()
        };
        Self {
            alive: lit(MemberState::Alive),
            pending: lit(MemberState::Pending),
            suspected: lit(MemberState::Suspected),
        }
    }
}

/// A departed address, and the greatest number seen at its removals.
#[derive(Clone, Copy, Debug, PartialEq, Eq)]
pub struct Departed(pub Peer);

impl fmt::Display for Departed {
    fn fmt(&self, f: &mut fmt::Formatter<'_>) -> fmt::Result {
        write!(f, "{}:{}", self.0.address, self.0.number)
    }
}

/// The row of the departed, which the published code has not: worked out from what that code reports. Every removal reports
/// a death, at a number no lower than the held one.
fn remember(row: &mut Vec<Departed>, event: &Record) {
    const PLACES: usize = 128;
    if event.kind != Kind::Deceased {
        return;
    }
    let known = row.iter().position(|gone| gone.0.address == event.subject);
    let seen = known.map_or(0, |place| row.remove(place).0.number);
    if row.len() == PLACES {
        row.remove(0);
    }
    let number = event.number.max(seen);
    let address = event.subject;
    row.push(Departed(Peer { address, number }));
}

/// The whole state after a call.
#[derive(Clone, Debug, PartialEq, Eq)]
pub struct State {
    pub position: usize,
    pub members: Vec<Member>,
    pub lamps: Lamps,
    pub alive: Vec<Entry>,
    pub deceased: Vec<Entry>,
    pub timers: Vec<Timer>,
    pub wait: Wait,
    pub departed: Vec<Departed>,
}

pub struct Host {
    bench: Bench,
    pub settings: Settings,
    pub own: Address,
    wait: Wait,
    rows: Option<Rows>,
    timers: Vec<(Timer, Parked)>,
    departed: Vec<Departed>,
}

impl Host {
    /// A creation; refused ones are outside the domain and give no node.
    pub fn new(creation: &Creation) -> Result<Self, Outside> {
        domain::check_creation(creation)?;
        Ok(Self {
            bench: Bench::new(creation),
            settings: creation.settings,
            own: creation.own.address,
            wait: Wait {
                phase: Phase::SendingPing,
                tick: creation.tick,
            },
            rows: None,
            timers: Vec::new(),
            departed: Vec::new(),
        })
    }

    pub fn lend_wait(&mut self, wait: Wait) {
        self.wait = wait;
    }

    pub fn lend_rows(&mut self, rows: Rows) {
        self.rows = Some(rows);
    }

    pub fn state(&self) -> State {
        let (position, members) = self.bench.members();
        State {
            position,
            lamps: Lamps::of(&members, self.own),
            members,
            alive: self.bench.alive(),
            deceased: self.bench.deceased(),
            timers: self.timers.iter().map(|(timer, _)| *timer).collect(),
            wait: self.wait,
            departed: self.departed.clone(),
        }
    }

    pub fn call(&mut self, call: &Call) -> Outcome {
        if let Err(why) = domain::check_inputs(call, self.rows, &self.wait) {
            return Outcome::Outside { why, ran: None };
        }
        match call {
            Call::Add { peer, draws } => self.run(draws, |host| match host.bench.add(peer) {
                true => Ran::Ok,
                false => Ran::Already,
            }),
            Call::Message { packet, draws } => self.run(draws, |host| {
                host.bench.handle(packet);
                Ran::Ok
            }),
            Call::Step { now, draws } => self.step(*now, draws),
            Call::Timer { now } => self.timer(*now),
        }
    }

    fn step(&mut self, now: u32, draws: &[u64]) -> Outcome {
        let wait = self.phase_wait();
        if !is_over(self.wait.tick, now, wait.unwrap_or(0)) {
            return not_due();
        }
        let declares = matches!(self.wait.phase, Phase::Declaring(_));
        if declares && self.timers.len() >= domain::MOST_TIMERS {
            let why = Outside::Refusal(10);
            return Outcome::Outside { why, ran: None };
        }
        let (_, members) = self.bench.members();
        let outcome = self.run(draws, |host| {
            let before = host.wait.phase;
            let (after, parked) = host.bench.step(&before);
            host.wait = Wait {
                phase: after,
                tick: now,
            };
            if let (Phase::Declaring(peer), Some(parked)) = (before, parked) {
                host.timers.push((Timer { peer, tick: now }, parked));
            }
            expect_slept(wait);
            Ran::Ok
        });
        let lowers = domain::lowers(&members, &self.bench.members().1);
        outcome.past(lowers.then_some(Outside::Lowered))
    }

    fn timer(&mut self, now: u32) -> Outcome {
        let wait = self.settings.suspect_timeout;
        let over = |(timer, _): &(Timer, Parked)| is_over(timer.tick, now, wait);
        let Some(place) = self.timers.iter().position(over) else {
            return not_due();
        };
        let (timer, parked) = self.timers.remove(place);
        let (_, members) = self.bench.members();
        let outcome = self.run(&[], |host| {
            host.bench.end(parked);
            expect_slept(Some(wait));
            Ran::Ok
        });
        outcome.past(domain::spares(&members, timer.peer))
    }

    /// The wait before the detector's next step; none before a step taken at once.
    fn phase_wait(&self) -> Option<u32> {
        match self.wait.phase {
            Phase::SendingPing => Some(self.settings.ping_interval),
            Phase::WaitingForPingAck(_) => Some(self.settings.ping_timeout),
            Phase::WaitingForPingReqAck(_) => Some(self.settings.ping_req_timeout),
            Phase::SendingPingReq(_) | Phase::Declaring(_) => None,
        }
    }

    /// Runs published code with the draws lent, and judges from what it did whether the call was inside the domain.
    fn run(&mut self, draws: &[u64], body: impl FnOnce(&mut Self) -> Ran) -> Outcome {
        let heaps_before = self.bench.heap_lengths();
        rand::lend(draws);
        let ran = overflow::caught(|| body(self));
        let lent = rand::give_back();
        let (sent, events) = self.bench.take_output();
        for event in &events {
            remember(&mut self.departed, event);
        }
        let Some(ran) = ran else {
            let why = Outside::Refusal(6);
            return Outcome::Outside { why, ran: None };
        };
        let trace = Trace {
            heaps_before,
            events: &events,
            lent: &lent,
            position_and_length: self.bench.position_and_length(),
        };
        let judged = domain::check_trace(&trace);
        let verdict = match ran {
            Ran::Ok => Verdict::Ok { used: lent.asked },
            Ran::Already => Verdict::Already,
        };
        let answer = Answer {
            verdict,
            sent,
            events,
        };
        match judged {
            Ok(()) => Outcome::Inside(answer),
            Err(why) => Outcome::Outside {
                why,
                ran: Some(answer),
            },
        }
    }
}

/// How published code that ran to its end answered.
enum Ran {
    Ok,
    Already,
}

/// A wait is over when now less start, modulo 2^32, is at least the wait.
pub fn is_over(start: u32, now: u32, wait: u32) -> bool {
    now.wrapping_sub(start) >= wait
}

fn not_due() -> Outcome {
    Outcome::Inside(Answer {
        verdict: Verdict::NotDue,
        sent: Vec::new(),
        events: Vec::new(),
    })
}

/// The published code must have slept exactly as long as the host let pass before the call.
fn expect_slept(wait: Option<u32>) {
    let expected: Vec<Duration> = wait
        .map(|ticks| Duration::from_millis(ticks.into()))
        .into_iter()
        .collect();
    assert_eq!(
        tokio::time::take_slept(),
        expected,
        "the waits of the published code"
    );
}
