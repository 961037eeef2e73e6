//! Proposes the next call, by the mood the run is in. What does not fit is turned down elsewhere.
use super::world::World;
use crate::driver::coverage::{is_listed, member};
use crate::driver::domain::{spares, Outside, MOST_GOSSIP, MOST_HELD, MOST_LISTED, MOST_TIMERS};
use crate::driver::host::State;
use crate::driver::rng::Rng;
use crate::driver::script::Call;
use crate::driver::words::{
    Address, Gossips, Kind, Packet, PacketKind, Peer, Phase, Record, Timer, Wait,
};

/// What a stretch of calls is bent on.
#[derive(Clone, Copy)]
pub enum Mood {
    /// Fill the list.
    Grow,
    /// Fill the alive heap.
    News,
    /// Fill the deceased heap.
    Deaths,
    /// Let the sends of held gossip rise.
    Spread,
    /// Step the detector, with answers.
    Probe,
    /// Step the detector, without answers, so that timers pile up.
    Silence,
    /// End timers.
    Reap,
    /// Raise the number of whoever is awaited, and step on without an answer, so that a ping request lowers it.
    Overtake,
    /// Anything.
    Chat,
}

pub const MOODS: [Mood; 9] = [
    Mood::Grow,
    Mood::News,
    Mood::Deaths,
    Mood::Spread,
    Mood::Probe,
    Mood::Silence,
    Mood::Reap,
    Mood::Chat,
    Mood::Chat,
];

pub struct Proposer<'a> {
    pub world: &'a World,
    pub state: &'a State,
    pub rng: &'a mut Rng,
}

impl Proposer<'_> {
    pub fn call(&mut self, mood: Mood) -> Call {
        match mood {
            Mood::Grow => self.growth(),
            Mood::News if self.state.alive.len() < MOST_HELD => self.news(),
            Mood::Deaths if self.state.deceased.len() < MOST_HELD => self.deaths(),
            // What fills a heap empties it again once it is full.
            Mood::News | Mood::Deaths => self.plain_message(),
            Mood::Spread => self.plain_message(),
            Mood::Probe if self.rng.chance(30) => self.answer_of_target(),
            Mood::Probe => self.step(),
            Mood::Silence if self.state.timers.len() == MOST_TIMERS => self.timer(),
            // A list kept long is one whose order is gone round, and shuffled, at full length.
            Mood::Silence if self.list_can_be_filled() && self.rng.chance(40) => self.addition(),
            Mood::Silence if self.reaps() => self.reaping(),
            Mood::Silence => self.due_step(),
            Mood::Reap if self.state.timers.is_empty() => self.due_step(),
            Mood::Reap => self.reaping(),
            Mood::Overtake => self.overtaking(),
            Mood::Chat => self.anything(),
        }
    }

    /// News of the awaited peer with a number above the remembered one, and a step once it is held.
    fn overtaking(&mut self) -> Call {
        let awaited = self.state.wait.phase.peer();
        let behind = awaited.filter(|peer| self.held_number(peer.address) <= peer.number);
        match behind {
            Some(peer) if is_listed(self.state, peer.address) => {
                let kind = *self.rng.pick(&[Kind::Joined, Kind::Suspected]);
                let number = peer.number.saturating_add(self.rng.between(1, 3));
                let gossip = vec![Some(self.record(kind, peer.address, number))];
                self.any_message(gossip)
            }
            _ => self.due_step(),
        }
    }

    /// A call that always fits.
    pub fn harmless(&mut self) -> Call {
        let from = self.world.own();
        self.message(PacketKind::Ack, from, None, Vec::new())
    }

    /// Another wait record for the host to lend.
    pub fn wait(&mut self) -> Wait {
        let address = self.world.any_address(self.rng);
        let number = self.number_for(address);
        let peer = Peer { address, number };
        let phase = match self.rng.below(5) {
            0 => Phase::SendingPing,
            1 => Phase::WaitingForPingAck(peer),
            2 => Phase::SendingPingReq(peer),
            3 => Phase::WaitingForPingReqAck(peer),
            _ => Phase::Declaring(peer),
        };
        let tick = self.state.wait.tick;
        Wait { phase, tick }
    }

    fn anything(&mut self) -> Call {
        match self.rng.below(10) {
            0 => self.addition(),
            1 => self.step(),
            2 => self.timer(),
            3 => self.plain_message(),
            _ => {
                let count = self.record_count();
                let gossip = (0..count).map(|_| self.any_record()).collect();
                self.any_message(gossip)
            }
        }
    }

    fn growth(&mut self) -> Call {
        match self.rng.below(4) {
            0 => {
                let room = MOST_LISTED - self.state.members.len();
                let room = room.min(self.world.pool.len()) as u64;
                let count = match self.rng.chance(50) {
                    true => room,
                    false => self.rng.below(room + 1),
                };
                let gossip = (0..count).map(|_| Some(self.arrival())).collect();
                self.any_message(gossip)
            }
            1 => self.plain_message(),
            _ => self.addition(),
        }
    }

    fn list_can_be_filled(&self) -> bool {
        self.world.pool.len() > MOST_LISTED && self.state.members.len() < MOST_LISTED
    }

    fn addition(&mut self) -> Call {
        let address = self.world.any_address(self.rng);
        let number = self.number_for(address);
        let peer = Peer { address, number };
        let draws = Vec::new();
        Call::Add { peer, draws }
    }

    /// Acks with as much accepted news as the alive heap has room for.
    fn news(&mut self) -> Call {
        let room = (MOST_HELD - self.state.alive.len()).min(MOST_GOSSIP) as u64;
        let count = match self.rng.chance(70) {
            true => room,
            false => self.rng.between(1, room),
        };
        let gossip = (0..count).map(|rise| Some(self.raise(rise))).collect();
        let from = self.world.any_address(self.rng);
        self.message(PacketKind::Ack, from, None, gossip)
    }

    /// News of a listed peer with a number above the held one, and above those of the same message before it.
    fn raise(&mut self, rise: u64) -> Record {
        let held = *self.rng.pick(&self.state.members);
        let kind = *self
            .rng
            .pick(&[Kind::Joined, Kind::Recovered, Kind::Suspected]);
        Record {
            kind,
            from: self.world.any_address(self.rng),
            subject: held.address,
            number: held.number.saturating_add(rise + 1).min(u64::MAX - 1),
        }
    }

    /// Deaths of listed peers, and of others right after they join.
    fn deaths(&mut self) -> Call {
        let room = (MOST_HELD - self.state.deceased.len()) as u64;
        let count = match self.rng.chance(60) {
            true => 32.min(room),
            false => self.rng.between(1, room.min(32)),
        };
        let mut gossip = Gossips::new();
        for _ in 0..count {
            let subject = self.peer_to_die();
            let alive_room = MOST_HELD > self.state.alive.len() + gossip.len();
            let mut number = self.held_number(subject);
            if !is_listed(self.state, subject) && alive_room {
                number = number.saturating_add(gossip.len() as u64).min(u64::MAX - 2);
                gossip.push(Some(self.record(Kind::Joined, subject, number)));
            }
            number = number.saturating_add(self.rng.below(2)).min(u64::MAX - 1);
            gossip.push(Some(self.record(Kind::Deceased, subject, number)));
        }
        gossip.truncate(MOST_GOSSIP);
        let from = self.world.any_address(self.rng);
        self.message(PacketKind::Ack, from, None, gossip)
    }

    /// Anyone but, mostly, the own address.
    fn peer_to_die(&mut self) -> Address {
        let address = self.world.any_address(self.rng);
        match address == self.world.own() && self.rng.chance(70) {
            true => self.world.any_address(self.rng),
            false => address,
        }
    }

    fn plain_message(&mut self) -> Call {
        self.any_message(Vec::new())
    }

    /// The awaited peer answers.
    fn answer_of_target(&mut self) -> Call {
        let target = self.state.wait.phase.address();
        let from = target.unwrap_or_else(|| self.world.any_address(self.rng));
        let count = self.rng.below(3);
        let gossip = (0..count).map(|_| self.any_record()).collect();
        self.message(PacketKind::Ack, from, None, gossip)
    }

    fn any_message(&mut self, gossip: Gossips) -> Call {
        let kind = *self
            .rng
            .pick(&[PacketKind::Ping, PacketKind::Req, PacketKind::Ack]);
        let from = self.world.any_address(self.rng);
        let other = self.world.any_address(self.rng);
        let other = (kind == PacketKind::Req || self.rng.chance(40)).then_some(other);
        self.message(kind, from, other, gossip)
    }

    fn message(
        &mut self,
        kind: PacketKind,
        from: Address,
        other: Option<Address>,
        gossip: Gossips,
    ) -> Call {
        let packet = Packet {
            kind,
            from,
            other,
            gossip,
        };
        let draws = Vec::new();
        Call::Message { packet, draws }
    }

    /// Mostly few records, at times as many as a message takes.
    fn record_count(&mut self) -> u64 {
        match self.rng.below(20) {
            0 => MOST_GOSSIP as u64,
            1 => self.rng.below(MOST_GOSSIP as u64 + 1),
            _ => self.rng.below(6),
        }
    }

    fn any_record(&mut self) -> Option<Record> {
        if self.rng.chance(5) {
            return None;
        }
        let kinds = [
            Kind::Joined,
            Kind::Recovered,
            Kind::Suspected,
            Kind::Deceased,
        ];
        let kind = *self.rng.pick(&kinds);
        let subject = self.world.any_address(self.rng);
        let number = self.number_for(subject);
        Some(self.record(kind, subject, number))
    }

    fn arrival(&mut self) -> Record {
        let subject = self.world.any_address(self.rng);
        let number = self.rng.below(3);
        self.record(Kind::Joined, subject, number)
    }

    fn record(&mut self, kind: Kind, subject: Address, number: u64) -> Record {
        let from = self.world.any_address(self.rng);
        Record {
            kind,
            from,
            subject,
            number,
        }
    }

    fn held_number(&self, address: Address) -> u64 {
        member(self.state, address).map_or(0, |held| held.number)
    }

    fn number_for(&mut self, address: Address) -> u64 {
        let held = self.held_number(address);
        self.world.number(self.rng, held)
    }

    /// A step that is mostly due just now, at times a tick early, late, or with the clock set back.
    fn step(&mut self) -> Call {
        let start = self.state.wait.tick;
        let now = self.around(start, self.phase_wait());
        let draws = Vec::new();
        Call::Step { now, draws }
    }

    fn due_step(&mut self) -> Call {
        let late = self.rng.below(3) as u32;
        let now = self.state.wait.tick.wrapping_add(self.phase_wait() + late);
        let draws = Vec::new();
        Call::Step { now, draws }
    }

    fn timer(&mut self) -> Call {
        let wait = self.world.creation.settings.suspect_timeout;
        let starts: Vec<u32> = self.state.timers.iter().map(|timer| timer.tick).collect();
        let now = match starts.is_empty() {
            true => self.rng.next() as u32,
            false => {
                let start = *self.rng.pick(&starts);
                self.around(start, wait)
            }
        };
        Call::Timer { now }
    }

    /// Whether a timer is to end between two steps.
    fn reaps(&mut self) -> bool {
        !self.state.timers.is_empty() && self.rng.chance(20)
    }

    /// A timer's end, or a suspicion of a peer whose timer would not remove it, so that it does. An end at the tick at which
    /// a timer started leaves that one running, and ends one that started later.
    fn reaping(&mut self) -> Call {
        let timers: Vec<Timer> = self.state.timers.clone();
        let timer = *self.rng.pick(&timers);
        let held = self.held_number(timer.peer.address);
        let spared = spares(&self.state.members, timer.peer) == Some(Outside::Refuted);
        match self.rng.below(3) {
            0 => Call::Timer { now: timer.tick },
            1 if spared && held <= timer.peer.number => {
                let record = self.record(Kind::Suspected, timer.peer.address, held);
                self.any_message(vec![Some(record)])
            }
            _ => self.timer(),
        }
    }

    fn phase_wait(&self) -> u32 {
        let settings = &self.world.creation.settings;
        match self.state.wait.phase {
            Phase::SendingPing => settings.ping_interval,
            Phase::WaitingForPingAck(_) => settings.ping_timeout,
            Phase::WaitingForPingReqAck(_) => settings.ping_req_timeout,
            Phase::SendingPingReq(_) | Phase::Declaring(_) => 0,
        }
    }

    fn around(&mut self, start: u32, wait: u32) -> u32 {
        let over = start.wrapping_add(wait);
        match self.rng.below(10) {
            0 => over.wrapping_sub(1),
            1 => start.wrapping_sub(self.rng.below(1000) as u32),
            2 => over.wrapping_add(self.rng.below(5000) as u32),
            _ => over,
        }
    }
}
