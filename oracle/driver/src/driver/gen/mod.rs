//! The verb `gen`: random scripts that stay inside the domain, but for some nodes' last calls, which leave it where the
//! published code lowers a number or ends a timer that removes nobody. The published code runs alongside, so that each call can be fitted to the state it
//! meets; the same seed gives the same script.
mod fits;
mod propose;
mod world;

use std::io::{self, Write};

use super::coverage::{Coverage, Seen};
use super::domain::Outside;
use super::host::{Answer, Host, Outcome, State, Verdict};
use super::rng::Rng;
use super::script::{Call, Line, Rows};
use propose::{Mood, Proposer, MOODS};
use world::World;

/// More draws than any one call uses.
const PLENTY: usize = 256;

/// How often proposals in one mood may be turned down.
const TRIES: usize = 10;

/// One call in so many, the last ones of a node, may leave the domain.
const LATE: u64 = 12;

/// Writes a script of `nodes` nodes and `calls` calls in all, and returns what it reaches.
pub fn generate(out: &mut impl Write, seed: u64, nodes: u64, calls: u64) -> io::Result<Coverage> {
    let mut coverage = Coverage::default();
    let mut rng = Rng::new(seed);
    writeln!(out, "# oracle gen {seed} {nodes} {calls}")?;
    for node in 0..nodes {
        let share = calls / nodes + u64::from(node < calls % nodes);
        let node_seed = rng.next();
        NodeRun::new(node_seed).write(out, share, &mut coverage)?;
    }
    Ok(coverage)
}

/// One node while its part of the script is made.
struct NodeRun {
    rng: Rng,
    world: World,
    host: Host,
    state: State,
    /// The domain may be left from now on.
    is_late: bool,
    /// It was left: this call and those after it are outside.
    is_outside: bool,
}

impl NodeRun {
    fn new(seed: u64) -> Self {
        let mut rng = Rng::new(seed);
        let world = World::new(&mut rng);
        let host = Host::new(&world.creation).expect("generated settings are in range");
        let state = host.state();
        Self {
            rng,
            world,
            host,
            state,
            is_late: false,
            is_outside: false,
        }
    }

    fn write(
        &mut self,
        out: &mut impl Write,
        calls: u64,
        coverage: &mut Coverage,
    ) -> io::Result<()> {
        writeln!(out, "{}", Line::New(self.world.creation))?;
        let mut mood = Mood::Grow;
        let mut stretch = self.rng.between(0, 12);
        for left in (0..calls).rev() {
            if !self.is_late && left <= calls / LATE {
                self.is_late = true;
                if self.rng.chance(75) {
                    mood = Mood::Overtake;
                    stretch = left + 1;
                }
            }
            if stretch == 0 {
                mood = *self.rng.pick(&MOODS);
                stretch = self.stretch(mood);
            }
            stretch -= 1;
            self.lend(out, coverage)?;
            let call = self.next_call(mood, coverage);
            writeln!(out, "{}", Line::Call(call))?;
        }
        Ok(())
    }

    /// Heaps fill in a few calls; sends and timers rise slowly.
    fn stretch(&mut self, mood: Mood) -> u64 {
        match mood {
            Mood::News | Mood::Reap | Mood::Overtake => self.rng.between(2, 6),
            Mood::Deaths => self.rng.between(2, 10),
            Mood::Grow | Mood::Probe | Mood::Chat => self.rng.between(3, 25),
            Mood::Spread => self.rng.between(5, 40),
            Mood::Silence => self.rng.between(10, 90),
        }
    }

    /// At times the host lends another wait record, or larger rows than a call needs.
    fn lend(&mut self, out: &mut impl Write, coverage: &mut Coverage) -> io::Result<()> {
        if self.rng.chance(2) {
            let wait = self.proposer().wait();
            self.host.lend_wait(wait);
            self.state.wait = wait;
            coverage.line_wait();
            writeln!(out, "{}", Line::Wait(wait))?;
        }
        if self.rng.below(500) == 0 {
            let rows = Rows {
                gossip: self.rng.between(256, 1024) as usize,
                events: self.rng.between(65, 1024) as usize,
            };
            self.host.lend_rows(rows);
            writeln!(out, "{}", Line::Rows(rows))?;
        }
        Ok(())
    }

    fn proposer(&mut self) -> Proposer<'_> {
        Proposer {
            world: &self.world,
            state: &self.state,
            rng: &mut self.rng,
        }
    }

    /// Finds a call that fits, runs it, and returns it with the draws it is to be written with.
    fn next_call(&mut self, mood: Mood, coverage: &mut Coverage) -> Call {
        let mut call = self.fitting_call(mood);
        let draws = self.draws();
        set_draws(&mut call, &draws);
        let answer = match self.host.call(&call) {
            Outcome::Inside(answer) => answer,
            Outcome::Outside {
                why: why @ (Outside::Lowered | Outside::Refuted | Outside::Gone),
                ran: Some(answer),
            } => {
                if !self.is_outside {
                    coverage.left(why);
                }
                self.is_outside = true;
                answer
            }
            Outcome::Outside { why, .. } => {
                panic!("a generated call is outside the domain: {why:?} {call:?}")
            }
        };
        let kept = self.draws_to_keep(&answer);
        set_draws(&mut call, &draws[..kept]);

        let before = std::mem::replace(&mut self.state, self.host.state());
        match self.is_outside {
            true => coverage.outside(),
            false => coverage.observe(&Seen {
                settings: &self.world.creation.settings,
                own: self.world.own(),
                call: &call,
                before: &before,
                answer: &answer,
                after: &self.state,
            }),
        }
        call
    }

    /// A call in the mood, or any that fits.
    fn fitting_call(&mut self, mood: Mood) -> Call {
        for mood in [mood, Mood::Chat] {
            for _ in 0..TRIES {
                let call = self.proposer().call(mood);
                if self.fits(&call) {
                    return call;
                }
            }
        }
        self.proposer().harmless()
    }

    fn fits(&self, call: &Call) -> bool {
        let settings = &self.world.creation.settings;
        fits::fits(call, &self.state, settings, self.world.own(), self.is_late)
    }

    fn draws(&mut self) -> Vec<u64> {
        let limit = *self.rng.pick(&[1, 3, 70, u64::MAX]);
        (0..PLENTY).map(|_| self.rng.below(limit)).collect()
    }

    /// Exactly those used, or some more.
    fn draws_to_keep(&mut self, answer: &Answer) -> usize {
        let used = match answer.verdict {
            Verdict::Ok { used } => used,
            Verdict::Already | Verdict::NotDue => 0,
        };
        match self.rng.chance(75) {
            true => used,
            false => (used + self.rng.between(1, 3) as usize).min(PLENTY),
        }
    }
}

fn set_draws(call: &mut Call, given: &[u64]) {
    match call {
        Call::Add { draws, .. } | Call::Message { draws, .. } | Call::Step { draws, .. } => {
            *draws = given.to_vec();
        }
        Call::Timer { .. } => {}
    }
}
