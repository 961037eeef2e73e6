//! One node of the published code on a bench: its parts wired as `node.rs` wires them, each call run to its end at once.
use std::future::Future;
use std::pin::pin;
use std::sync::Arc;
use std::task::{Context, Poll, Waker};
use std::time::Duration;

use tokio::sync::broadcast::{channel, Receiver};
use tokio::task::Parked;

use super::clock::timed;
use super::convert;
use super::script::Creation;
use super::wire::Wire;
use super::words::{Entry, Member, Packet, Peer, Phase, Record, Sent};
use crate::api::config::SwimConfig;
use crate::core::detection::{FailureDetector, FailureDetectorState};
use crate::core::disseminate::Disseminator;
use crate::core::member::MembershipList;
use crate::core::message::MessageHandler;
use crate::error::Result;
use crate::pb::swim_message::Action;
use crate::pb::Gossip;
use crate::Event;

/// More events than any one call emits, so that none is lost in the channel.
const CHANNEL: usize = 256;

pub struct Bench {
    list: Arc<MembershipList>,
    disseminator: Arc<Disseminator>,
    handler: MessageHandler<Wire>,
    detector: FailureDetector<Wire>,
    wire: Arc<Wire>,
    events: Receiver<Event>,
}

impl Bench {
    pub fn new(creation: &Creation) -> Self {
        let own = convert::text(creation.own.address);
        let settings = &creation.settings;
        let config = Arc::new(config(creation));
        let wire = Arc::new(Wire::default());
        let list = Arc::new(MembershipList::new(&own, creation.own.number));
        // `node.rs` would pass 1536 whatever the settings say.
        let disseminator = Arc::new(Disseminator::new(
            settings.max_selected as usize,
            settings.max_size as usize,
            settings.send_constant as usize,
        ));
        let (tx, events) = channel(CHANNEL);
        let handler = MessageHandler::new(
            &own,
            wire.clone(),
            list.clone(),
            disseminator.clone(),
            tx.clone(),
        );
        let detector = FailureDetector::new(
            &own,
            wire.clone(),
            config,
            list.clone(),
            disseminator.clone(),
            tx,
        );
        Self {
            list,
            disseminator,
            handler,
            detector,
            wire,
            events,
        }
    }

    /// Adds a peer; `false` if it is listed already.
    pub fn add(&self, peer: &Peer) -> bool {
        let address = convert::text(peer.address);
        timed(|| finish(self.list.add_member(address, peer.number)))
    }

    pub fn handle(&self, packet: &Packet) {
        let action = convert::action(packet);
        let handler = &self.handler;
        succeeded(timed(|| match &action {
            Action::Ping(ping) => finish(handler.handle_ping(ping)),
            Action::PingReq(req) => finish(handler.handle_ping_req(req)),
            Action::Ack(ack) => finish(handler.handle_ack(ack)),
        }));
    }

    /// One turn of the detection loop of `node.rs` from the given phase; the phase after it and the timer it started.
    pub fn step(&self, phase: &Phase) -> (Phase, Option<Parked>) {
        self.detector.set_state(convert::detector_state(phase));
        let detector = &self.detector;
        let state = finish(detector.state());
        succeeded(timed(|| match &state {
            FailureDetectorState::SendingPing => finish(detector.send_ping()),
            FailureDetectorState::SendingPingReq {
                target,
                incarnation,
            } => finish(detector.send_ping_req(target, *incarnation)),
            FailureDetectorState::WaitingForAck {
                target,
                ack_type,
                incarnation,
            } => finish(detector.wait_for_ack(target, ack_type, *incarnation)),
            FailureDetectorState::DeclaringNodeAsDead {
                target,
                incarnation,
            } => finish(detector.declare_node_as_dead(target, *incarnation)),
        }));
        let after = convert::phase(&finish(detector.state()));
        (after, tokio::task::take_parked().pop())
    }

    /// Lets a parked declaration run to its end.
    pub fn end(&self, timer: Parked) {
        timed(|| finish(timer));
    }

    /// The messages sent and the events reported since the last call of this function.
    pub fn take_output(&mut self) -> (Vec<Sent>, Vec<Record>) {
        let mut events = Vec::new();
        while let Ok(event) = self.events.try_recv() {
            events.push(convert::record(&event));
        }
        (self.wire.take_sent(), events)
    }

    /// The position and the members in probing order.
    pub fn members(&self) -> (usize, Vec<Member>) {
        let (position, order) = self.list.probing_order();
        let held = |address: &String| {
            let member = self.list.members().get(address);
            convert::member(&member.expect("every address of the order is listed"))
        };
        (position, order.iter().map(held).collect())
    }

    pub fn position_and_length(&self) -> (usize, usize) {
        (self.list.probing_order().0, self.list.len())
    }

    pub fn heap_lengths(&self) -> (usize, usize) {
        self.disseminator.heap_lengths()
    }

    pub fn alive(&self) -> Vec<Entry> {
        entries(self.disseminator.alive_entries())
    }

    pub fn deceased(&self) -> Vec<Entry> {
        entries(self.disseminator.deceased_entries())
    }
}

/// A tick is a millisecond here; no time passes either way.
fn config(creation: &Creation) -> SwimConfig {
    let settings = &creation.settings;
    let ticks = |count: u32| Duration::from_millis(count.into());
    SwimConfig::builder()
        .with_ping_interval(ticks(settings.ping_interval))
        .with_ping_timeout(ticks(settings.ping_timeout))
        .with_ping_req_timeout(ticks(settings.ping_req_timeout))
        .with_suspect_timeout(ticks(settings.suspect_timeout))
        .with_ping_req_group_size(settings.group as usize)
        .with_gossip_send_constant(settings.send_constant as usize)
        .with_gossip_max_messages(settings.max_selected as usize)
        .build()
}

fn entries(held: Vec<(Gossip, usize, usize)>) -> Vec<Entry> {
    let entry = |(gossip, sends, size): (Gossip, usize, usize)| Entry {
        record: convert::record(&gossip.event.expect("a held gossip has an event")),
        sends,
        size,
    };
    held.into_iter().map(entry).collect()
}

/// Polls a future once: no lock is held by another, so it ends.
pub fn finish<F: Future>(future: F) -> F::Output {
    let mut context = Context::from_waker(Waker::noop());
    match pin!(future).poll(&mut context) {
        Poll::Ready(output) => output,
        Poll::Pending => panic!("the published code waits for something the driver does not know"),
    }
}

fn succeeded(result: Result<()>) {
    result.expect("every send succeeds");
}
