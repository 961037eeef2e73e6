//! The published swim-rs as a node over UDP, until it is killed: real sockets, a real clock and real draws.
//! `api`, `core` and `error` are the published text, unpatched; `pb` is what it lacks.
//! usage: oracle --bind ADDR:PORT [--join ADDR:PORT]... [--tick MS] [--interval T] [--ping-timeout T] [--request-timeout T] [--suspect-timeout T]
//! As of host/udp.c: waits are in ticks, and each event is a line of JSON; so is the list, whenever others are on it than before.

// The published core is built whole, and not all of it is called.
#[allow(dead_code)]
mod api;
#[allow(dead_code)]
mod core;
#[allow(dead_code)]
mod error;
mod pb;

// The names the published code expects at the root of its crate.
pub use pb::gossip::{Event, NodeDeceased, NodeJoined, NodeRecovered, NodeSuspected};
pub use pb::NodeState;

use api::config::{SwimConfig, SwimConfigBuilder};
use std::time::{Duration, Instant};
use tokio::net::UdpSocket;
use tokio::sync::broadcast::{channel, error::RecvError};
use tokio::time::timeout;

struct Options {
    bind: String,
    joins: Vec<String>,
    tick: u32,
    /// Interval, ping timeout, request timeout and suspect timeout, in ticks.
    waits: [u32; 4],
}

const WAITS: [&str; 4] = [
    "--interval",
    "--ping-timeout",
    "--request-timeout",
    "--suspect-timeout",
];

fn options() -> Result<Options, String> {
    let mut options = Options {
        bind: String::new(),
        joins: vec![],
        tick: 10,
        waits: [50, 10, 20, 100],
    };
    let mut words = std::env::args().skip(1);
    while let Some(name) = words.next() {
        let text = words.next().ok_or(format!("{name} needs a value"))?;
        let number = text.parse::<u32>();
        let wait = WAITS.iter().position(|wait| *wait == name);
        match (name.as_str(), wait, number) {
            ("--bind", _, _) => options.bind = text,
            ("--join", _, _) => options.joins.push(text),
            ("--tick", _, Ok(number)) => options.tick = number,
            (_, Some(place), Ok(number)) => options.waits[place] = number,
            _ => return Err(format!("{name} {text}: no such option, or not of its form")),
        }
    }
    Ok(options)
}

fn config(options: &Options) -> SwimConfig {
    let wait = |place: usize| Duration::from_millis(1) * options.tick * options.waits[place];
    SwimConfigBuilder::new()
        .with_known_peers(&options.joins)
        .with_ping_interval(wait(0))
        .with_ping_timeout(wait(1))
        .with_ping_req_timeout(wait(2))
        .with_suspect_timeout(wait(3))
        .build()
}

fn tell(event: &Event, tick: u128) {
    let (kind, from, subject, number) = match event {
        Event::NodeJoined(e) => ("joined", &e.from, &e.new_member, e.joined_incarnation_no),
        Event::NodeRecovered(e) => (
            "recovered",
            &e.from,
            &e.recovered,
            e.recovered_incarnation_no,
        ),
        Event::NodeSuspected(e) => ("suspected", &e.from, &e.suspect, e.suspect_incarnation_no),
        Event::NodeDeceased(e) => ("deceased", &e.from, &e.deceased, e.deceased_incarnation_no),
    };
    println!("{{\"kind\":\"{kind}\",\"from\":\"{from}\",\"subject\":\"{subject}\",\"number\":{number},\"tick\":{tick}}}");
}

fn tell_list(list: &[String], tick: u128) {
    println!(
        "{{\"kind\":\"list\",\"members\":[\"{}\"],\"tick\":{tick}}}",
        list.join("\",\"")
    );
}

async fn run(options: Options) -> Result<(), String> {
    let socket = UdpSocket::bind(&options.bind)
        .await
        .map_err(|e| format!("{}: {e}", options.bind))?;
    let (sender, mut events) = channel(1024);
    let start = Instant::now();
    let node = core::node::SwimNode::try_new(socket, config(&options), sender)
        .await
        .map_err(|e| e.to_string())?;
    let _running = node.run().await;
    let mut told = vec![];
    loop {
        // An event tells of no list: the published code reports some of addresses that it doesn't hold.
        let event = timeout(Duration::from_millis(50), events.recv()).await;
        let tick = start.elapsed().as_millis() / u128::from(options.tick);
        match event {
            Ok(Ok(event)) => tell(&event, tick),
            Ok(Err(RecvError::Closed)) => return Ok(()),
            Ok(Err(RecvError::Lagged(_))) | Err(_) => {}
        }
        let mut list: Vec<String> = node
            .membership_list()
            .members()
            .iter()
            .map(|member| member.key().clone())
            .collect();
        list.sort();
        if list != told {
            tell_list(&list, tick);
            told = list;
        }
    }
}

fn main() -> Result<(), String> {
    let runtime = tokio::runtime::Builder::new_current_thread()
        .enable_all()
        .build()
        .map_err(|e| e.to_string())?;
    runtime.block_on(run(options()?))
}
