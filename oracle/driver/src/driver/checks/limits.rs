//! `limits`: the send limit as a least power, in whole numbers, against the published `f64` expression.
use crate::core::disseminate::{Disseminator, DisseminatorUpdate};
use crate::driver::bench::finish;
use crate::Event;

const MOST_MEMBERS: u64 = 64;
const MOST_CONSTANT: u64 = 8;

pub fn check() -> bool {
    let mut compared = 0;
    let mut differences = 0;
    for members in 0..=MOST_MEMBERS {
        for constant in 0..=MOST_CONSTANT {
            compared += 1;
            let rule = by_rule(members, constant);
            let float = by_float(members as usize, constant as usize);
            let sends = sends_until_removed(members as usize, constant as usize);
            // An entry is sent before it is looked at, so a limit of 0 sends once as a limit of 1 does.
            if rule != float || sends != rule.max(1) {
                differences += 1;
                println!("members {members} constant {constant}: rule {rule}, f64 {float}, sent {sends} times");
            }
        }
    }
    println!("limits: {compared} compared with the f64 expression and with the sends of the published code, {differences} differences");
    differences == 0
}

/// 0 without members, else the constant plus the least k with 10^k ≥ members^constant.
fn by_rule(members: u64, constant: u64) -> u64 {
    if members == 0 {
        return 0;
    }
    let power = u128::from(members).pow(constant as u32);
    let least = (0..).find(|k| 10u128.pow(*k) >= power);
    constant + u64::from(least.expect("some power of ten is large enough"))
}

/// The expression of `get_gossip` in disseminate.rs.
fn by_float(num_members: usize, max_send_constant: usize) -> u64 {
    let max_send =
        (((num_members as f64).log10() + 1f64) * max_send_constant as f64).ceil() as usize;
    max_send as u64
}

/// How often the published code sends one event before it drops it.
fn sends_until_removed(members: usize, constant: usize) -> u64 {
    let disseminator = Disseminator::new(2, 1169, constant);
    let event = Event::new_node_joined("0.0.0.0:0", "0.0.0.0:1", 0);
    finish(disseminator.push(DisseminatorUpdate::NodesAlive(event)));
    let mut sends = 0;
    while disseminator.heap_lengths().0 > 0 {
        sends += finish(disseminator.get_gossip(members)).len() as u64;
    }
    sends
}
