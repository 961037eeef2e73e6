//! The world around one generated node: its settings, the peers that may come up, and the numbers they are given.
use crate::driver::rng::Rng;
use crate::driver::script::{Creation, Settings};
use crate::driver::bytes::texts;
use crate::driver::words::{Address, Peer, ADDRESS_LIMIT};

pub struct World {
    pub creation: Creation,
    /// The addresses that may come up, own among them.
    pub pool: Vec<Address>,
    /// Whether numbers near 2^64 come up; they soon leave no greater number to give.
    huge_numbers: bool,
}

impl World {
    pub fn new(rng: &mut Rng) -> Self {
        // A full list with the greatest constant is where sends rise to 22.
        let crowded = rng.chance(15);
        let pool = match crowded {
            true => pool(rng, 100),
            false => pool_of_any_size(rng),
        };
        let huge_numbers = rng.chance(25);
        let number = match rng.chance(80) {
            true => rng.below(5),
            false => near_an_edge(rng),
        };
        let address = pool[0];
        let creation = Creation {
            settings: match crowded {
                true => crowded_settings(rng),
                false => settings(rng),
            },
            own: Peer { address, number },
            tick: tick(rng),
            collect: false,
            remember: false,
        };
        Self {
            creation,
            pool,
            huge_numbers,
        }
    }

    pub fn own(&self) -> Address {
        self.creation.own.address
    }

    pub fn any_address(&self, rng: &mut Rng) -> Address {
        *rng.pick(&self.pool)
    }

    /// A number for news about a peer whose number is `held`: mostly one next to it.
    pub fn number(&self, rng: &mut Rng, held: u64) -> u64 {
        match rng.below(100) {
            0..=9 => held.saturating_sub(1),
            10..=39 => held,
            40..=74 => held.saturating_add(1),
            75..=79 => held.saturating_add(rng.below(200)),
            80..=97 => rng.below(5),
            _ if self.huge_numbers => near_an_edge(rng),
            _ => rng.below(300),
        }
    }
}

fn pool_of_any_size(rng: &mut Rng) -> Vec<Address> {
    let size = *rng.pick(&[2, 3, 3, 4, 6, 10, 20, 70]);
    pool(rng, size)
}

fn pool(rng: &mut Rng, size: usize) -> Vec<Address> {
    let short = rng.chance(50);
    let mut pool = Vec::new();
    while pool.len() < size {
        let address = match short {
            true => Address::four(rng.between(1, 200)),
            false => any_address(rng),
        };
        if !pool.contains(&address) {
            pool.push(address);
        }
    }
    pool
}

/// Of either family.
fn any_address(rng: &mut Rng) -> Address {
    if rng.chance(50) {
        return texts::six(rng);
    }
    Address::four(match rng.below(10) {
        0 => rng.below(2),
        1 => ADDRESS_LIMIT - 1 - rng.below(2),
        2..=5 => (10 << 24 | rng.below(256)) << 16 | 7000,
        _ => rng.below(ADDRESS_LIMIT),
    })
}

fn near_an_edge(rng: &mut Rng) -> u64 {
    match rng.below(3) {
        0 => u64::MAX - rng.below(3),
        1 => rng.next(),
        _ => (1u64 << (7 * rng.between(1, 9))) - rng.below(2),
    }
}

fn settings(rng: &mut Rng) -> Settings {
    Settings {
        ping_interval: wait(rng),
        ping_timeout: wait(rng),
        ping_req_timeout: wait(rng),
        suspect_timeout: wait(rng),
        group: rng.below(5) as u32,
        send_constant: *rng.pick(&[0, 1, 2, 3, 3, 4, 5, 6, 7, 8, 8]),
        max_selected: either_or(rng, &[1, 2, 3, 6, 64], (1, 64)),
        max_size: either_or(rng, &[111, 112, 222, 1169, 1169, 1169], (111, 1169)),
    }
}

fn crowded_settings(rng: &mut Rng) -> Settings {
    Settings {
        send_constant: 8,
        max_selected: rng.between(32, 64) as u32,
        max_size: 1169,
        ..settings(rng)
    }
}

/// Half the time one of the given, else any in the range.
fn either_or(rng: &mut Rng, given: &[u32], range: (u64, u64)) -> u32 {
    match rng.chance(50) {
        true => *rng.pick(given),
        false => rng.between(range.0, range.1) as u32,
    }
}

fn wait(rng: &mut Rng) -> u32 {
    match rng.below(10) {
        0 => 0,
        1 => (1 << 31) - 1,
        2 => rng.below(1 << 31) as u32,
        _ => rng.between(1, 5000) as u32,
    }
}

fn tick(rng: &mut Rng) -> u32 {
    match rng.below(3) {
        0 => rng.below(10_000) as u32,
        1 => u32::MAX - rng.below(10_000) as u32,
        _ => rng.next() as u32,
    }
}
