//! The words of the replay text: what a call, a message and a state are made of, and how each is written.
use std::fmt;
use std::net::{Ipv4Addr, Ipv6Addr, SocketAddr, SocketAddrV4, SocketAddrV6};

/// A family, 128 bits as two numbers, and a port.
#[derive(Clone, Copy, Debug, PartialEq, Eq, Hash, PartialOrd, Ord)]
pub struct Address {
    pub family: u8,
    pub high: u64,
    pub low: u64,
    pub port: u16,
}

/// Every address of IPv4, as ip × 65536 + port, is below this.
pub const ADDRESS_LIMIT: u64 = 1 << 48;

impl Address {
    /// IPv4, as one number.
    pub const fn four(number: u64) -> Self {
        let (low, port) = (number >> 16, number as u16);
        Self { family: 4, high: 0, low, port }
    }

    pub fn six(bits: u128, port: u16) -> Self {
        let (high, low) = ((bits >> 64) as u64, bits as u64);
        Self { family: 6, high, low, port }
    }

    /// The one number that says it, if one does.
    fn numbered(self) -> Option<u64> {
        let one = self.family == 4 && self.high == 0 && self.low < ADDRESS_LIMIT;
        one.then(|| self.low << 16 | u64::from(self.port))
    }

    pub fn in_range(self) -> bool {
        self.socket().is_some()
    }

    /// As the standard library has it, if it is in range.
    pub fn socket(self) -> Option<SocketAddr> {
        let bits = u128::from(self.high) << 64 | u128::from(self.low);
        match self.family {
            4 => {
                let ip = Ipv4Addr::from(u32::try_from(bits).ok()?);
                Some(SocketAddr::V4(SocketAddrV4::new(ip, self.port)))
            }
            6 => Some(SocketAddr::V6(SocketAddrV6::new(Ipv6Addr::from(bits), self.port, 0, 0))),
            _ => None,
        }
    }

    /// The address of a text that is written as the standard library writes it, with no scope.
    pub fn of_text(text: &str) -> Option<Self> {
        let address = match text.parse().ok()? {
            SocketAddr::V4(parsed) => Self::four(u64::from(u32::from(*parsed.ip())) << 16 | u64::from(parsed.port())),
            SocketAddr::V6(parsed) => Self::six(u128::from(*parsed.ip()), parsed.port()),
        };
        (address.socket()?.to_string() == text).then_some(address)
    }

    /// The address of a word of the replay text: the shortest form that says it.
    pub fn of_word(word: &str, number: impl Fn(&str) -> Option<u64>) -> Option<Self> {
        let parts: Option<Vec<u64>> = word.split('.').map(number).collect();
        let address = match parts?[..] {
            [one] => Self::four(one),
            [high, low, port] => Self { family: 6, high, low, port: port.try_into().ok()? },
            [family, high, low, port] => {
                let (family, port) = (family.try_into().ok()?, port.try_into().ok()?);
                Self { family, high, low, port }
            }
            _ => return None,
        };
        (address.to_string() == word).then_some(address)
    }
}

impl fmt::Display for Address {
    fn fmt(&self, f: &mut fmt::Formatter) -> fmt::Result {
        let Self { family, high, low, port } = self;
        match (self.numbered(), family) {
            (Some(number), _) => write!(f, "{number}"),
            (None, 6) => write!(f, "{high}.{low}.{port}"),
            (None, _) => write!(f, "{family}.{high}.{low}.{port}"),
        }
    }
}

#[derive(Clone, Copy, Debug, PartialEq, Eq, Hash)]
pub enum Kind {
    Joined,
    Recovered,
    Suspected,
    Deceased,
}

/// A gossip record that holds an event.
#[derive(Clone, Copy, Debug, PartialEq, Eq, Hash)]
pub struct Record {
    pub kind: Kind,
    pub from: Address,
    pub subject: Address,
    pub number: u64,
}

/// A gossip list: a record of no event is `None`.
pub type Gossips = Vec<Option<Record>>;

#[derive(Clone, Copy, Debug, PartialEq, Eq)]
pub enum PacketKind {
    Ping,
    Req,
    Ack,
}

/// A message, coming in or going out. `other` is `requested_by`, `suspect` or `forward_to`.
#[derive(Clone, Debug, PartialEq, Eq)]
pub struct Packet {
    pub kind: PacketKind,
    pub from: Address,
    pub other: Option<Address>,
    pub gossip: Gossips,
}

/// A message with the address it was sent to.
#[derive(Clone, Debug, PartialEq, Eq)]
pub struct Sent {
    pub target: Address,
    pub packet: Packet,
}

#[derive(Clone, Copy, Debug, PartialEq, Eq)]
pub enum MemberState {
    Alive,
    Pending,
    Suspected,
}

#[derive(Clone, Copy, Debug, PartialEq, Eq)]
pub struct Member {
    pub address: Address,
    pub state: MemberState,
    pub number: u64,
}

/// An entry of a heap.
#[derive(Clone, Copy, Debug, PartialEq, Eq)]
pub struct Entry {
    pub record: Record,
    pub sends: usize,
    pub size: usize,
}

/// An address with the number it was last known by.
#[derive(Clone, Copy, Debug, PartialEq, Eq)]
pub struct Peer {
    pub address: Address,
    pub number: u64,
}

/// A declaration timer and the tick it was started at.
#[derive(Clone, Copy, Debug, PartialEq, Eq)]
pub struct Timer {
    pub peer: Peer,
    pub tick: u32,
}

#[derive(Clone, Copy, Debug, PartialEq, Eq)]
pub enum Phase {
    SendingPing,
    WaitingForPingAck(Peer),
    SendingPingReq(Peer),
    WaitingForPingReqAck(Peer),
    Declaring(Peer),
}

/// The wait record: the detector's phase and the tick it was entered at.
#[derive(Clone, Copy, Debug, PartialEq, Eq)]
pub struct Wait {
    pub phase: Phase,
    pub tick: u32,
}

impl Phase {
    /// The peer the record holds, with its number; SendingPing holds none.
    pub fn peer(&self) -> Option<Peer> {
        match self {
            Phase::SendingPing => None,
            Phase::WaitingForPingAck(peer)
            | Phase::SendingPingReq(peer)
            | Phase::WaitingForPingReqAck(peer)
            | Phase::Declaring(peer) => Some(*peer),
        }
    }

    pub fn address(&self) -> Option<Address> {
        self.peer().map(|peer| peer.address)
    }
}

impl fmt::Display for Record {
    fn fmt(&self, f: &mut fmt::Formatter<'_>) -> fmt::Result {
        let letter = match self.kind {
            Kind::Joined => 'j',
            Kind::Recovered => 'r',
            Kind::Suspected => 's',
            Kind::Deceased => 'd',
        };
        write!(f, "{letter}:{}:{}:{}", self.from, self.subject, self.number)
    }
}

impl fmt::Display for Packet {
    fn fmt(&self, f: &mut fmt::Formatter<'_>) -> fmt::Result {
        let kind = match self.kind {
            PacketKind::Ping => "ping",
            PacketKind::Req => "req",
            PacketKind::Ack => "ack",
        };
        write!(f, "{kind} {} ", self.from)?;
        match self.other {
            Some(address) => write!(f, "{address}")?,
            None => write!(f, "-")?,
        }
        for record in &self.gossip {
            match record {
                Some(record) => write!(f, " {record}")?,
                None => write!(f, " n")?,
            }
        }
        Ok(())
    }
}

/// Bytes as pairs of lower-case hexadecimal digits, `-` for none.
pub struct Bytes<'a>(pub &'a [u8]);

impl fmt::Display for Bytes<'_> {
    fn fmt(&self, f: &mut fmt::Formatter<'_>) -> fmt::Result {
        const DIGITS: &[u8; 16] = b"0123456789abcdef";
        if self.0.is_empty() {
            return write!(f, "-");
        }
        let pair = |byte: &u8| {
            [
                DIGITS[usize::from(byte >> 4)],
                DIGITS[usize::from(byte & 15)],
            ]
        };
        let text: Vec<u8> = self.0.iter().flat_map(pair).collect();
        f.write_str(std::str::from_utf8(&text).expect("digits are text"))
    }
}

impl fmt::Display for Member {
    fn fmt(&self, f: &mut fmt::Formatter<'_>) -> fmt::Result {
        let letter = match self.state {
            MemberState::Alive => 'a',
            MemberState::Pending => 'p',
            MemberState::Suspected => 's',
        };
        write!(f, "{}:{letter}:{}", self.address, self.number)
    }
}

impl fmt::Display for Entry {
    fn fmt(&self, f: &mut fmt::Formatter<'_>) -> fmt::Result {
        write!(f, "{}*{}/{}", self.record, self.sends, self.size)
    }
}

impl fmt::Display for Timer {
    fn fmt(&self, f: &mut fmt::Formatter<'_>) -> fmt::Result {
        let Peer { address, number } = self.peer;
        write!(f, "{address}:{number}:{}", self.tick)
    }
}

impl fmt::Display for Wait {
    fn fmt(&self, f: &mut fmt::Formatter<'_>) -> fmt::Result {
        let (word, peer) = match self.phase {
            Phase::SendingPing => return write!(f, "ping {}", self.tick),
            Phase::WaitingForPingAck(peer) => ("ack", peer),
            Phase::SendingPingReq(peer) => ("req", peer),
            Phase::WaitingForPingReqAck(peer) => ("reqack", peer),
            Phase::Declaring(peer) => ("dead", peer),
        };
        write!(f, "{word} {} {} {}", peer.address, peer.number, self.tick)
    }
}
