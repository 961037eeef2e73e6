//! Datagrams put together field by field, as other writers may do it: in any order, repeated, with unknown fields,
//! needless bytes, texts of all kinds, and now and then a field that is malformed.
use super::{packets, texts};
use crate::driver::rng::Rng;

/// How often, in a hundred, each oddity comes up.
#[derive(Clone, Copy, Default)]
struct Manner {
    shuffled: u64,
    repeated: u64,
    missing: u64,
    unknown: u64,
    needless: u64,
    odd_text: u64,
    no_text: u64,
    malformed: u64,
}

/// Each has one thing in mind; the last has all, and the first none.
const MANNERS: [Manner; 8] = [
    PLAIN,
    Manner {
        shuffled: 80,
        repeated: 30,
        ..PLAIN
    },
    Manner {
        unknown: 40,
        ..PLAIN
    },
    Manner {
        needless: 30,
        ..PLAIN
    },
    Manner {
        repeated: 40,
        odd_text: 8,
        missing: 4,
        ..PLAIN
    },
    Manner {
        no_text: 6,
        repeated: 20,
        ..PLAIN
    },
    Manner {
        malformed: 5,
        unknown: 10,
        ..PLAIN
    },
    Manner {
        shuffled: 50,
        repeated: 15,
        missing: 1,
        unknown: 10,
        needless: 10,
        odd_text: 1,
        no_text: 1,
        malformed: 1,
    },
];

const PLAIN: Manner = Manner {
    shuffled: 0,
    repeated: 0,
    missing: 0,
    unknown: 0,
    needless: 0,
    odd_text: 0,
    no_text: 0,
    malformed: 0,
};

pub struct Maker<'a> {
    rng: &'a mut Rng,
    manner: Manner,
}

impl<'a> Maker<'a> {
    pub fn new(rng: &'a mut Rng) -> Self {
        let manner = *rng.pick(&MANNERS);
        Self { rng, manner }
    }

    /// One action, or several: the same case merges, another replaces.
    pub fn datagram(&mut self) -> Vec<u8> {
        let parts = match self.chance(self.manner.repeated) {
            true => self.rng.between(2, 4),
            false => u64::from(!self.chance(self.manner.missing)),
        };
        let mut kind = self.rng.between(1, 3);
        let mut fields = Vec::new();
        for _ in 0..parts {
            let action = self.action();
            fields.push(self.delimited(kind, &action));
            if self.rng.chance(50) {
                kind = self.rng.between(1, 3);
            }
        }
        self.message(fields)
    }

    fn action(&mut self) -> Vec<u8> {
        let mut fields = Vec::new();
        self.texts(&mut fields, 1);
        if self.rng.chance(60) {
            self.texts(&mut fields, 2);
        }
        for _ in 0..self.records() {
            let gossip = self.gossip();
            fields.push(self.delimited(3, &gossip));
        }
        self.message(fields)
    }

    fn records(&mut self) -> u64 {
        match self.rng.below(60) {
            0 => self.rng.between(62, 67),
            1 => self.rng.between(30, 90),
            2..=6 => self.rng.below(25),
            _ => self.rng.below(4),
        }
    }

    fn gossip(&mut self) -> Vec<u8> {
        let events = match self.chance(self.manner.repeated) {
            true => self.rng.between(2, 3),
            false => u64::from(!self.rng.chance(5)),
        };
        let mut kind = self.rng.between(1, 4);
        let mut fields = Vec::new();
        for _ in 0..events {
            let event = self.event();
            fields.push(self.delimited(kind, &event));
            if self.rng.chance(50) {
                kind = self.rng.between(1, 4);
            }
        }
        self.message(fields)
    }

    fn event(&mut self) -> Vec<u8> {
        let mut fields = Vec::new();
        self.texts(&mut fields, 1);
        self.texts(&mut fields, 2);
        self.numbers(&mut fields, 3);
        self.message(fields)
    }

    /// A text, at times missing or repeated.
    fn texts(&mut self, fields: &mut Vec<Vec<u8>>, number: u64) {
        for _ in 0..self.times() {
            let text = self.text();
            fields.push(self.delimited(number, &text));
        }
    }

    fn numbers(&mut self, fields: &mut Vec<Vec<u8>>, number: u64) {
        for _ in 0..self.times() {
            let mut field = self.varint(number << 3);
            let value = packets::number(self.rng);
            field.extend(self.varint(value));
            fields.push(field);
        }
    }

    fn times(&mut self) -> u64 {
        match self.chance(self.manner.missing) {
            true => 0,
            false => 1 + u64::from(self.chance(self.manner.repeated)),
        }
    }

    fn text(&mut self) -> Vec<u8> {
        if self.chance(self.manner.no_text) {
            return texts::no_text(self.rng);
        }
        match self.chance(self.manner.odd_text) {
            true => texts::odd(self.rng),
            false => texts::canonical(self.rng),
        }
    }

    /// The fields of one message, with unknown and malformed ones among them.
    fn message(&mut self, mut fields: Vec<Vec<u8>>) -> Vec<u8> {
        while self.chance(self.manner.unknown) {
            let place = self.place(fields.len() + 1);
            fields.insert(place, self.unknown());
        }
        if self.chance(self.manner.malformed) {
            let place = self.place(fields.len() + 1);
            fields.insert(place, self.malformed());
        }
        if self.chance(self.manner.shuffled) {
            for last in (1..fields.len()).rev() {
                let other = self.place(last + 1);
                fields.swap(last, other);
            }
        }
        fields.concat()
    }

    /// A field number of no field; many are like a known one in their low bits.
    fn unknown_number(&mut self) -> u64 {
        match self.rng.below(4) {
            0 => self.rng.between(5, 15),
            1 => self.rng.between(1, 4) + (1 << self.rng.between(4, 28)),
            2 => (1 << 29) - 1,
            _ => self.rng.between(16, 1 << 20),
        }
    }

    fn unknown(&mut self) -> Vec<u8> {
        let number = self.unknown_number();
        let wire = *self.rng.pick(&[0, 1, 2, 5]);
        self.field_of(number, wire)
    }

    /// A whole field of a number and a wire type, with any content.
    fn field_of(&mut self, number: u64, wire: u64) -> Vec<u8> {
        let mut field = self.varint(number << 3 | wire);
        match wire {
            0 => {
                let value = packets::number(self.rng);
                field.extend(self.varint(value));
            }
            1 => field.extend(self.content(8)),
            2 => {
                let length = self.rng.below(12);
                field.extend(self.varint(length));
                field.extend(self.content(length));
            }
            5 => field.extend(self.content(4)),
            _ => {}
        }
        field
    }

    fn content(&mut self, length: u64) -> Vec<u8> {
        (0..length).map(|_| self.rng.next() as u8).collect()
    }

    fn malformed(&mut self) -> Vec<u8> {
        let wire = self.rng.below(8);
        let number = self.rng.between(1, 4);
        match self.rng.below(8) {
            // a known field of any wire type
            0 => self.field_of(number, wire),
            // a whole group, which prost skips: such a datagram is left out unless it has another fault
            1 => self.group(),
            // of field 0
            2 => self.field_of(0, wire),
            // a key past the last
            3 => self.field_of((1 << 29) + number, wire),
            // a number of too many bytes, or too large, as key, length or value
            4 => self.overlong(),
            5 => [self.varint(number << 3 | 2), self.overlong()].concat(),
            6 => [self.varint(number << 3), self.overlong()].concat(),
            // a length past the end
            _ => {
                let bits = self.rng.between(1, 63);
                let length = self.rng.below(1 << bits);
                [self.varint(number << 3 | 2), self.varint(length)].concat()
            }
        }
    }

    /// An unknown field between the keys that start and end a group.
    fn group(&mut self) -> Vec<u8> {
        let number = self.unknown_number();
        let start = self.varint(number << 3 | 3);
        let end = self.varint(number << 3 | 4);
        [start, self.unknown(), end].concat()
    }

    /// Ten bytes or more, which end in one of small bits.
    fn overlong(&mut self) -> Vec<u8> {
        let many = self.rng.between(9, 12) as usize;
        let mut bytes = vec![*self.rng.pick(&[0x80, 0xff, 0x88]); many];
        bytes.push(self.rng.below(4) as u8);
        bytes
    }

    fn delimited(&mut self, number: u64, content: &[u8]) -> Vec<u8> {
        let key = self.varint(number << 3 | 2);
        let length = self.varint(content.len() as u64);
        [&key, &length, content].concat()
    }

    /// A varint, at times with needless bytes, ten in all at most.
    fn varint(&mut self, value: u64) -> Vec<u8> {
        let mut bytes = shortest(value);
        if self.chance(self.manner.needless) {
            let many = self.rng.between(bytes.len() as u64, 10) as usize;
            let last = bytes.len() - 1;
            bytes[last] |= 0x80;
            bytes.resize(many, 0x80);
            bytes[many - 1] &= 0x7f;
        }
        bytes
    }

    fn place(&mut self, limit: usize) -> usize {
        self.rng.below(limit as u64) as usize
    }

    fn chance(&mut self, percent: u64) -> bool {
        percent > 0 && self.rng.chance(percent)
    }
}

pub fn shortest(mut value: u64) -> Vec<u8> {
    let mut bytes = Vec::new();
    while value > 0x7f {
        bytes.push(value as u8 | 0x80);
        value >>= 7;
    }
    bytes.push(value as u8);
    bytes
}
