//! The texts of addresses: canonical ones, ones that are not, and bytes that are no text.
use crate::driver::convert;
use crate::driver::rng::Rng;
use crate::driver::words::{Address, ADDRESS_LIMIT};

/// Texts that are no canonical address.
const ODD: [&str; 30] = [
    "",
    "01.2.3.4:5",
    "1.02.3.4:5",
    "1.2.3.04:5",
    "00.2.3.4:5",
    "1.2.3.4:05",
    "1.2.3.4:00",
    "1.2.3.4:65536",
    "1.2.3.4:99999",
    "1.2.3.4:100000",
    "1.2.3.256:1",
    "256.2.3.4:1",
    "1.2.3.4",
    "1.2.3.4:",
    "1.2.3:4",
    "1.2.3.4.5:6",
    "1..3.4:5",
    ".1.2.3.4:5",
    "1.2.3.4:5 ",
    " 1.2.3.4:5",
    "1.2.3.4:+5",
    "+1.2.3.4:5",
    "1.2.3.4;5",
    "1.2.3.4:5\0",
    "[::1]:5",
    "localhost:7000",
    "é.2.3.4:5",
    "１.2.3.4:5",
    "€𝄞\u{10ffff}\u{d7ff}\u{e000}",
    "1.2.3.4:18446744073709551621",
];

/// Bytes that are not UTF-8: stray and missing followers, needless length, surrogates, past the last.
const NO_TEXT: [&[u8]; 12] = [
    b"\xff",
    b"\x80",
    b"1.2.3.4:5\xbf",
    b"\xc0\x80",
    b"\xc1\xbf",
    b"\xc3",
    b"\xe2\x82",
    b"\xe0\x9f\xbf",
    b"\xed\xa0\x80",
    b"\xf0\x8f\xbf\xbf",
    b"\xf4\x90\x80\x80",
    b"\xf8\x88\x80\x80\x80",
];

/// Of either family.
pub fn address(rng: &mut Rng) -> Address {
    if rng.chance(50) {
        return six(rng);
    }
    Address::four(match rng.below(4) {
        0 => rng.below(300),
        1 => rng.below(1 << 20) << rng.below(28),
        2 => *rng.pick(&[0, 1, 65535, 65536, ADDRESS_LIMIT - 1, 655_360_007_000]),
        _ => rng.below(ADDRESS_LIMIT),
    })
}

/// IPv6 with runs of zero groups of every place and length, mapped, compatible, or any.
pub fn six(rng: &mut Rng) -> Address {
    let any = u128::from(rng.next()) << 64 | u128::from(rng.next());
    let kept = rng.below(256);
    let mask: u128 = (0..8).filter(|place| kept >> place & 1 == 1).map(|place| 65535 << (16 * place)).sum();
    let bits = match rng.below(8) {
        0 => any & 0xffff_ffff | 0xffff_0000_0000,
        1 => any & 0xffff_ffff,
        2 => any & mask & 0x000f_00ff_0fff_ffff_000f_00ff_0fff_ffff,
        3 => *rng.pick(&[0, 1, u128::MAX, 0xffff_ffff_ffff, 0xffff_0000_0000]),
        4 => any,
        _ => any & mask,
    };
    let port = *rng.pick(&[0, 9, 10, 7000, 65535, any as u16]);
    Address::six(bits, port)
}

pub fn canonical(rng: &mut Rng) -> Vec<u8> {
    convert::text(address(rng)).into_bytes()
}

pub fn odd(rng: &mut Rng) -> Vec<u8> {
    rng.pick(&ODD).as_bytes().to_vec()
}

pub fn no_text(rng: &mut Rng) -> Vec<u8> {
    rng.pick(&NO_TEXT).to_vec()
}
