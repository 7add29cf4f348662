//! The texts of addresses, prefixes and numbers, as a rules text and a trace have them.
use crate::rules::Prefix;
use std::net::{IpAddr, Ipv4Addr, Ipv6Addr};

/// A number of one to ten digits, up to a most.
pub fn number(text: &[u8], most: u64) -> Option<u64> {
    let is_number = (1..=10).contains(&text.len()) && text.iter().all(u8::is_ascii_digit);
    let value = text.iter().fold(0, |value, digit| value * 10 + u64::from(digit & 15));
    (is_number && value <= most).then_some(value)
}

/// An address: no tail with dots, no zone.
pub fn address(text: &[u8]) -> Option<IpAddr> {
    let text = std::str::from_utf8(text).ok()?;
    if !text.contains(':') {
        return text.parse::<Ipv4Addr>().ok().map(IpAddr::V4);
    }
    text.parse::<Ipv6Addr>().ok().filter(|_| !text.contains('.')).map(IpAddr::V6)
}

/// An address, or one with a length; bits past the length are cleared.
pub fn prefix(text: &[u8]) -> Option<Prefix> {
    let Some(slash) = text.iter().position(|it| *it == b'/') else {
        return address(text).map(Prefix::host);
    };
    let (addr, bits) = (address(&text[..slash])?, &text[slash + 1..]);
    let has_leading_zero = bits.len() > 1 && bits[0] == b'0';
    let bits = number(bits, if addr.is_ipv4() { 32 } else { 128 }).filter(|_| !has_leading_zero)?;
    Some(Prefix::network(addr, bits as u8))
}

/// The name of a table, an interface or an anchor.
pub fn is_name(text: &[u8], most: usize) -> bool {
    (1..=most).contains(&text.len()) && text.iter().all(|it| it.is_ascii_alphanumeric() || b"_-.".contains(it))
}

/// The number of a protocol.
pub fn protocol(text: &[u8]) -> Option<u8> {
    match text {
        b"tcp" => Some(6),
        b"udp" => Some(17),
        b"icmp" => Some(1),
        b"icmp6" => Some(58),
        b"esp" => Some(50),
        b"ah" => Some(51),
        b"gre" => Some(47),
        _ => number(text, 255).map(|it| it as u8),
    }
}

/// Letters of TCP's flags.
pub fn flags(text: &[u8]) -> Option<u8> {
    text.iter().try_fold(0, |set, it| Some(set | 1 << b"FSRPAUEW".iter().position(|flag| flag == it)?))
}
