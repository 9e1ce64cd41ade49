//! What the texts that go in and out are made of: octets of two capital hex digits, and a line for each frame.

use crate::line::Fit;

const HEX_DIGITS: &[u8; 16] = b"0123456789ABCDEF";
/// All bits set, so that it survives an "or" with any digit's value.
const NO_DIGIT: u8 = 0xFF;
const HEX_VALUES: [u8; 256] = {
    let mut values = [NO_DIGIT; 256];
    let mut value = 0;
    while value < 16 {
        values[HEX_DIGITS[value] as usize] = value as u8;
        value += 1;
    }
    values
};

/// The value of a capital hex digit.
pub const fn hex_value(digit: u8) -> Option<u8> {
    match HEX_VALUES[digit as usize] {
        NO_DIGIT => None,
        value => Some(value),
    }
}

/// The octet of two capital hex digits.
pub const fn octet_value(high: u8, low: u8) -> Option<u8> {
    let (high, low) = (HEX_VALUES[high as usize], HEX_VALUES[low as usize]);
    if high | low == NO_DIGIT {
        return None;
    }
    Some(high << 4 | low)
}

pub const fn hex(octet: u8) -> [u8; 2] {
    [
        HEX_DIGITS[(octet >> 4) as usize],
        HEX_DIGITS[(octet & 0xF) as usize],
    ]
}

/// A space and two digits for each octet, or ` -` for none.
pub fn put_octets(text: &mut Vec<u8>, octets: &[u8]) {
    if octets.is_empty() {
        text.extend_from_slice(b" -");
    }
    for &octet in octets {
        let [high, low] = hex(octet);
        text.extend_from_slice(&[b' ', high, low]);
    }
}

/// A frame by its place, the number of its kind with `~` behind it if the set was not exact, and its octets, none for a
/// Hard Reset.
pub fn put_frame(text: &mut Vec<u8>, place: u64, number: usize, fit: Fit, octets: &[u8]) {
    text.extend_from_slice(format!("{place} {number}").as_bytes());
    if fit != Fit::Exact {
        text.push(b'~');
    }
    put_octets(text, octets);
    text.push(b'\n');
}
