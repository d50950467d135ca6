//! Codes as rows of bytes, and as people read them aloud.

/// The most digits of a code, at widths 30 to 32: 10^9 is below 2^30, and 10^10 above 2^32.
pub const MOST_CODE_DIGITS: u32 = 9;

/// The most bytes of a code.
pub const MOST_CODE_BYTES: usize = code_bytes(MOST_CODE_DIGITS);

/// How many bytes a code of `digits` digits has: one for every two, and one for a digit left over.
///
/// ```
/// assert_eq!(pairing_agent::code_bytes(6), 3);
/// assert_eq!(pairing_agent::code_bytes(7), 4);
/// ```
#[must_use]
pub const fn code_bytes(digits: u32) -> usize {
    digits.div_ceil(2) as usize
}

/// The code of `digits` digits at the start of `code`, as it is read aloud: groups of three digits,
/// but never one digit alone, so that four at the end are two groups of two.
///
/// `None` where the bytes are no such code: there are fewer than [`code_bytes`], a half of one is
/// not 0 to 9, or the half before an odd number of digits is not 0.
///
/// ```
/// use pairing_agent::code_text;
///
/// assert_eq!(code_text(6, &[0x00, 0x45, 0x10]).as_deref(), Some("004 510"));
/// // The zero before an odd number of digits is not read.
/// assert_eq!(code_text(7, &[0x00, 0x04, 0x51, 0x07]).as_deref(), Some("004 51 07"));
/// ```
#[must_use]
pub fn code_text(digits: u32, code: &[u8]) -> Option<String> {
    let bytes = code.get(..code_bytes(digits))?;
    let halves = bytes.iter().flat_map(|byte| [byte >> 4, byte & 0xf]);
    let packed: Option<String> = halves
        .map(|half| char::from_digit(half.into(), 10))
        .collect();
    let packed = packed?;
    let text = match digits % 2 {
        0 => &packed,
        _ => packed.strip_prefix('0')?,
    };
    Some(grouped(text))
}

fn grouped(mut digits: &str) -> String {
    let mut groups = Vec::new();
    while !digits.is_empty() {
        let (group, rest) = digits.split_at(group_size(digits.len()));
        groups.push(group);
        digits = rest;
    }
    groups.join(" ")
}

/// How many of the digits left are the next group: three of four would leave one alone.
fn group_size(left: usize) -> usize {
    match left {
        1 => 1,
        2 | 4 => 2,
        _ => 3,
    }
}

#[cfg(test)]
mod tests {
    use super::{code_bytes, code_text, MOST_CODE_BYTES, MOST_CODE_DIGITS};

    /// The last digits of 123456789, packed by hand.
    const CODES: [(&[u8], &str); 9] = [
        (&[0x09], "9"),
        (&[0x89], "89"),
        (&[0x07, 0x89], "789"),
        (&[0x67, 0x89], "67 89"),
        (&[0x05, 0x67, 0x89], "567 89"),
        (&[0x45, 0x67, 0x89], "456 789"),
        (&[0x03, 0x45, 0x67, 0x89], "345 67 89"),
        (&[0x23, 0x45, 0x67, 0x89], "234 567 89"),
        (&[0x01, 0x23, 0x45, 0x67, 0x89], "123 456 789"),
    ];

    #[test]
    fn every_number_of_digits() {
        for (digits, (code, text)) in (1..).zip(CODES) {
            assert_eq!(code_bytes(digits), code.len(), "{digits} digits");
            assert_eq!(code_text(digits, code).as_deref(), Some(text));
            // What follows the code is not read.
            let longer = [code, &[0xff]].concat();
            assert_eq!(code_text(digits, &longer).as_deref(), Some(text));
        }
    }

    #[test]
    fn zeros_are_digits() {
        assert_eq!(code_text(1, &[0x00]).as_deref(), Some("0"));
        assert_eq!(code_text(2, &[0x00]).as_deref(), Some("00"));
        assert_eq!(code_text(5, &[0x00, 0x00, 0x10]).as_deref(), Some("000 10"));
        assert_eq!(code_text(9, &[0; 5]).as_deref(), Some("000 000 000"));
    }

    #[test]
    fn bytes_that_are_no_code() {
        for (digits, code) in [
            // Too few bytes.
            (1, &[][..]),
            (3, &[0x07]),
            (9, &[0; 4]),
            (u32::MAX, &[0; 5]),
            // A half that is no digit, the upper and the lower one.
            (2, &[0xa0]),
            (2, &[0x0a]),
            (4, &[0x00, 0x0f]),
            // A digit in the place of the zero.
            (1, &[0x19]),
            (3, &[0x17, 0x89]),
        ] {
            assert_eq!(code_text(digits, code), None, "{digits} of {code:x?}");
        }
    }

    #[test]
    fn sizes() {
        for digits in (0..=40).chain([u32::MAX - 1, u32::MAX]) {
            let due = digits / 2 + digits % 2;
            assert_eq!(code_bytes(digits), due as usize, "{digits} digits");
        }
        assert_eq!((MOST_CODE_DIGITS, MOST_CODE_BYTES), (9, 5));
    }
}
