//! Numbers as they are written.

use crate::show::shown;

/// The number, decimal or hexadecimal after 0x, or what is wrong with it.
///
/// A decimal number does not begin with 0: `00000010` is more likely a word of a printed digest.
pub fn number(text: &str) -> Result<u32, String> {
    let (digits, radix) = match text.strip_prefix("0x") {
        Some(digits) => (digits, 16),
        None => (text, 10),
    };
    if digits.is_empty() || !digits.chars().all(|digit| digit.is_digit(radix)) {
        return Err(format!(
            "'{}' is no number: write decimal, or 0x and hexadecimal digits",
            shown(text)
        ));
    }
    if radix == 10 && digits.len() > 1 && digits.starts_with('0') {
        return Err(format!(
            "'{}' begins with 0: write decimal without it, or hexadecimal after 0x",
            shown(text)
        ));
    }
    u32::from_str_radix(digits, radix)
        .map_err(|_| format!("'{}' is more than 32 bits hold", shown(text)))
}

/// The digest word, as it is printed or as a number after 0x, or what is wrong with it.
pub fn digest_word(text: &str) -> Result<u32, String> {
    let printed = text.len() == 8 && text.chars().all(|digit| digit.is_ascii_hexdigit());
    if printed {
        number(&format!("0x{text}"))
    } else if text.starts_with("0x") {
        number(text)
    } else {
        Err(format!(
            "'{}' is no digest word: write eight hexadecimal digits, or 0x and such digits",
            shown(text)
        ))
    }
}
