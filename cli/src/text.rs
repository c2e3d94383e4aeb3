//! Bytes for people: as text where all of it can be seen, else in hexadecimal.

use std::fmt::Write;

/// The bytes as text, if they are UTF-8 of printable characters alone. A control character, a space other than the common
/// one, a mark without a letter to stand on and whatever turns the direction of writing aren't printable.
pub fn printable(bytes: &[u8]) -> Option<&str> {
    let text = std::str::from_utf8(bytes).ok()?;
    let quotes = ['"', '\'', '\\'];
    text.split(quotes).all(|part| part.escape_debug().eq(part.chars())).then_some(text)
}

/// Two digits a byte.
pub fn hexadecimal(bytes: &[u8]) -> String {
    bytes.iter().fold(String::with_capacity(2 * bytes.len()), |mut digits, byte| {
        write!(digits, "{byte:02x}").expect("a string takes all");
        digits
    })
}

/// The bytes in quotes where they are printable, with a backslash before a quote or a backslash in them; else in
/// hexadecimal after `0x`. No two runs of bytes are shown alike.
pub fn shown(bytes: &[u8]) -> String {
    match printable(bytes) {
        Some(text) => quoted(text),
        None => format!("0x{}", hexadecimal(bytes)),
    }
}

/// The bytes as they are where they are printable and can't be taken for quoted or hexadecimal ones; else as `shown`.
pub fn bare(bytes: &[u8]) -> String {
    match printable(bytes) {
        Some(text) if !text.is_empty() && !text.starts_with('"') && !text.starts_with("0x") => text.to_string(),
        _ => shown(bytes),
    }
}

/// The bytes that hexadecimal digits stand for, with or without `0x` before them.
pub fn from_hexadecimal(digits: &[u8]) -> Option<Vec<u8>> {
    let digits = digits.strip_prefix(b"0x").unwrap_or(digits);
    let value = |digit: u8| char::from(digit).to_digit(16);
    digits
        .chunks(2)
        .map(|pair| match *pair {
            [high, low] => u8::try_from(value(high)? << 4 | value(low)?).ok(),
            _ => None,
        })
        .collect()
}

/// The text with its control characters escaped, so that it stays on its line.
pub fn one_line(text: &str) -> String {
    text.chars().fold(String::with_capacity(text.len()), |mut line, char| {
        if char.is_control() {
            line.extend(char.escape_default());
        } else {
            line.push(char);
        }
        line
    })
}

fn quoted(text: &str) -> String {
    format!("\"{}\"", text.replace('\\', "\\\\").replace('"', "\\\""))
}

#[cfg(test)]
mod tests {
    use super::*;

    #[test]
    fn text_is_quoted_and_the_rest_is_hexadecimal() {
        let cases: [(&[u8], &str); 12] = [
            (b"", r#""""#),
            (b"sonar:17", r#""sonar:17""#),
            (b"say \"hi\" \\ it's", r#""say \"hi\" \\ it's""#),
            ("h\u{e4}ring \u{1f41f}".as_bytes(), "\"h\u{e4}ring \u{1f41f}\""),
            ("e\u{301}".as_bytes(), "\"e\u{301}\""),
            ("\u{301}".as_bytes(), "0xcc81"),
            (b"two\nlines", "0x74776f0a6c696e6573"),
            (b"\x7f", "0x7f"),
            (b"\xff", "0xff"),
            ("\u{202e}".as_bytes(), "0xe280ae"),
            ("\u{a0}".as_bytes(), "0xc2a0"),
            ("\u{85}".as_bytes(), "0xc285"),
        ];
        for (bytes, expected) in cases {
            assert_eq!(shown(bytes), expected);
        }
    }

    #[test]
    fn a_bare_line_is_never_taken_for_another() {
        let cases: [(&[u8], &str); 6] = [
            (b"sonar:17", "sonar:17"),
            (b"a \"b\"", "a \"b\""),
            (b"\"a\"", r#""\"a\"""#),
            (b"0x00", r#""0x00""#),
            (b"\0", "0x00"),
            (b"", r#""""#),
        ];
        for (bytes, expected) in cases {
            assert_eq!(bare(bytes), expected);
        }
    }

    #[test]
    fn hexadecimal_reads_back() {
        let all: Vec<u8> = (0..=255).collect();
        assert_eq!(from_hexadecimal(hexadecimal(&all).as_bytes()), Some(all));
        assert_eq!(from_hexadecimal(b"0xFf"), Some(vec![255]));
        assert_eq!(from_hexadecimal(b""), Some(vec![]));
        for wrong in [&b"f"[..], b"0g", b"+1", b"0x1", b" 11", b"0x0x11"] {
            assert_eq!(from_hexadecimal(wrong), None);
        }
    }

    #[test]
    fn a_line_stays_one() {
        assert_eq!(one_line("a\nb\x1b[2J\u{e4}"), "a\\nb\\u{1b}[2J\u{e4}");
    }
}
