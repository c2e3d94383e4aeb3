//! Bytes and numbers as the manual writes them.

/// The bytes that hexadecimal digits and quoted texts spell, each as often as a `*` after it says. A stroke stands after a
/// frame's 24 bytes of header, or between the fields of a trace, and spells nothing.
pub fn read(spelled: &str) -> Vec<u8> {
    let mut bytes = Vec::new();
    let mut rest = spelled.trim_start();
    while !rest.is_empty() {
        let (one, after) = word(rest);
        let (times, after) = repeats(after);
        bytes.extend(one.repeat(times));
        rest = after.trim_start();
    }
    bytes
}

/// The first word's bytes, and what follows it.
fn word(rest: &str) -> (Vec<u8>, &str) {
    if let Some(text) = rest.strip_prefix('"') {
        let end = text.find('"').expect("a quote ends");
        return (text[..end].as_bytes().to_vec(), &text[end + 1..]);
    }
    if let Some(after) = rest.strip_prefix('|') {
        return (Vec::new(), after);
    }
    let end = rest.find(|c: char| !c.is_ascii_hexdigit()).unwrap_or(rest.len());
    assert!(end > 0 && end % 2 == 0, "these are no bytes: {rest}");
    let digits = (0..end).step_by(2).map(|i| u8::from_str_radix(&rest[i..i + 2], 16).expect("two digits"));
    (digits.collect(), &rest[end..])
}

fn repeats(rest: &str) -> (usize, &str) {
    match rest.strip_prefix('*') {
        Some(after) => {
            let end = after.find(|c: char| !c.is_ascii_digit()).unwrap_or(after.len());
            (after[..end].parse().expect("a number after the star"), &after[end..])
        }
        None => (1, rest),
    }
}

/// How the manual writes a key or a value.
pub fn spell(bytes: &[u8]) -> String {
    if bytes.iter().all(|byte| (0x20..0x7f).contains(byte) && *byte != b'"') {
        return format!("\"{}\"", String::from_utf8_lossy(bytes));
    }
    hex(bytes)
}

/// Bytes in hexadecimal.
pub fn hex(bytes: &[u8]) -> String {
    bytes.iter().map(|byte| format!("{byte:02x}")).collect()
}

/// A number in decimal, with commas or without, or in hexadecimal after 0x.
pub fn number(spelled: &str) -> u64 {
    let parsed = match spelled.strip_prefix("0x") {
        Some(digits) => u64::from_str_radix(digits, 16),
        None => spelled.replace(',', "").parse(),
    };
    parsed.unwrap_or_else(|_| panic!("this is no number: {spelled}"))
}

/// How the manual writes a number: in decimal with commas, a large one in hexadecimal.
pub fn spell_number(number: u64) -> String {
    match number {
        0..=0xffff_ffff => thousands(number),
        _ => format!("0x{number:016x}"),
    }
}

fn thousands(number: u64) -> String {
    match number {
        0..=999 => number.to_string(),
        _ => format!("{},{:03}", thousands(number / 1000), number % 1000),
    }
}

pub fn spell_signed(number: i64) -> String {
    let sign = if number < 0 { "-" } else { "" };
    sign.to_string() + &spell_number(number.unsigned_abs())
}
