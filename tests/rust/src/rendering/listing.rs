//! Order 1 of document 02, Get Keys: the live keys from a start on, as the reply's value.

use super::table::Table;

/// "before the first key that would carry the value past 1,278 bytes"
pub const MAX_LISTING: usize = 1_278;

/// "The reply value is, per key, a 4-byte length and the bytes. [...] Exactly the live keys at or after the start key,
/// in byte order, each once, stopping at the count or before the first key that would carry the value past 1,278 bytes.
/// None found is [...] an empty value. [...] a prefix sorts first". Every key is at or after an empty start.
pub fn listing(table: &Table, clock: u32, start: &[u8], count: u32) -> Vec<u8> {
    let live = table.rows().flatten().filter(|row| row.live(clock));
    let mut keys: Vec<&[u8]> = live.map(|row| row.key).filter(|&key| key >= start).collect();
    keys.sort_unstable();
    let mut value = Vec::with_capacity(MAX_LISTING);
    for key in keys.into_iter().take(count as usize) {
        if value.len() + 4 + key.len() > MAX_LISTING {
            break;
        }
        value.extend((key.len() as u32).to_be_bytes());
        value.extend(key);
    }
    value
}
