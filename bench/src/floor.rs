//! The floor under every call: one pass over the table's memory, which the damage test has to read whole.

/// Every byte ORed into one, by 32-byte vectors where the machine has them.
pub fn pass(memory: &[u8]) -> u8 {
    if is_x86_feature_detected!("avx2") {
        // The machine has just been found to have what the function is compiled for.
        unsafe { pass_avx2(memory) }
    } else {
        or(memory)
    }
}

#[target_feature(enable = "avx2")]
fn pass_avx2(memory: &[u8]) -> u8 {
    or(memory)
}

#[inline(always)]
fn or(memory: &[u8]) -> u8 {
    memory.iter().fold(0, |seen, byte| seen | byte)
}
