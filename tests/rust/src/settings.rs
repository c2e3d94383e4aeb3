//! What the environment may set.

/// `CONTACTS_SEED`: where the random numbers start.
pub fn seed() -> u64 {
    setting("CONTACTS_SEED", 2_592_000)
}

/// `CONTACTS_CALLS`: how many calls are compared.
pub fn calls() -> u64 {
    setting("CONTACTS_CALLS", 1_000_000)
}

/// `CONTACTS_LISTS`: how many lists of writes are merged.
pub fn lists() -> usize {
    setting("CONTACTS_LISTS", 1_000) as usize
}

/// `CONTACTS_TRACES`: how many traces are compared.
pub fn traces() -> u64 {
    setting("CONTACTS_TRACES", 20_000)
}

fn setting(name: &str, otherwise: u64) -> u64 {
    match std::env::var(name) {
        Ok(text) => text.parse().unwrap_or_else(|_| panic!("{name} is no number: {text}")),
        Err(_) => otherwise,
    }
}
