//! The options in the extras of with-meta commands.

/// Retired: a request with it gets status 0x83. It is taken in the replay of an old trace alone.
pub const FORCE: u32 = 0x01;
/// Required in last-write-wins, refused in revision mode.
pub const FORCE_ACCEPT: u32 = 0x02;
/// The stored CAS is the mark and one; only together with [`SKIP_CONFLICT`].
pub const REGENERATE_CAS: u32 = 0x04;
/// No comparison.
pub const SKIP_CONFLICT: u32 = 0x08;
