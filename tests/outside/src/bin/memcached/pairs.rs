//! Which CAS of ours is which of memcached's. The numbers differ, but where a side's change, the other's do.

use std::collections::HashMap;

use crate::request::HeaderCas;

#[derive(Default)]
pub struct Pairs {
    theirs: HashMap<u64, u64>,
    ours: HashMap<u64, u64>,
    /// The pairs that the replies for a key carried, the last at the end.
    carried: HashMap<Vec<u8>, Vec<(u64, u64)>>,
}

/// A CAS that neither side reaches.
const OTHER: u64 = 0x7fff_0000_0000_0000;

impl Pairs {
    /// Whether two replies for a key carry the same: both no CAS, or one that stands for the other wherever it is seen.
    pub fn agree(&mut self, key: &[u8], ours: u64, theirs: u64) -> bool {
        if ours == 0 || theirs == 0 {
            return ours == theirs;
        }
        let carried = self.carried.entry(key.to_vec()).or_default();
        if carried.last() != Some(&(ours, theirs)) {
            carried.push((ours, theirs));
        }
        *self.theirs.entry(ours).or_insert(theirs) == theirs && *self.ours.entry(theirs).or_insert(ours) == ours
    }

    /// Lets our new CAS for a key stand for memcached's, which stays where a touch gives us another.
    pub fn touch(&mut self, key: &[u8], ours: u64, theirs: u64) {
        self.theirs.insert(ours, theirs);
        self.ours.insert(theirs, ours);
        let carried = self.carried.entry(key.to_vec()).or_default();
        carried.retain(|(_, other)| *other != theirs);
        carried.push((ours, theirs));
    }

    /// The CAS of a request's header, for us and for memcached.
    pub fn header(&self, key: &[u8], cas: HeaderCas) -> (u64, u64) {
        let carried = self.carried.get(key).map_or(&[][..], Vec::as_slice);
        let back = match cas {
            HeaderCas::None => return (0, 0),
            HeaderCas::Other => return (OTHER, OTHER),
            HeaderCas::Last => 1,
            HeaderCas::Earlier => 2,
        };
        carried.len().checked_sub(back).map_or((OTHER, OTHER), |at| carried[at])
    }
}
