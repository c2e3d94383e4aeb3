//! The statuses other than 0, in the order tested; order 9 gives 0x83 a second place, after 0x04.

#[derive(Clone, Copy, Debug, PartialEq, Eq)]
#[repr(u8)]
pub enum Status {
    Unbuilt = 0x83,
    Unknown = 0x81,
    Invalid = 0x04,
    TooLarge = 0x03,
    NotMyVbucket = 0x07,
    NotFound = 0x01,
    NotStored = 0x05,
    Exists = 0x02,
    NotANumber = 0x06,
    CannotGrow = 0x84,
    NoRow = 0x82,
}

impl Status {
    /// Nothing where the rule is kept, this status where it is broken.
    pub fn unless(self, kept: bool) -> Result<(), Status> {
        if kept {
            Ok(())
        } else {
            Err(self)
        }
    }
}
