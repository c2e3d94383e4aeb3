//! "One fixed table of 256 entries gives every opcode's shape: extras size, key, value, quiet."

use super::request::EXTRAS_OF_2012;
use super::status::Status;

#[derive(Clone, Copy, Debug, PartialEq, Eq)]
pub enum Command {
    Get,
    GetK,
    Set,
    Add,
    Replace,
    Delete,
    Increment,
    Decrement,
    Noop,
    Version,
    SetWithMeta,
    AddWithMeta,
    DeleteWithMeta,
    GetKeys,
    Append,
    Prepend,
    Touch,
    GetAndTouch,
}

#[derive(Clone, Copy, Debug, PartialEq, Eq)]
pub enum Presence {
    Must,
    May,
    MustNot,
}

#[derive(Clone, Copy, Debug)]
pub struct Shape {
    pub command: Command,
    /// The sizes that the extras may have.
    pub extras: &'static [usize],
    pub key: Presence,
    /// The value before the extended meta.
    pub value: Presence,
    /// The one status on which nothing is sent.
    pub silent: Option<u8>,
}

/// The shape of an opcode, or status 1 of the list: "0x83: opcodes (hexadecimal) 07, 08, 0e, 0f, 10, 17 to 1a. 0x81:
/// every other opcode not in the next section." Order 1: "This amends 01's opcode list and the 256-entry table." Order 4:
/// "0x83 loses 0e, 0f, 19 and 1a from its list."
pub fn shape(opcode: u8) -> Result<Shape, Status> {
    use Command::*;
    let (command, silent) = match opcode {
        0x00 => (Get, None),
        // "The quiet two send nothing on 0x01."
        0x09 => (Get, Some(Status::NotFound as u8)),
        0x0c => (GetK, None),
        0x0d => (GetK, Some(Status::NotFound as u8)),
        0x01 => (Set, None),
        // "Quiet writes send nothing on status 0."
        0x11 => (Set, Some(0)),
        0x02 => (Add, None),
        0x12 => (Add, Some(0)),
        0x03 => (Replace, None),
        0x13 => (Replace, Some(0)),
        0x04 => (Delete, None),
        0x14 => (Delete, Some(0)),
        0x05 => (Increment, None),
        0x15 => (Increment, Some(0)),
        0x06 => (Decrement, None),
        0x16 => (Decrement, Some(0)),
        0x0a => (Noop, None),
        0x0b => (Version, None),
        0xa2 => (SetWithMeta, None),
        0xa3 => (SetWithMeta, Some(0)),
        0xa4 => (AddWithMeta, None),
        0xa5 => (AddWithMeta, Some(0)),
        0xa8 => (DeleteWithMeta, None),
        0xa9 => (DeleteWithMeta, Some(0)),
        // Order 1: "Add Get Keys, opcode 0xb8"
        0xb8 => (GetKeys, None),
        // Order 4: "Add 0e/19, 0f/1a [...] and Touch 0x1c and Get-and-touch 0x1d"
        0x0e => (Append, None),
        0x19 => (Append, Some(0)),
        0x0f => (Prepend, None),
        0x1a => (Prepend, Some(0)),
        0x1c => (Touch, None),
        0x1d => (GetAndTouch, None),
        0x07 | 0x08 | 0x10 | 0x17 | 0x18 => return Err(Status::Unbuilt),
        _ => return Err(Status::Unknown),
    };
    Ok(of_command(command, silent))
}

/// Order 8: "Extras length 25 selects it, 24, 26, 28 and 30 the present one; both stay."
const WITH_META: [usize; 5] = [24, EXTRAS_OF_2012, 26, 28, 30];

fn of_command(command: Command, silent: Option<u8>) -> Shape {
    use Command::*;
    use Presence::*;
    let (extras, key, value): (&[usize], _, _) = match command {
        // "key only"
        Get | GetK | Delete => (&[0], Must, MustNot),
        // "8 extras (flags, expiry), key, any value"
        Set | Add | Replace => (&[8], Must, May),
        // "20 extras (delta, initial, expiry), key"
        Increment | Decrement => (&[20], Must, MustNot),
        // "nothing after the header"
        Noop | Version => (&[0], MustNot, MustNot),
        // "for Set and Add, no value byte before the extended meta; for Delete, such a byte"
        SetWithMeta | AddWithMeta => (&WITH_META, Must, Must),
        DeleteWithMeta => (&WITH_META, Must, MustNot),
        // Order 1: "optional start key, optional 4-byte count [...] No value"
        GetKeys => (&[0, 4], May, MustNot),
        // Order 4: "key and a value of any length, no extras"
        Append | Prepend => (&[0], Must, May),
        // Order 4: "4 extras: expiry"
        Touch | GetAndTouch => (&[4], Must, MustNot),
    };
    Shape { command, extras, key, value, silent }
}
