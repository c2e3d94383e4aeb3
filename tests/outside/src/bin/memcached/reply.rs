//! Replies as they are received.

use contacts::FRAME_HEADER;

#[derive(Clone, Debug, PartialEq, Eq)]
pub struct Reply {
    pub magic: u8,
    pub opcode: u8,
    pub datatype: u8,
    pub status: u16,
    pub opaque: u32,
    pub cas: u64,
    pub extras: Vec<u8>,
    pub key: Vec<u8>,
    pub value: Vec<u8>,
}

impl Reply {
    /// Takes the reply at the start of the bytes, if all of it is there.
    pub fn take(bytes: &mut Vec<u8>) -> Option<Reply> {
        let body = number(bytes.get(8..12)?) as usize;
        if bytes.len() < FRAME_HEADER + body {
            return None;
        }
        let rest = bytes.split_off(FRAME_HEADER + body);
        let frame = std::mem::replace(bytes, rest);
        let (extras, key) = (frame[4] as usize, number(&frame[2..4]) as usize);
        let (head, body) = frame.split_at(FRAME_HEADER);
        let (extras, body) = body.split_at(extras.min(body.len()));
        let (key, value) = body.split_at(key.min(body.len()));
        Some(Reply {
            magic: head[0],
            opcode: head[1],
            datatype: head[5],
            status: number(&head[6..8]) as u16,
            opaque: number(&head[12..16]) as u32,
            cas: number(&head[16..24]),
            extras: extras.to_vec(),
            key: key.to_vec(),
            value: value.to_vec(),
        })
    }
}

/// A big-endian number.
pub fn number(bytes: &[u8]) -> u64 {
    bytes.iter().fold(0, |n, &byte| n << 8 | u64::from(byte))
}
