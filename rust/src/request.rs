//! Reading and writing request frames.

use crate::{raw, Cas, Outcome, Refusal, Status, WriteRefusal};

/// The fields of a request's header, lengths left out.
#[derive(Clone, Copy, Debug, Default, PartialEq, Eq, Hash)]
pub struct Fields {
    /// The command, as in [`opcode`](crate::opcode).
    pub opcode: u8,
    /// 0.
    pub datatype: u8,
    /// The vbucket that the key belongs to.
    pub vbucket: u16,
    /// Echoed in the reply.
    pub opaque: u32,
    /// The CAS that the document has to have, for a write other than a touch; 0 asks for none.
    pub cas: Cas,
}

/// A request, with its parts in the received bytes.
#[derive(Clone, Copy, Debug, PartialEq, Eq, Hash)]
pub struct Request<'a> {
    /// The header's fields.
    pub fields: Fields,
    /// The extras as sent.
    pub extras: &'a [u8],
    /// The key.
    pub key: &'a [u8],
    /// The value, with the extended meta at its end.
    pub value: &'a [u8],
    /// How many bytes of the value are extended meta.
    pub meta: usize,
}

/// Reads the request at the start of the received bytes. Bytes after the frame are no error.
///
/// # Errors
///
/// In this order: outcomes 1, 2 and 3 as [`serve`](crate::serve) has them; statuses 0x83 and 0x81 by the opcode; 0x04 by
/// the command's form and field rules, but for the two that need mode or clock; 0x83 for a with-meta request's option
/// [`FORCE`](crate::option::FORCE); 0x03.
pub fn read_request(received: &[u8]) -> Result<Request<'_>, Refusal> {
    let answer = raw::read_request(received);
    if let Some(outcome) = Outcome::from_number(answer.outcome) {
        return Err(Refusal::Outcome(outcome));
    }
    let status = Status::known(answer.status);
    if status != Status::Success {
        return Err(Refusal::Status(status));
    }
    Ok(Request {
        fields: Fields {
            opcode: answer.opcode,
            datatype: answer.datatype,
            vbucket: answer.vbucket,
            opaque: answer.opaque,
            cas: Cas(answer.cas),
        },
        extras: answer.extras.of(received),
        key: answer.key.of(received),
        value: answer.value.of(received),
        meta: answer.meta,
    })
}

/// Writes a request's frame at the start of the output and gives its length. Bytes past the frame are unchanged.
/// [`FRAME_MAX`](crate::FRAME_MAX) bytes are room enough for every frame.
///
/// # Errors
///
/// [`WriteRefusal::Invalid`] exactly if [`read_request`] would refuse the frame or no header holds its lengths, then
/// [`WriteRefusal::Room`] exactly if the frame is longer than the output, which is then unchanged.
pub fn write_request(
    fields: &Fields,
    extras: &[u8],
    key: &[u8],
    value: &[u8],
    out: &mut [u8],
) -> Result<usize, WriteRefusal> {
    let answer = raw::write_request(fields, extras, key, value, out);
    if answer.status != 0 {
        return Err(WriteRefusal::Invalid);
    }
    if answer.outcome != 0 {
        return Err(WriteRefusal::Room);
    }
    Ok(answer.len)
}
