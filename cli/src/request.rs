//! One request, served on a table as a client's would be.

use crate::failure::Failure;
use crate::{layout, words};
use contacts::{Cas, Fields, Status, Tally, FRAME_HEADER, FRAME_MAX, REPLY_ROOM};

#[derive(Default)]
pub struct Request<'a> {
    pub opcode: u8,
    /// The CAS that the contact has to have; 0 asks for none.
    pub cas: u64,
    pub extras: &'a [u8],
    pub key: &'a [u8],
    pub value: &'a [u8],
}

pub struct Reply {
    pub cas: u64,
    pub value: Vec<u8>,
}

impl Request<'_> {
    /// Serves the request on a sound table, for the table's own vbucket. Where it is refused, nothing but the table's kept
    /// clock may have changed.
    pub fn serve(&self, table: &mut [u8], clock: u32) -> Result<Reply, Failure> {
        let head = layout::head(table);
        let fields = Fields { opcode: self.opcode, vbucket: head.vbucket, cas: Cas(self.cas), ..Fields::default() };
        let (mut frame, mut reply) = ([0; FRAME_MAX], [0; REPLY_ROOM]);
        let length = contacts::write_request(&fields, self.extras, self.key, self.value, &mut frame)
            .map_err(|refusal| Failure::Refused(refusal.to_string()))?;
        let served = contacts::serve(table, clock, &frame[..length], &mut reply, &mut Tally::default())
            .map_err(|stop| Failure::Refused(stop.to_string()))?;
        match served.status {
            Status::Success => Ok(read(served.reply)),
            status => Err(Failure::Refused(words::refusal(status, head.state))),
        }
    }
}

/// The reply to a command that has neither extras nor a key in it.
fn read(reply: &[u8]) -> Reply {
    let cas = reply[16..].first_chunk().expect("a reply's header");
    Reply { cas: u64::from_be_bytes(*cas), value: reply[FRAME_HEADER..].to_vec() }
}
