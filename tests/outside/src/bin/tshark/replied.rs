//! Replies that the library gave, each with what it has to say.

use contacts::{opcode, Fields, Mode, State, Tally, REPLY_ROOM};

use crate::written::{start_key, stored, Written};

const ROWS: usize = 4;

pub struct Replied {
    pub to: Fields,
    pub value: Vec<u8>,
    pub frame: Vec<u8>,
}

/// To document 004's Get Keys: two of three keys, and none.
pub fn replies() -> Vec<Replied> {
    let listing = b"\0\0\0\x0astart_key1\0\0\0\x0astart_key2";
    vec![to_start_key(&["start_key3", "start_key2", "start_key1"], listing), to_start_key(&[], b"")]
}

/// The reply on a table with these keys, and the value that is due.
fn to_start_key(keys: &[&str], value: &[u8]) -> Replied {
    let asked = start_key();
    let mut table = vec![0; contacts::size(ROWS).expect("1 to 256 rows")];
    contacts::make(&mut table, ROWS, State::Active, Mode::Revision, asked.fields.vbucket).expect("the size is right");
    for key in keys {
        let fields = Fields { opcode: opcode::SET, ..asked.fields };
        serve(&mut table, &Written { fields, extras: stored(), key: key.as_bytes().to_vec(), value: vec![] });
    }
    Replied { to: asked.fields, value: value.to_vec(), frame: serve(&mut table, &asked) }
}

fn serve(table: &mut [u8], request: &Written) -> Vec<u8> {
    let mut reply = [0; REPLY_ROOM];
    let served = contacts::serve(table, 0, &request.frame(), &mut reply, &mut Tally::default());
    served.expect("a whole frame on a sound table is served").reply.to_vec()
}
