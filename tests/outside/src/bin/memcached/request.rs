//! Requests as they are sent, wrong ones too.

use contacts::opcode;

/// The CAS in a request's header. Each side has its own numbers, so it is named by what a side's replies carried.
#[derive(Clone, Copy, Debug, PartialEq, Eq)]
pub enum HeaderCas {
    None,
    /// The last that a reply carried for the key.
    Last,
    /// The one that a reply carried before the last.
    Earlier,
    /// One that no document has.
    Other,
}

impl HeaderCas {
    pub const ALL: [HeaderCas; 4] = [HeaderCas::None, HeaderCas::Last, HeaderCas::Earlier, HeaderCas::Other];
}

/// The lengths that a header says, where they aren't those of its parts.
#[derive(Clone, Copy, Debug)]
pub struct Lengths {
    pub extras: u8,
    pub key: u16,
}

#[derive(Clone, Debug)]
pub struct Request {
    pub magic: u8,
    pub opcode: u8,
    pub datatype: u8,
    pub vbucket: u16,
    pub cas: HeaderCas,
    pub extras: Vec<u8>,
    pub key: Vec<u8>,
    pub value: Vec<u8>,
    pub said: Option<Lengths>,
}

impl Request {
    pub fn key(self, key: &[u8]) -> Self {
        Request { key: key.to_vec(), ..self }
    }

    pub fn extras(self, extras: &[u8]) -> Self {
        Request { extras: extras.to_vec(), ..self }
    }

    pub fn value(self, value: &[u8]) -> Self {
        Request { value: value.to_vec(), ..self }
    }

    pub fn cas(self, cas: HeaderCas) -> Self {
        Request { cas, ..self }
    }

    pub fn datatype(self, datatype: u8) -> Self {
        Request { datatype, ..self }
    }

    pub fn vbucket(self, vbucket: u16) -> Self {
        Request { vbucket, ..self }
    }

    pub fn magic(self, magic: u8) -> Self {
        Request { magic, ..self }
    }

    pub fn said(self, extras: u8, key: u16) -> Self {
        Request { said: Some(Lengths { extras, key }), ..self }
    }

    /// The same request in its quiet form, if it has one.
    pub fn quiet(self) -> Self {
        let opcode = match self.opcode {
            opcode::GET => opcode::GETQ,
            opcode::GETK => opcode::GETKQ,
            loud @ 0x01..=0x08 => loud + 0x10,
            loud @ opcode::APPEND..=opcode::PREPEND => loud + 0x0b,
            loud @ (0x1d | 0x23 | 0xa2 | 0xa4 | 0xa8) => loud + 1,
            other => other,
        };
        Request { opcode, ..self }
    }

    /// The status that no reply means: a quiet get found nothing, another quiet command is done.
    pub fn silence(&self) -> Option<u16> {
        match self.opcode {
            opcode::GETQ | opcode::GETKQ | 0x1e | 0x24 => Some(0x01),
            0x11..=0x1a | 0xa3 | 0xa5 | 0xa9 => Some(0x00),
            _ => None,
        }
    }

    pub fn body(&self) -> usize {
        self.extras.len() + self.key.len() + self.value.len()
    }

    pub fn bytes(&self, opaque: u32, cas: u64) -> Vec<u8> {
        let lengths = self.lengths();
        let mut frame = vec![self.magic, self.opcode];
        frame.extend(lengths.key.to_be_bytes());
        frame.extend([lengths.extras, self.datatype]);
        frame.extend(self.vbucket.to_be_bytes());
        frame.extend((self.body() as u32).to_be_bytes());
        frame.extend(opaque.to_be_bytes());
        frame.extend(cas.to_be_bytes());
        for part in [&self.extras, &self.key, &self.value] {
            frame.extend(part);
        }
        frame
    }

    pub fn lengths(&self) -> Lengths {
        self.said.unwrap_or(Lengths { extras: self.extras.len() as u8, key: self.key.len() as u16 })
    }

    pub fn is_counter(&self) -> bool {
        matches!(self.opcode, opcode::INCREMENT | opcode::DECREMENT | opcode::INCREMENTQ | opcode::DECREMENTQ)
    }

    pub fn is_join(&self) -> bool {
        matches!(self.opcode, opcode::APPEND | opcode::PREPEND | opcode::APPENDQ | opcode::PREPENDQ)
    }

    pub fn is_touch(&self) -> bool {
        matches!(self.opcode, opcode::TOUCH | opcode::GET_AND_TOUCH)
    }

    pub fn is_get(&self) -> bool {
        matches!(self.opcode, opcode::GET | opcode::GETQ | opcode::GETK | opcode::GETKQ)
    }
}

/// A header alone.
pub fn bare(opcode: u8) -> Request {
    Request {
        magic: 0x80,
        opcode,
        datatype: 0,
        vbucket: 0,
        cas: HeaderCas::None,
        extras: vec![],
        key: vec![],
        value: vec![],
        said: None,
    }
}

pub fn get(key: &[u8]) -> Request {
    bare(opcode::GET).key(key)
}

pub fn getk(key: &[u8]) -> Request {
    bare(opcode::GETK).key(key)
}

pub fn delete(key: &[u8]) -> Request {
    bare(opcode::DELETE).key(key)
}

pub fn set(key: &[u8], value: &[u8]) -> Request {
    store(opcode::SET, key, value)
}

/// Set, Add or Replace with some flags, and never expiring.
pub fn store(opcode: u8, key: &[u8], value: &[u8]) -> Request {
    bare(opcode).extras(&stored(0xdead_beef, 0)).key(key).value(value)
}

/// The extras of Set, Add and Replace.
pub fn stored(flags: u32, expiry: u32) -> Vec<u8> {
    [flags.to_be_bytes(), expiry.to_be_bytes()].concat()
}

/// Append or Prepend.
pub fn join(opcode: u8, key: &[u8], value: &[u8]) -> Request {
    bare(opcode).key(key).value(value)
}

/// Touch or Get-and-touch.
pub fn touch(opcode: u8, key: &[u8], expiry: u32) -> Request {
    bare(opcode).extras(&expiry.to_be_bytes()).key(key)
}

/// Increment or Decrement.
pub fn count(opcode: u8, key: &[u8], delta: u64, initial: u64, expiry: u32) -> Request {
    bare(opcode).extras(&counted(delta, initial, expiry)).key(key)
}

/// The extras of Increment and Decrement.
pub fn counted(delta: u64, initial: u64, expiry: u32) -> Vec<u8> {
    [&delta.to_be_bytes()[..], &initial.to_be_bytes(), &expiry.to_be_bytes()].concat()
}
