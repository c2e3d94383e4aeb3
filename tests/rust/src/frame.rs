//! Request frames built freely, by no rule but the layout.

use crate::answers::Fields;

#[derive(Clone, Debug, Default, PartialEq, Eq)]
pub struct Frame {
    pub opcode: u8,
    pub datatype: u8,
    pub vbucket: u16,
    pub opaque: u32,
    pub cas: u64,
    pub extras: Vec<u8>,
    pub key: Vec<u8>,
    pub value: Vec<u8>,
}

impl Frame {
    /// The frame's bytes; lengths that the header can't hold are cut to its fields.
    pub fn bytes(&self) -> Vec<u8> {
        let body = [&self.extras[..], &self.key, &self.value].concat();
        let mut bytes = vec![0x80, self.opcode];
        bytes.extend((self.key.len() as u16).to_be_bytes());
        bytes.extend([self.extras.len() as u8, self.datatype]);
        bytes.extend(self.vbucket.to_be_bytes());
        bytes.extend((body.len() as u32).to_be_bytes());
        bytes.extend(self.opaque.to_be_bytes());
        bytes.extend(self.cas.to_be_bytes());
        bytes.extend(body);
        bytes
    }

    pub fn fields(&self) -> Fields<'_> {
        Fields {
            opcode: self.opcode,
            datatype: self.datatype,
            vbucket: self.vbucket,
            opaque: self.opaque,
            cas: self.cas,
            extras: &self.extras,
            key: &self.key,
            value: &self.value,
        }
    }
}

/// The extras of Set, Add and Replace.
pub fn plain_extras(flags: u32, expiry: u32) -> Vec<u8> {
    [flags.to_be_bytes(), expiry.to_be_bytes()].concat()
}

/// The extras of Increment and Decrement.
pub fn counter_extras(delta: u64, initial: u64, expiry: u32) -> Vec<u8> {
    let mut extras = [delta.to_be_bytes(), initial.to_be_bytes()].concat();
    extras.extend(expiry.to_be_bytes());
    extras
}

/// The extras of Touch and Get-and-touch.
pub fn touch_extras(expiry: u32) -> Vec<u8> {
    expiry.to_be_bytes().to_vec()
}

/// The with-meta extras of 2012, with the CAS before the revision.
pub fn meta_extras_of_2012((flags, expiry, revision, cas): (u32, u32, u64, u64), nru: u8) -> Vec<u8> {
    let mut extras = plain_extras(flags, expiry);
    extras.extend(cas.to_be_bytes());
    extras.extend(revision.to_be_bytes());
    extras.push(nru);
    extras
}

/// The with-meta extras: 24 bytes, and the options and the meta length where given.
pub fn meta_extras(
    (flags, expiry, revision, cas): (u32, u32, u64, u64),
    options: Option<u32>,
    meta_length: Option<u16>,
) -> Vec<u8> {
    let mut extras = plain_extras(flags, expiry);
    extras.extend(revision.to_be_bytes());
    extras.extend(cas.to_be_bytes());
    extras.extend(options.map(u32::to_be_bytes).into_iter().flatten());
    extras.extend(meta_length.map(u16::to_be_bytes).into_iter().flatten());
    extras
}
