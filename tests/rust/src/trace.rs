//! Traces built freely, by no rule but the layout.

use crate::rendering::bytes::u16_at;
use crate::rendering::voyage::{BOUND, CLOCK, FIELD_HEADER, FRAME, OPENING, REPLY, RULE};

#[derive(Clone, Debug, PartialEq, Eq)]
pub struct Field {
    pub tag: u8,
    pub value: Vec<u8>,
}

impl Field {
    pub fn new(tag: u8, value: &[u8]) -> Field {
        Field { tag, value: value.to_vec() }
    }

    pub fn clock(clock: u32) -> Field {
        Field::new(CLOCK, &clock.to_be_bytes())
    }

    pub fn frame(frame: &[u8]) -> Field {
        Field::new(FRAME, frame)
    }

    pub fn reply(reply: &[u8]) -> Field {
        Field::new(REPLY, reply)
    }

    pub fn bound(bound: u64) -> Field {
        Field::new(BOUND, &bound.to_be_bytes())
    }

    /// 1 for the old rule, 2 for the new.
    pub fn rule(rule: u8) -> Field {
        Field::new(RULE, &[rule])
    }

    /// How many bytes of a trace it takes.
    pub fn size(&self) -> usize {
        FIELD_HEADER + self.value.len()
    }
}

/// An opening, fields one after another, and the bytes after the last whole one.
#[derive(Clone, Debug, Default, PartialEq, Eq)]
pub struct Trace {
    pub opening: Vec<u8>,
    pub fields: Vec<Field>,
    pub rest: Vec<u8>,
}

impl Trace {
    pub fn open(mode: u8, vbucket: u16) -> Trace {
        let opening = [&[mode], &vbucket.to_be_bytes()[..]].concat();
        Trace { opening, ..Trace::default() }
    }

    pub fn with(mut self, fields: impl IntoIterator<Item = Field>) -> Trace {
        self.fields.extend(fields);
        self
    }

    /// The trace that these bytes are.
    pub fn read(bytes: &[u8]) -> Trace {
        let (opening, mut rest) = bytes.split_at(bytes.len().min(OPENING));
        let mut fields = Vec::new();
        while let Some(value) = first_value(rest) {
            fields.push(Field::new(rest[0], value));
            rest = &rest[FIELD_HEADER + value.len()..];
        }
        Trace { opening: opening.to_vec(), fields, rest: rest.to_vec() }
    }

    /// How many bytes it takes.
    pub fn size(&self) -> usize {
        self.opening.len() + self.fields.iter().map(Field::size).sum::<usize>() + self.rest.len()
    }

    /// Where the field with this number has its tag.
    pub fn place(&self, number: usize) -> usize {
        self.opening.len() + self.fields[..number].iter().map(Field::size).sum::<usize>()
    }

    /// The trace's bytes; lengths that a field can't hold are cut to it.
    pub fn bytes(&self) -> Vec<u8> {
        let mut bytes = Vec::with_capacity(self.size());
        bytes.extend(&self.opening);
        for Field { tag, value } in &self.fields {
            bytes.push(*tag);
            bytes.extend((value.len() as u16).to_be_bytes());
            bytes.extend(value);
        }
        bytes.extend(&self.rest);
        bytes
    }
}

/// The value of the field at the start, if all of it is there.
fn first_value(rest: &[u8]) -> Option<&[u8]> {
    let length = rest.get(..FIELD_HEADER).map(|header| usize::from(u16_at(header, 1)))?;
    rest.get(FIELD_HEADER..FIELD_HEADER + length)
}
