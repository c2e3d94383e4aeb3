//! Frames that break one rule of form, or stand at its limit.

use crate::frame::Frame;
use crate::random::Random;
use crate::rendering::request::MAX_BODY;

#[derive(Clone, Copy, Debug, PartialEq, Eq, PartialOrd, Ord)]
pub enum Fault {
    Datatype,
    ExtrasShorter,
    ExtrasLonger,
    NoExtras,
    NoKey,
    Key250,
    Key251,
    NoValue,
    OneByteValue,
    Value1024,
    Value1025,
    Body1400,
    Body1401,
    Magic,
    KeyLengthField,
    ExtrasLengthField,
    BodyFieldShort,
    BodyFieldLong,
    BodyFieldHuge,
    Cut,
    Trailing,
    Flip,
    Noise,
}

impl Fault {
    pub const ALL: [Fault; 23] = [
        Fault::Datatype,
        Fault::ExtrasShorter,
        Fault::ExtrasLonger,
        Fault::NoExtras,
        Fault::NoKey,
        Fault::Key250,
        Fault::Key251,
        Fault::NoValue,
        Fault::OneByteValue,
        Fault::Value1024,
        Fault::Value1025,
        Fault::Body1400,
        Fault::Body1401,
        Fault::Magic,
        Fault::KeyLengthField,
        Fault::ExtrasLengthField,
        Fault::BodyFieldShort,
        Fault::BodyFieldLong,
        Fault::BodyFieldHuge,
        Fault::Cut,
        Fault::Trailing,
        Fault::Flip,
        Fault::Noise,
    ];

    /// Those that the writer's fields can express: the ones before the magic.
    pub const OF_FIELDS: &'static [Fault] = Fault::ALL.split_at(Fault::Magic as usize).0;

    /// The frame with the fault in its fields; unchanged where the fault is one of the bytes.
    pub fn applied(self, mut frame: Frame, random: &mut Random) -> Frame {
        match self {
            Fault::Datatype => frame.datatype = *random.pick(&[1, 2, 0x80, 0xff]),
            Fault::ExtrasShorter => frame.extras.truncate(frame.extras.len().saturating_sub(1)),
            Fault::ExtrasLonger => frame.extras.push(random.byte()),
            Fault::NoExtras => frame.extras.clear(),
            Fault::NoKey => frame.key.clear(),
            Fault::Key250 => frame.key.resize(250, b'x'),
            Fault::Key251 => frame.key.resize(251, b'x'),
            Fault::NoValue => resize_value(&mut frame, 0),
            Fault::OneByteValue => resize_value(&mut frame, 1),
            Fault::Value1024 => resize_value(&mut frame, 1_024),
            Fault::Value1025 => resize_value(&mut frame, 1_025),
            Fault::Body1400 => resize_body(&mut frame, MAX_BODY),
            Fault::Body1401 => resize_body(&mut frame, MAX_BODY + 1),
            _ => {}
        }
        frame
    }

    /// The received bytes of the frame with the fault.
    pub fn received(self, frame: Frame, random: &mut Random) -> Vec<u8> {
        let frame = self.applied(frame, random);
        let mut bytes = frame.bytes();
        match self {
            Fault::Magic => bytes[0] = *random.pick(&[0x81, 0x08, 0x00, 0x7f, 0xff, 0x82]),
            Fault::KeyLengthField => put_length(&mut bytes, 2, 2, random),
            Fault::ExtrasLengthField => put_length(&mut bytes, 4, 1, random),
            Fault::BodyFieldShort => put_body(&mut bytes, |body| body.saturating_sub(1)),
            Fault::BodyFieldLong => put_body(&mut bytes, |body| body + 1),
            Fault::BodyFieldHuge => bytes[8 + random.below(3)] = random.byte() | 1,
            Fault::Cut => bytes.truncate(cut(&frame, bytes.len(), random)),
            Fault::Trailing => bytes.extend(random.bytes(30)),
            Fault::Flip => {
                let at = random.below(bytes.len());
                bytes[at] ^= 1 << random.below(8);
            }
            Fault::Noise => {
                let length = random.below(200);
                bytes = random.bytes(length);
            }
            _ => {}
        }
        bytes
    }
}

/// Gives the value before the extended meta this length.
fn resize_value(frame: &mut Frame, length: usize) {
    let meta = frame.value.split_off(frame.value.len() - meta_length(frame));
    frame.value.resize(length, b'7');
    frame.value.extend(meta);
}

fn resize_body(frame: &mut Frame, body: usize) {
    let rest = body.saturating_sub(frame.extras.len() + frame.key.len() + meta_length(frame));
    resize_value(frame, rest);
}

/// The extended meta's length as the extras say it, no longer than what is there.
fn meta_length(frame: &Frame) -> usize {
    let said = match (frame.opcode, frame.extras.len()) {
        (0xa2..=0xa9, length @ (26 | 30)) => {
            usize::from(frame.extras[length - 2]) << 8 | usize::from(frame.extras[length - 1])
        }
        _ => 0,
    };
    said.min(frame.value.len())
}

/// One more or less in a header's length field, or any number.
fn put_length(bytes: &mut [u8], at: usize, width: usize, random: &mut Random) {
    let last = at + width - 1;
    match random.below(4) {
        0 => bytes[last] = bytes[last].wrapping_add(1),
        1 => bytes[last] = bytes[last].wrapping_sub(1),
        2 => bytes[at..=last].fill(0xff),
        _ => bytes[at] = random.byte(),
    }
}

fn put_body(bytes: &mut [u8], change: impl Fn(u32) -> u32) {
    let mut body = [0; 4];
    body.copy_from_slice(&bytes[8..12]);
    bytes[8..12].copy_from_slice(&change(u32::from_be_bytes(body)).to_be_bytes());
}

/// A place to cut: in the header, at its end, after the extras, after the key, before the last byte, anywhere.
fn cut(frame: &Frame, length: usize, random: &mut Random) -> usize {
    let extras_end = 24 + frame.extras.len();
    let places = [0, 1, 12, 23, 24, extras_end, extras_end + frame.key.len(), length - 1, random.below(length)];
    *random.pick(&places)
}
