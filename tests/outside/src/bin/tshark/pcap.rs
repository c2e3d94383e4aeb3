//! A capture of frames as if they had gone over TCP, one in a segment.

const SERVER: u16 = 11210;
const CLIENT: u16 = 40000;
const REPLY: u8 = 0x81;

/// The capture file, of link type Ethernet. Checksums are 0, since nobody checks them.
pub fn capture<'f>(frames: impl Iterator<Item = &'f [u8]>) -> Vec<u8> {
    let mut file = vec![];
    for word in [0xa1b2_c3d4, 0x0002_0004, 0, 0, 65535, 1u32] {
        file.extend(word.to_be_bytes());
    }
    let (mut requested, mut replied) = (1, 1);
    for (second, frame) in frames.enumerate() {
        let (ports, sequence) =
            if frame[0] == REPLY { ([SERVER, CLIENT], &mut replied) } else { ([CLIENT, SERVER], &mut requested) };
        let packet = [ethernet(), ip(frame.len()), tcp(ports, *sequence), frame.to_vec()].concat();
        for word in [second as u32, 0, packet.len() as u32, packet.len() as u32] {
            file.extend(word.to_be_bytes());
        }
        file.extend(packet);
        *sequence += frame.len() as u32;
    }
    file
}

fn ethernet() -> Vec<u8> {
    [&[0; 12][..], &[0x08, 0x00]].concat()
}

fn ip(payload: usize) -> Vec<u8> {
    let length = (40 + payload) as u16;
    [&[0x45, 0][..], &length.to_be_bytes(), &[0, 0, 0, 0, 64, 6, 0, 0], &[127, 0, 0, 1], &[127, 0, 0, 1]].concat()
}

fn tcp(ports: [u16; 2], sequence: u32) -> Vec<u8> {
    const PUSH_ACK: [u8; 2] = [0x50, 0x18];
    let ports = ports.map(u16::to_be_bytes).concat();
    [&ports[..], &sequence.to_be_bytes(), &[0, 0, 0, 1], &PUSH_ACK, &[0xff, 0xff, 0, 0, 0, 0]].concat()
}
