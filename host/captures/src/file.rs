//! The frames of a capture file, classic pcap or pcapng.

/// A captured frame and the link type that its file gives.
#[derive(Clone, Copy, Debug, PartialEq, Eq)]
pub struct Frame<'a> {
    pub link_type: u16,
    pub bytes: &'a [u8],
}

/// The frames of a file, up to the first one that is cut; none if it is not
/// a capture file.
pub fn frames(file: &[u8]) -> Option<Vec<Frame<'_>>> {
    match file.first_chunk()? {
        [0xD4, 0xC3, 0xB2, 0xA1] => pcap(file, u32::from_le_bytes),
        [0xA1, 0xB2, 0xC3, 0xD4] => pcap(file, u32::from_be_bytes),
        [0x0A, 0x0D, 0x0D, 0x0A] => match file.get(8..12)? {
            [0x4D, 0x3C, 0x2B, 0x1A] => Some(pcapng(file, u32::from_le_bytes)),
            _ => Some(pcapng(file, u32::from_be_bytes)),
        },
        _ => None,
    }
}

/// Reads four bytes in the file's byte order.
type Order = fn([u8; 4]) -> u32;

fn number(bytes: &[u8], at: usize, order: Order) -> Option<u32> {
    Some(order(*bytes.get(at..)?.first_chunk()?))
}

/// A file header of 24 bytes, then records of 16 bytes and the frame.
fn pcap(file: &[u8], order: Order) -> Option<Vec<Frame<'_>>> {
    let link_type = number(file, 20, order)? as u16;
    let mut frames = Vec::new();
    let mut at = 24;
    while let Some(length) = number(file, at + 8, order) {
        let Some(bytes) = file.get(at + 16..at + 16 + length as usize) else {
            break;
        };
        frames.push(Frame { link_type, bytes });
        at += 16 + length as usize;
    }
    Some(frames)
}

const INTERFACE: u32 = 1;
const ENHANCED_PACKET: u32 = 6;

/// Blocks of a type, a length, contents and the length again.
fn pcapng(file: &[u8], order: Order) -> Vec<Frame<'_>> {
    let mut interfaces = Vec::new();
    let mut frames = Vec::new();
    let mut at = 0;
    while let Some(block) = block(file, at, order) {
        match number(block, 0, order) {
            // The link type is the first half of this word in file order.
            Some(INTERFACE) => interfaces.push(short(block, 8, order)),
            Some(ENHANCED_PACKET) => frames.extend(packet(block, &interfaces, order)),
            _ => {}
        }
        at += block.len();
    }
    frames
}

fn block(file: &[u8], at: usize, order: Order) -> Option<&[u8]> {
    let length = number(file, at + 4, order)? as usize;
    (length >= 12).then_some(file.get(at..at + length)?)
}

fn short(block: &[u8], at: usize, order: Order) -> u16 {
    let pair = [block[at], block[at + 1]];
    if order([0, 0, 0, 1]) == 1 {
        u16::from_be_bytes(pair)
    } else {
        u16::from_le_bytes(pair)
    }
}

fn packet<'a>(block: &'a [u8], interfaces: &[u16], order: Order) -> Option<Frame<'a>> {
    let interface = number(block, 8, order)? as usize;
    let length = number(block, 20, order)? as usize;
    Some(Frame {
        link_type: *interfaces.get(interface)?,
        bytes: block.get(28..28 + length)?,
    })
}
