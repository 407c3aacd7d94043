//! From a frame to the OSPF packet in it.

use crate::Frame;

const BSD_LOOPBACK: u16 = 0;
const ETHERNET: u16 = 1;
const FRAME_RELAY: u16 = 107;

const IPV4: u16 = 0x0800;
const IPV6: u16 = 0x86DD;
const VLAN: u16 = 0x8100;

const OSPF: u8 = 89;
const AUTHENTICATION_HEADER: u8 = 51;

/// An OSPF packet: its version, its message type, its body and the body's
/// place in the frame. The body ends where the packet length says, or where
/// the IP payload ends if that is earlier; what follows it there may be blocks.
#[derive(Clone, Copy, Debug, PartialEq, Eq)]
pub struct Ospf<'a> {
    pub version: u8,
    pub message: u8,
    pub body: &'a [u8],
    pub place: usize,
    pub after: &'a [u8],
}

/// The OSPF packet in a frame, if there is one.
pub fn ospf<'a>(frame: &Frame<'a>) -> Option<Ospf<'a>> {
    let (network, ip) = network(frame)?;
    let (at, end) = match network {
        IPV4 => ipv4(frame.bytes, ip)?,
        IPV6 => ipv6(frame.bytes, ip)?,
        _ => return None,
    };
    let packet = frame.bytes.get(at..end)?;
    let header = match packet.first()? {
        2 => 24,
        3 => 16,
        _ => return None,
    };
    let length = usize::from(short(packet, 2)?).min(packet.len());
    Some(Ospf {
        version: packet[0],
        message: packet[1],
        body: packet.get(header..length)?,
        place: at + header,
        after: &packet[length..],
    })
}

fn short(bytes: &[u8], at: usize) -> Option<u16> {
    Some(u16::from_be_bytes(*bytes.get(at..)?.first_chunk()?))
}

/// The network protocol, as an EtherType, and where its header starts.
fn network(frame: &Frame<'_>) -> Option<(u16, usize)> {
    let bytes = frame.bytes;
    match frame.link_type {
        ETHERNET => {
            let mut at = 12;
            while short(bytes, at)? == VLAN {
                at += 4;
            }
            Some((short(bytes, at)?, at + 2))
        }
        FRAME_RELAY => {
            // The address's last byte has its low bit set.
            let at = bytes.iter().position(|byte| byte & 1 == 1)? + 1;
            Some((short(bytes, at)?, at + 2))
        }
        // The family is in the capturing machine's byte order and differs
        // for IPv6 between systems, so the IP version decides.
        BSD_LOOPBACK => match bytes.get(4)? >> 4 {
            4 => Some((IPV4, 4)),
            _ => Some((IPV6, 4)),
        },
        _ => None,
    }
}

/// Start and end of the OSPF packet in an IPv4 packet at `ip`.
fn ipv4(bytes: &[u8], ip: usize) -> Option<(usize, usize)> {
    let header = 4 * (bytes.get(ip)? & 0x0F) as usize;
    let length = short(bytes, ip + 2)? as usize;
    let fragment = short(bytes, ip + 6)? & 0x3FFF != 0;
    let ospf = *bytes.get(ip + 9)? == OSPF && !fragment;
    ospf.then_some((ip + header, bytes.len().min(ip + length)))
}

/// The same for IPv6, with or without an authentication header.
fn ipv6(bytes: &[u8], ip: usize) -> Option<(usize, usize)> {
    let length = short(bytes, ip + 4)? as usize;
    let end = bytes.len().min(ip + 40 + length);
    let mut next = *bytes.get(ip + 6)?;
    let mut at = ip + 40;
    if next == AUTHENTICATION_HEADER {
        next = *bytes.get(at)?;
        at += 4 * (*bytes.get(at + 1)? as usize + 2);
    }
    (next == OSPF).then_some((at, end))
}
