//! The part of a packet that an entry names: refusal 9, by its condition.

use std::ops::Range;

use ospf_strip::{OutsidePacket, Strip, Version};

/// The part that an entry of this range names.
fn part(range: Range<u32>, packet: &[u8], offset: u64) -> Result<&[u8], OutsidePacket> {
    let places = [range.start.to_be_bytes(), range.end.to_be_bytes()].concat();
    let bytes = [vec![8, 25], places].concat();
    let strip = Strip::from_bytes(Version::V2, &bytes).expect("an entry");
    let entry = strip.entries().next().expect("an entry");
    entry.part(packet, offset)
}

/// The requirements' condition, at every small range, offset and packet length.
#[test]
fn by_its_condition() {
    let packet: Vec<u8> = (0..5).collect();
    for (offset, length) in (0..7).flat_map(|o| (0..=5).map(move |n| (o, n))) {
        for (start, end) in (0..14).flat_map(|s| (0..14).map(move |e| (s, e))) {
            let outside = start < offset || end < start || end > offset + length;
            match part(start..end, &packet[..length as usize], offset.into()) {
                Ok(part) => {
                    let first = (start - offset) as u8;
                    assert!(!outside);
                    assert!(part.iter().copied().eq(first..first + (end - start) as u8));
                }
                Err(refusal) => assert_eq!((outside, refusal.number()), (true, 9)),
            }
        }
    }
}

/// An offset near the largest number makes no sum wrap.
#[test]
fn at_large_offsets() {
    let packet = [7; 20];
    for offset in [u64::from(u32::MAX) + 1, u64::MAX - 10, u64::MAX] {
        assert_eq!(part(0..4, &packet, offset), Err(OutsidePacket));
    }
    let offset = u64::from(u32::MAX) - 10;
    let last = u32::MAX - 10..u32::MAX;
    assert_eq!(part(last, &packet, offset), Ok(&packet[..10]));
}

#[test]
fn a_close_has_none() {
    let strip = Strip::from_bytes(Version::V3, &[2]).expect("a close");
    let close = strip.entries().next().expect("a close");
    assert_eq!(close.part(&[1, 2, 3], 0), Err(OutsidePacket));
}
