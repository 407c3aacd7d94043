//! The wrapper: growing the buffer, reading entries back, refusals.

mod lines;
mod walk;

use inputs::{Class, Input};
use lines::line;
use listing::hex;
use oracle::Walk;
use ospf_strip::{Buffer, Kind, OutsidePacket, Refusal, Row, Strip, Version, exports};
use walk::{run, strip_of};

/// Each strip that is accepted of generated inputs of these classes.
fn each_strip(classes: &[Class], seed: u64, mut each: impl FnMut(&Input, Strip<'_>)) {
    let mut buffer = Buffer::new();
    for &class in classes {
        inputs::of_class(class, seed, 20, &mut |input| {
            if let Ok(strip) = run(&mut buffer, &input) {
                each(&input, strip);
            }
        });
    }
}

/// Entries read back and written again by another program are the strip.
#[test]
fn entries_are_the_strip() {
    let mut strips = 0;
    let classes = [
        Class::Structured,
        Class::Damaged,
        Class::Block,
        Class::Unreachable,
    ];
    each_strip(&classes, 2, |_, strip| {
        let lines: Vec<String> = strip.into_iter().map(|e| line(&e)).collect();
        assert_eq!(listing::strip(&lines.join("\n")), strip.bytes());
        strips += 1;
    });
    assert!(strips > 1_000, "{strips}");
}

/// An open entry says how many entries stand directly inside, and no other says
/// so: counted again from the strip.
#[test]
fn counts_of_containers() {
    let (mut containers, mut empty, mut most) = (0, 0, 0);
    let classes = [
        Class::Structured,
        Class::Tos,
        Class::Prefix,
        Class::Large,
        Class::Block,
    ];
    each_strip(&classes, 2, |input, strip| {
        // What the containers that are open say, and what stands in each so far.
        let mut open: Vec<(u32, u32)> = Vec::new();
        for entry in strip {
            assert_eq!(entry.count().is_some(), entry.kind() == Kind::Open);
            if entry.kind() == Kind::Close {
                let (says, inside) = open.pop().expect("a close has an open");
                assert_eq!(says, inside, "{input:?}");
                containers += 1;
                empty += usize::from(says == 0);
                most = most.max(says);
                continue;
            }
            if let Some((_, inside)) = open.last_mut() {
                *inside += 1;
            }
            open.extend(entry.count().map(|says| (says, 0)));
        }
        assert!(open.is_empty(), "{input:?}");
    });
    assert!(containers > 50_000 && empty > 100, "{containers} {empty}");
    // The attached routers that a Network-LSA of 65,535 bytes has room for.
    assert_eq!(most, 16_377);
}

/// A new buffer and one that has held longer strips give the same.
#[test]
fn buffer_grows_and_is_used_again() {
    let mut used = Buffer::new();
    let long = vec![0; 2_000];
    let length = used
        .lsa_headers(Version::V2, &long, 0)
        .unwrap()
        .bytes()
        .len();
    assert_eq!(length, 15 + 100 * 115);
    inputs::of_class(Class::Structured, 3, 5, &mut |input| {
        let mut fresh = Buffer::new();
        assert_eq!(run(&mut used, &input), run(&mut fresh, &input));
    });
}

/// Each refusal of the exports, by its number.
#[test]
fn refusals_by_number() {
    let mut buffer = Buffer::new();
    let long = vec![0; 65_536];
    let old = [0x0E, 0x11].iter().copied().chain([0; 18]);
    let old: Vec<u8> = old.collect();
    let new = [0; 20];
    let update = [&[0; 22][..], &[0, 20]].concat();
    let mut twins = [Row::default(); 2];
    twins.iter_mut().for_each(|row| row.used = 1);
    let (v2, v3) = (Version::V2, Version::V3);
    let refusals = [
        (Version::try_from(1).unwrap_err(), Refusal::Version, 1),
        (
            buffer.lsa_headers(v2, &long, 0).unwrap_err(),
            Refusal::TooLong,
            2,
        ),
        (
            buffer.lsu_lsas(v3, &[0; 4], 0, 4_294_901_761).unwrap_err(),
            Refusal::Offset,
            3,
        ),
        (
            buffer.lsu_lsas(v3, &[0; 3], 0, 0).unwrap_err(),
            Refusal::TooShort,
            4,
        ),
        (
            buffer.lsa(v2, &[0; 19], 0).unwrap_err(),
            Refusal::TooShort,
            4,
        ),
        (
            ospf_strip::lsa_headers(v2, &[], 0, &mut [0; 14]).unwrap_err(),
            Refusal::Room { needed: 15 },
            5,
        ),
        (buffer.lls(&long, 0).unwrap_err(), Refusal::TooLong, 2),
        (
            buffer.auth_trailer(&[], 4_294_901_761).unwrap_err(),
            Refusal::Offset,
            3,
        ),
        (
            ospf_strip::lls(&[0, 0, 0, 1], 0, &mut [0; 48]).unwrap_err(),
            Refusal::Room { needed: 49 },
            5,
        ),
        (
            ospf_strip::same_prefix(128, &[], 129, &[]).unwrap_err(),
            Refusal::PrefixLength,
            10,
        ),
        (
            ospf_strip::newness(v2, &new, &old).unwrap_err(),
            Refusal::Age,
            11,
        ),
        (
            ospf_strip::checksum_is_good(&long).unwrap_err(),
            Refusal::LsaLength,
            13,
        ),
        (
            ospf_strip::make_checksum(&mut [0; 19]).unwrap_err(),
            Refusal::LsaLength,
            13,
        ),
        (
            ospf_strip::take_update(v2, &[0; 4], 0, 0, &mut twins).unwrap_err(),
            Refusal::SharedIdentity,
            14,
        ),
        (
            ospf_strip::take_update(v2, &update, 1, 0, &mut []).unwrap_err(),
            Refusal::NoFreeRow,
            15,
        ),
    ];
    for (found, refusal, number) in refusals {
        assert_eq!((found, found.number()), (refusal, number));
        assert!(!found.to_string().is_empty());
    }
}

/// The packed answers of the walks at the boundary.
#[test]
fn packed_answers() {
    let mut strip = [0xA5; 15];
    let refused = exports::ospf_lsa_headers(2, &[], 0, &mut strip[..14]);
    assert_eq!(refused, 0x05_0000_000F);
    assert_eq!(strip, [0xA5; 15]);
    assert_eq!(exports::ospf_lsa_headers(2, &[], 0, &mut strip), 15);
    assert_eq!(strip[..2], [1, 114]);
    let refused = exports::ospf_lsu_lsas(9, &[0; 4], 1, 0, &mut strip);
    assert_eq!(refused, 0x01_0000_0000);
    let refused = exports::ospf_lsa(3, &[0; 19], 0, &mut strip);
    assert_eq!(refused, 0x04_0000_0000);
}

/// The packed answers of the blocks, which have a length of their own.
#[test]
fn packed_answers_of_blocks() {
    let data = hex("FFF6 0003 0001 0004 00000001 00");
    let mut strip = [0xA5; 79];
    assert_eq!(exports::ospf_lls(&data[..11], 0, &mut strip), 0);
    let refused = exports::ospf_lls(&data, 0, &mut strip[..48]);
    assert_eq!(refused, 0x05_0000_0031);
    assert_eq!(exports::block_length(refused), 0);
    assert_eq!(strip, [0xA5; 79]);
    let found = exports::ospf_lls(&data, 0, &mut strip);
    assert_eq!(found, 12 << 40 | 49);
    assert_eq!(exports::unpack(found), (0, 49));
    assert_eq!(exports::block_length(found), 12);
    // The longest, with a length field that has each of its bits.
    let mut longest = vec![0; 65_535];
    longest[2..4].fill(0xFF);
    let found = exports::ospf_auth_trailer(&longest, 0, &mut strip);
    assert_eq!(found, 65_535 << 40 | 79);
    let refused = exports::ospf_auth_trailer(&longest, u64::MAX, &mut strip);
    assert_eq!(refused, 0x03_0000_0000);
}

/// A walk into lent bytes writes what one into a buffer does, and refuses
/// bytes that are one too few.
#[test]
fn lent_bytes() {
    let (mut strips, mut absent) = (0, 0);
    let classes = [Class::Structured, Class::Block];
    each_strip(&classes, 6, |input, expected| {
        let needed = expected.bytes().len();
        let mut lent = vec![0xA5; needed + 3];
        // What is absent needs no room.
        if let Some(short) = needed.checked_sub(1) {
            let refusal = into(input, &mut lent[..short]).unwrap_err();
            assert_eq!(refusal, Refusal::Room { needed });
            assert!(lent.iter().all(|&byte| byte == 0xA5));
            strips += 1;
        } else {
            absent += 1;
        }
        assert_eq!(into(input, &mut lent[..needed]), Ok(expected));
        assert_eq!(into(input, &mut lent), Ok(expected));
        assert_eq!(lent[needed..], [0xA5; 3]);
    });
    assert!(strips > 1_000 && absent > 50, "{strips} {absent}");
}

/// An input through the walks and the blocks that take lent bytes.
fn into<'s>(input: &Input, strip: &'s mut [u8]) -> Result<Strip<'s>, Refusal> {
    let (data, offset) = (&input.data, input.offset);
    let version = || Version::try_from(input.version);
    match input.walk {
        Walk::Headers => ospf_strip::lsa_headers(version()?, data, offset, strip),
        Walk::Update => ospf_strip::lsu_lsas(version()?, data, input.count, offset, strip),
        Walk::Lsa => ospf_strip::lsa(version()?, data, offset, strip),
        Walk::Lls => ospf_strip::lls(data, offset, strip).map(strip_of),
        Walk::AuthTrailer => ospf_strip::auth_trailer(data, offset, strip).map(strip_of),
    }
}

/// Records and tail are those of the reference.
#[test]
fn records_and_tail() {
    let (mut many, mut tails) = (0, 0);
    let classes = [
        Class::Structured,
        Class::Truncated,
        Class::Damaged,
        Class::Count,
    ];
    each_strip(&classes, 7, |input, strip| {
        let answer = input.call().run().answer(usize::MAX);
        let found = (strip.records() as u32, strip.tail() as u32);
        assert_eq!(found, (answer.records, answer.tail), "{input:?}");
        many += usize::from(answer.records > 1);
        tails += usize::from(answer.tail > 0);
    });
    assert!(many > 1_000 && tails > 1_000, "{many} {tails}");
}

/// A range gives the bytes of the packet, whatever the offset; a range that
/// does not lie in the packet is refusal 9.
#[test]
fn part_of_the_packet() {
    let body = hex("0001 02 0C 0A000001 0A000001 80000001 1234 0016 BEEF");
    let mut buffer = Buffer::new();
    for offset in [0, 24, 4_294_901_760] {
        let raw = buffer
            .lsa(Version::V2, &body, offset)
            .unwrap()
            .entries()
            .last()
            .unwrap();
        assert_eq!((raw.kind(), raw.name()), (Kind::Bytes, Some("body")));
        assert_eq!(raw.label(), Some("LSA Body"));
        assert_eq!(raw.part(&body, offset), Ok(&[0xBE, 0xEF][..]));
        assert_eq!(raw.part(&body[..21], offset), Err(OutsidePacket));
        assert_eq!(raw.part(&body, offset + 21), Err(OutsidePacket));
    }
}

/// Each bytes entry of an accepted walk is those bytes of what was walked, in
/// place, and the same bytes of a packet that holds it.
#[test]
fn parts_of_accepted_walks() {
    let front = 9;
    let (mut parts, mut held) = (0, 0);
    let classes = [
        Class::Structured,
        Class::Damaged,
        Class::Offset,
        Class::Block,
    ];
    each_strip(&classes, 4, |input, strip| {
        let (data, offset) = (&input.data, input.offset);
        let packet = [&vec![0xA5; front], data.as_slice(), &[0xA5; 5]].concat();
        for entry in strip.entries().filter(|e| e.kind() == Kind::Bytes) {
            let range = entry.range().unwrap();
            let place = |at: u32| (u64::from(at) - offset) as usize;
            let bytes = &data[place(range.start)..place(range.end)];
            let part = entry.part(data, offset).unwrap();
            assert_eq!(part.as_ptr_range(), bytes.as_ptr_range());
            if let Some(base) = offset.checked_sub(front as u64) {
                let end = front + place(range.end);
                assert_eq!(entry.part(&packet, base), Ok(bytes));
                assert_eq!(entry.part(&packet[..end], base), Ok(bytes));
                let cut = entry.part(&packet[..end - 1], base);
                assert_eq!(cut, Err(OutsidePacket));
                held += 1;
            }
            parts += 1;
        }
    });
    assert!(parts > 1_000 && held > 1_000, "{parts} {held}");
}
