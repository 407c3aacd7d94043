//! The blocks that may follow a packet: found, absent and refused, as the reference and the requirements say.

use std::net::Ipv6Addr;

use inputs::Class;
use listing::hex;
use oracle::{Outcome, Walk};
use ospf_strip::{Block, Buffer, Kind, Refusal, Strip, Value, Version};

const MOST_OFFSET: u64 = 4_294_901_760;

/// Both readings into lent bytes, and how long the strip of each is.
type Lend = for<'s> fn(&[u8], u64, &'s mut [u8]) -> Result<Option<Block<'s>>, Refusal>;
const READINGS: [(Lend, usize); 2] = [(ospf_strip::lls, 49), (ospf_strip::auth_trailer, 79)];

/// An LLS block with a TLV of extended options, and a trailer with a digest of HMAC-SHA-1.
fn lls() -> Vec<u8> {
    hex("FFF6 0003 0001 0004 00000001")
}

fn trailer() -> Vec<u8> {
    let digest = listing::bytes(20, 0xD1);
    [hex("0001 0024 0000 0064 0123456789ABCDEF"), digest].concat()
}

/// Found, absent or refused as the oracle says, with its strip and its length.
#[test]
fn as_the_reference() {
    let mut buffer = Buffer::new();
    let (mut found, mut absent, mut refused) = (0, 0, 0);
    for class in [Class::Block, Class::BlockLength] {
        inputs::of_class(class, 1, 40, &mut |input| {
            let (data, offset) = (&input.data, input.offset);
            let block = match input.walk {
                Walk::Lls => buffer.lls(data, offset),
                _ => buffer.auth_trailer(data, offset),
            };
            match (block, input.call().run()) {
                (Ok(Some(ours)), Outcome::Accepted { strip, block, .. }) => {
                    assert_eq!(ours.strip().bytes(), strip);
                    assert_eq!(ours.length(), block as usize);
                    found += 1;
                }
                (Ok(None), Outcome::Absent) => absent += 1,
                (Err(ours), Outcome::Refused(number)) => {
                    assert_eq!(ours.number(), number);
                    refused += 1;
                }
                (ours, reference) => panic!("{input:?}: {ours:?}, {reference:?}"),
            }
        });
    }
    assert!(found > 1_000 && absent > 1_000 && refused > 100);
}

#[test]
fn strips_by_hand() {
    let mut buffer = Buffer::new();
    let (data, offset) = ([lls(), vec![9; 5]].concat(), 40);
    let block = buffer.lls(&data, offset).unwrap().unwrap();
    let expected = "open 136 40 52 3\nu16 128 40 42 65526\nu16 129 42 44 3\nbytes 130 44 52\nclose";
    assert_eq!(block.strip().bytes(), listing::strip(expected));
    assert_eq!(block.length(), 12);

    let data = [trailer(), vec![9; 5]].concat();
    let block = buffer.auth_trailer(&data, MOST_OFFSET).unwrap().unwrap();
    let expected = "open 152 4294901760 4294901796 5\nu16 144 4294901760 4294901762 1
        u16 145 4294901762 4294901764 36\nu16 146 4294901766 4294901768 100
        u64 147 4294901768 4294901776 81985529216486895\nbytes 148 4294901776 4294901796\nclose";
    assert_eq!(block.strip().bytes(), listing::strip(expected));
    assert_eq!(block.length(), 36);
}

/// What a block gives is iterated like a walk's strip, by itself and by reference.
#[test]
fn entries() {
    let mut buffer = Buffer::new();
    let data = trailer();
    let block = buffer.auth_trailer(&data, 7).unwrap().unwrap();
    let strip = block.strip();
    assert_eq!(
        (strip.version(), strip.records(), strip.tail()),
        (Version::V3, 1, 0)
    );
    assert!((&block).into_iter().eq(strip));
    let number = block.into_iter().find(|entry| entry.kind() == Kind::U64);
    let number = number.expect("a sequence number");
    assert_eq!(number.label(), Some("Cryptographic Sequence Number"));
    assert_eq!(number.range(), Some(15..23));
    assert_eq!(number.value(), Some(Value::U64(0x0123_4567_89AB_CDEF)));
    assert_eq!(number.part(&data, 7), Ok(&data[8..16]));
    let digest = block.into_iter().find(|entry| entry.kind() == Kind::Bytes);
    assert_eq!(
        digest.map(|entry| entry.part(&data, 7)),
        Some(Ok(&data[16..]))
    );

    let strip = buffer.lls(&lls(), 0).unwrap().unwrap().strip();
    assert_eq!(
        (strip.version(), strip.records(), strip.tail()),
        (Version::V2, 1, 0)
    );
    // The names are the same in either version.
    let bytes = strip.bytes().to_vec();
    let names = |version| {
        let strip = Strip::from_bytes(version, &bytes).unwrap();
        strip
            .into_iter()
            .map(|entry| (entry.name(), entry.label()))
            .collect::<Vec<_>>()
    };
    assert_eq!(names(Version::V2), names(Version::V3));
    assert_eq!(names(Version::V3)[0], (Some("lls"), Some("LLS Data Block")));
}

/// The least block, one short of it, and one whose length is one short of the least.
#[test]
fn least_blocks() {
    let mut buffer = Buffer::new();
    let least = hex("ABCD 0001");
    assert_eq!(
        buffer.lls(&least, 0).unwrap().map(|block| block.length()),
        Some(4)
    );
    let tlvs = buffer
        .lls(&least, 0)
        .unwrap()
        .unwrap()
        .into_iter()
        .nth(3)
        .unwrap();
    assert_eq!((tlvs.kind(), tlvs.range()), (Kind::Bytes, Some(4..4)));
    for absent in ["", "AB", "ABCD", "ABCD 00", "ABCD 0000", "ABCD 0002 000000"] {
        assert_eq!(buffer.lls(&hex(absent), 0), Ok(None), "{absent}");
    }
    let mut least = hex("FFFF 0010 FFFF FFFF FFFFFFFFFFFFFFFF");
    let block = buffer.auth_trailer(&least, 0).unwrap().unwrap();
    let digest = block.into_iter().nth(5).unwrap();
    assert_eq!((block.length(), digest.range()), (16, Some(16..16)));
    for length in 0..16 {
        assert_eq!(
            buffer.auth_trailer(&least[..length], 0),
            Ok(None),
            "{length}"
        );
    }
    for field in [0, 15, 17] {
        least[3] = field;
        assert_eq!(buffer.auth_trailer(&least, 0), Ok(None), "{field}");
    }
}

/// The longest data, with the longest block in them and one word or byte more.
#[test]
fn longest_blocks() {
    let mut data = vec![0; 65_536];
    for ((read, _), longest) in READINGS.into_iter().zip([16_383_u16, 65_535]) {
        let mut strip = [0; 79];
        data[2..4].copy_from_slice(&longest.to_be_bytes());
        let block = read(&data[..65_535], MOST_OFFSET, &mut strip)
            .unwrap()
            .unwrap();
        assert_eq!(
            block.length(),
            if longest == 65_535 { 65_535 } else { 65_532 }
        );
        let end = MOST_OFFSET as u32 + block.length() as u32;
        let object = block.into_iter().next().unwrap();
        assert_eq!(object.range(), Some(MOST_OFFSET as u32..end));
        assert_eq!(read(&data, 0, &mut strip), Err(Refusal::TooLong));
        assert_eq!(read(&data[..65_531], 0, &mut strip), Ok(None));
    }
    data[2..4].copy_from_slice(&16_384_u16.to_be_bytes());
    assert_eq!(ospf_strip::lls(&data[..65_535], 0, &mut []), Ok(None));
}

/// Each refusal comes before those after it, and absent before the last; the lent bytes stay as they are.
#[test]
fn refusals_in_order() {
    let too_long = vec![0; 65_536];
    let mut block = vec![0; 64];
    block[3] = 16;
    for (read, needed) in READINGS {
        let mut strip = vec![0xA5; needed + 1];
        let short = &mut strip[..needed - 1];
        assert_eq!(
            read(&too_long, MOST_OFFSET + 1, short),
            Err(Refusal::TooLong)
        );
        for offset in [MOST_OFFSET + 1, u64::MAX] {
            assert_eq!(read(&[], offset, short), Err(Refusal::Offset));
            assert_eq!(read(&block, offset, short), Err(Refusal::Offset));
        }
        assert_eq!(read(&block[..15], MOST_OFFSET, short), Ok(None));
        assert_eq!(read(&[], 0, &mut []), Ok(None));
        let room = Err(Refusal::Room { needed });
        assert_eq!(read(&block, MOST_OFFSET, &mut []), room);
        assert_eq!(read(&block, MOST_OFFSET, short), room);
        assert!(strip.iter().all(|&byte| byte == 0xA5));
        assert!(read(&block, 0, &mut strip[..needed]).unwrap().is_some());
        assert_eq!(strip[needed], 0xA5);
    }
}

/// A buffer that held something longer gives the same, and an absent block leaves it usable.
#[test]
fn buffer_is_used_again() {
    let mut buffer = Buffer::new();
    let long = vec![0; 2_000];
    let length = buffer
        .lsa_headers(Version::V2, &long, 0)
        .unwrap()
        .bytes()
        .len();
    assert!(length > 79);
    let mut fresh = Buffer::new();
    assert_eq!(buffer.lls(&lls(), 0), fresh.lls(&lls(), 0));
    assert_eq!(buffer.lls(&[], 0), Ok(None));
    assert_eq!(
        buffer.auth_trailer(&trailer(), 0),
        fresh.auth_trailer(&trailer(), 0)
    );
}

/// A value prints as a number, and an address as an address.
#[test]
fn values() {
    let values = [
        (Value::U8(u8::MAX), "255", 255),
        (
            Value::U64(u64::MAX),
            "18446744073709551615",
            u64::MAX.into(),
        ),
        (Value::Ipv6(Ipv6Addr::LOCALHOST), "::1", 1),
    ];
    for (value, text, number) in values {
        assert_eq!(
            (value.to_string().as_str(), u128::from(value)),
            (text, number)
        );
        assert_eq!(format!("{value:>22}"), format!("{text:>22}"));
    }
}
