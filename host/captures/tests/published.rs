//! The published captures hold what their README says.

use std::collections::BTreeMap;

use captures::{frames, inputs, ospf, published};
use oracle::{Call, Outcome, Walk};

/// File, frames, version, then packets by type: hello, database
/// description, request, update, acknowledgment.
const TABLE: [(&str, usize, u8, [usize; 5]); 16] = [
    ("OSPFv3_NBMA_adjacencies.pcap", 86, 3, [14, 14, 4, 35, 19]),
    ("OSPFv3_broadcast_adjacency.pcap", 38, 3, [12, 7, 2, 11, 6]),
    (
        "OSPFv3_multipoint_adjacencies.pcap",
        73,
        3,
        [16, 14, 4, 23, 16],
    ),
    ("OSPFv3_with_AH.pcap", 61, 3, [35, 9, 2, 10, 5]),
    ("gopacket-ospf2.pcap", 8, 2, [1, 1, 1, 4, 1]),
    ("gopacket-ospf3.pcap", 5, 3, [1, 1, 1, 1, 1]),
    ("ospf-ack.pcap", 1, 2, [0, 0, 0, 0, 1]),
    ("ospf-gmpls.pcap", 3, 2, [0, 0, 0, 3, 0]),
    ("ospf-nssa-bitnt.pcap", 1, 2, [0, 0, 0, 1, 0]),
    ("ospf-signed-integer-ubsan.pcap", 1, 3, [0, 0, 0, 1, 0]),
    ("ospf2-seg-fault-1.pcapng", 1, 2, [0, 0, 0, 1, 0]),
    ("ospf3_auth.pcapng", 1, 3, [1, 0, 0, 0, 0]),
    ("ospf6_decode_v3_asan-4.99.3.pcap", 1, 3, [1, 0, 0, 0, 0]),
    ("ospf6_decode_v3_asan.pcap", 1, 3, [1, 0, 0, 0, 0]),
    ("ospf6_print_lshdr-oobr-4.99.3.pcap", 15, 3, [6, 6, 2, 1, 0]),
    ("ospf6_print_lshdr-oobr.pcap", 15, 3, [6, 6, 2, 1, 0]),
];

#[test]
fn frames_and_packets_by_type() {
    let files = published().expect("the captures");
    assert_eq!(files.len(), TABLE.len());
    for ((name, file), (expected, count, version, packets)) in files.iter().zip(TABLE) {
        assert_eq!(name, expected);
        let frames = frames(file).expect("a capture file");
        assert_eq!(frames.len(), count, "{name}");
        let mut found = [0; 5];
        for packet in frames.iter().filter_map(ospf) {
            assert_eq!(packet.version, version, "{name}");
            found[packet.message as usize - 1] += 1;
        }
        assert_eq!(found, packets, "{name}");
    }
}

/// Every database description, acknowledgment and update becomes an input,
/// and a frame's bytes stand at the input's offset.
#[test]
fn inputs_lie_in_their_frames() {
    for (name, file) in published().expect("the captures") {
        let frames = frames(&file).expect("a capture file");
        let inputs = inputs(&file);
        for input in &inputs {
            let at = input.offset as usize;
            let held = |bytes: &[u8]| bytes.get(at..at + input.data.len()) == Some(&input.data);
            assert!(frames.iter().any(|frame| held(frame.bytes)), "{name}");
        }
    }
}

#[test]
fn inputs_by_walk() {
    let mut walks: BTreeMap<u8, usize> = BTreeMap::new();
    for (_, file) in published().expect("the captures") {
        for input in inputs(&file) {
            *walks.entry(input.walk as u8).or_default() += 1;
        }
    }
    // By the table: 58 descriptions and 49 acknowledgments, 92 updates.
    assert_eq!(walks[&(Walk::Headers as u8)], 58 + 49);
    assert_eq!(walks[&(Walk::Update as u8)], 92);
    assert_eq!(walks[&(Walk::Lsa as u8)], 253);
}

/// The LSAs taken out of the updates are as many as the oracle accepts.
#[test]
fn lsas_are_the_oracles_records() {
    for (name, file) in published().expect("the captures") {
        let inputs = inputs(&file);
        let lsas = inputs.iter().filter(|i| i.walk == Walk::Lsa).count();
        let updates = inputs.iter().filter(|i| i.walk == Walk::Update);
        let records: u32 = updates
            .map(|i| i.call().run().answer(usize::MAX).records)
            .sum();
        assert_eq!(lsas, records as usize, "{name}");
    }
}

/// The whole router LSA of one frame, as its bytes stand in the file.
#[test]
fn router_lsa_with_nt() {
    let files = published().expect("the captures");
    let (_, file) = &files[8];
    let inputs = inputs(file);
    assert_eq!(inputs.len(), 2);
    // Ethernet 14, IPv4 20, OSPF 24; then the count of 4.
    assert_eq!((inputs[0].offset, inputs[0].count), (58, 1));
    assert_eq!(inputs[1].offset, 62);
    assert_eq!(inputs[1].data, inputs[0].data[4..]);
    assert_eq!(inputs[1].data[20] & 0x10, 0x10);
}

/// The trailer that follows a Hello, 16 bytes and a digest of HMAC-SHA-256: the
/// only block in the captures whose packet announces it.
#[test]
fn authentication_trailer_of_a_hello() {
    let files = published().expect("the captures");
    let (name, file) = &files[11];
    assert_eq!(name, "ospf3_auth.pcapng");
    let frames = frames(file).expect("a capture file");
    let hello = ospf(&frames[0]).expect("a packet");
    let call = Call {
        version: hello.version,
        walk: Walk::AuthTrailer,
        data: hello.after,
        count: 0,
        offset: (hello.place + hello.body.len()) as u64,
    };
    let Outcome::Accepted { strip, block, .. } = call.run() else {
        panic!("no trailer");
    };
    assert_eq!((hello.after.len(), block), (48, 48));
    // The values of its four fields: an open before them, 10 bytes before each.
    assert_eq!(strip[24..26], [0, 1]);
    assert_eq!(strip[36..38], [0, 48]);
    assert_eq!(strip[48..50], [0, 1]);
    assert_eq!(strip[60..68], 0x52DA_4E0E_u64.to_be_bytes());
}
