//! The reference files are as they were published.

use std::fs;
use std::path::Path;

/// File, length, and FNV-1a hash of its bytes.
const FILES: [(&str, usize, u64); 8] = [
    (
        "packet-dissector-core/src/util.rs",
        7995,
        0x87BA_14E8_D7E5_CDAC,
    ),
    (
        "packet-dissector-ospf/src/common.rs",
        4285,
        0x2275_E2A0_6940_6791,
    ),
    (
        "packet-dissector-ospf/src/tlv.rs",
        59913,
        0xF613_8A3B_E359_574C,
    ),
    (
        "packet-dissector-ospf/src/trailer.rs",
        6365,
        0x5A0E_CD24_B14B_0F40,
    ),
    (
        "packet-dissector-ospf/src/v2.rs",
        26473,
        0xB395_186C_20CD_258A,
    ),
    (
        "packet-dissector-ospf/src/v2_lsa.rs",
        23633,
        0xCF85_CBCA_50C9_E34A,
    ),
    (
        "packet-dissector-ospf/src/v3.rs",
        25232,
        0xAD72_4FAF_9E36_C97C,
    ),
    (
        "packet-dissector-ospf/src/v3_lsa.rs",
        28723,
        0x8146_66B1_FE1A_2397,
    ),
];

fn hash(bytes: &[u8]) -> u64 {
    let start = 0xCBF2_9CE4_8422_2325;
    bytes.iter().fold(start, |hash, &byte| {
        (hash ^ u64::from(byte)).wrapping_mul(0x100_0000_01B3)
    })
}

#[test]
fn files_are_unchanged() {
    let crates = Path::new(env!("CARGO_MANIFEST_DIR")).join("../../docs/src/crates");
    for (file, length, expected) in FILES {
        let bytes = fs::read(crates.join(file)).expect(file);
        assert_eq!((bytes.len(), hash(&bytes)), (length, expected), "{file}");
    }
}
