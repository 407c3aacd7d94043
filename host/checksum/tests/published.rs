//! The LSAs of the published captures, whose checksums were made by routers.

use captures::{inputs, published};
use inputs::Input;
use oracle::Walk;
use ospf_strip::{checksum_is_good, make_checksum};

/// All LSAs of updates, with the names of their files.
fn lsas() -> Vec<(String, Input)> {
    let files = published().expect("the captures");
    let inputs = files.iter().flat_map(|(name, file)| {
        let inputs = inputs(file).into_iter();
        inputs.map(|input| (name.clone(), input))
    });
    inputs
        .filter(|(_, input)| input.walk == Walk::Lsa)
        .collect()
}

/// The one file whose LSA is damaged: `samples/captures/README.md` calls it
/// fuzzed.
const FUZZED: &str = "ospf2-seg-fault-1.pcapng";

#[test]
fn checksums_that_routers_made() {
    let (good, bad): (Vec<_>, Vec<_>) = lsas()
        .into_iter()
        .partition(|(_, input)| checksum_is_good(&input.data) == Ok(true));
    assert_eq!(good.len(), 252);
    let bad: Vec<_> = bad.iter().map(|(name, _)| name.as_str()).collect();
    assert_eq!(bad, [FUZZED]);
}

/// Made anew, each is the checksum that the router had made.
#[test]
fn the_same_checksums_are_made() {
    for (name, input) in lsas().into_iter().filter(|(name, _)| name != FUZZED) {
        let mut lsa = input.data.clone();
        lsa[16..18].fill(0);
        let checksum = make_checksum(&mut lsa).expect("an LSA");
        assert_eq!(lsa, input.data, "{name} at {}", input.offset);
        assert_eq!(checksum.to_be_bytes(), input.data[16..18]);
    }
}

/// The damaged one is an LSA of another capture but for two bytes.
#[test]
fn what_was_changed_in_the_fuzzed_one() {
    let lsas = lsas();
    let of = |file: &str| {
        let of_file = lsas.iter().filter(|(name, _)| name == file);
        of_file
            .map(|(_, input)| input.data.clone())
            .collect::<Vec<_>>()
    };
    let mut lsa = of(FUZZED).remove(0);
    assert_eq!((lsa[25], lsa[68]), (0x11, 0x4B));
    (lsa[25], lsa[68]) = (0x01, 0x4C);
    assert_eq!(checksum_is_good(&lsa), Ok(true));
    assert!(of("ospf-gmpls.pcap").contains(&lsa));
}
