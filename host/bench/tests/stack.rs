//! Every call of the port runs on a thread of 64 KiB. One that needs more stack
//! ends this whole test with a signal: a recursion entry by entry would, with
//! 16,376 entries in the longest list and a return address for each.

use std::thread;

use bench::PORT;
use bench::corpus::worst;
use ospf_strip::{Counts, Newness, Row, Strip, Version};

const STACK: usize = 64 << 10;

/// What a call answers on such a thread.
fn on_a_small_thread<T: Send + 'static>(call: impl FnOnce() -> T + Send + 'static) -> T {
    let thread = thread::Builder::new().stack_size(STACK).spawn(call);
    thread.expect("a thread").join().expect("it returns")
}

#[test]
fn worst_inputs_on_a_small_thread() {
    for worst in worst() {
        let input = worst.input;
        assert_eq!(input.data.len(), 65_535, "{}", worst.name);
        let (answer, needed) = on_a_small_thread(move || {
            let needed = PORT.run(&input, &mut []) as u32;
            let mut strip = vec![0; needed as usize];
            (PORT.run(&input, &mut strip), needed)
        });
        assert_eq!(answer, u64::from(needed), "{}", worst.name);
        assert!(needed > 65_535, "{}: {needed}", worst.name);
    }
}

/// The exports that are no walks, on as much data as each takes.
#[test]
fn other_calls_on_a_small_thread() {
    on_a_small_thread(|| {
        let mut data = vec![1; 65_535];
        assert!(ospf_strip::make_checksum(&mut data).is_ok());
        assert_eq!(ospf_strip::checksum_is_good(&data), Ok(true));
        let same = ospf_strip::newness(Version::V2, &data, &data);
        assert_eq!(same, Ok(Newness::Same));
        assert_eq!(ospf_strip::same_prefix(128, &data, 128, &data), Ok(true));
        assert_eq!(ospf_strip::same_prefix(128, &[], 128, &data), Ok(false));

        let mut strip = [0; 79];
        let block = ospf_strip::auth_trailer(&data, 0, &mut strip);
        let block = block.expect("accepted").expect("a trailer");
        assert_eq!(block.length(), 257);
        let mut strip = [0; 49];
        let block = ospf_strip::lls(&data, 0, &mut strip);
        let block = block.expect("accepted").expect("a block");
        assert_eq!(block.length(), 4 * 257);
        assert!(Strip::from_bytes(Version::V2, &strip).is_ok());
    });
}

/// The export that takes the most stack, on the most LSAs and many rows.
#[test]
fn update_of_a_book_on_a_small_thread() {
    let lsas: Vec<Vec<u8>> = (0..3_276_u32)
        .map(|id| [&[0; 4], &id.to_be_bytes()[..], &[0; 10], &[0, 20]].concat())
        .collect();
    let data = [&[0; 4], &lsas.concat()[..]].concat();
    let mut rows = vec![Row::default(); 10_000];
    let rows = on_a_small_thread(move || {
        let new = Counts {
            replaced: 0,
            added: 3_276,
        };
        let taken = ospf_strip::take_update(Version::V3, &data, u32::MAX, 0, &mut rows);
        assert_eq!(taken, Ok(new));
        let taken = ospf_strip::take_update(Version::V3, &data, u32::MAX, 0, &mut rows);
        assert_eq!(taken, Ok(Counts::default()));
        rows
    });
    assert_eq!(rows.iter().filter(|row| row.is_used()).count(), 3_276);
}

/// The longest strip that 65,535 bytes of data can have is among them.
#[test]
fn longest_strip_is_among_the_worst() {
    let lengths = worst()
        .into_iter()
        .map(|w| PORT.run(&w.input, &mut []) as u32);
    assert_eq!(lengths.max(), Some(1_228_294));
}
