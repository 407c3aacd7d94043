//! The updates of the published captures, one after another against one table.

use std::collections::BTreeSet;

use book::PROVED;
use book::naive::{Call, identity, told};
use captures::{inputs, published};
use inputs::Input;
use oracle::Walk;
use ospf_strip::{Book, Counts, Row, Version, exports};

/// All updates, in the order of their files and frames.
fn updates() -> Vec<Input> {
    let files = published().expect("the captures");
    let inputs = files.iter().flat_map(|(_, file)| inputs(file));
    inputs.filter(|input| input.walk == Walk::Update).collect()
}

/// Taken by the proved function, by the second implementation, and by a book
/// that grows: the rows are the same after each update.
#[test]
fn one_after_another() {
    let mut rows = vec![Row::default(); 300];
    let mut book = Book::new();
    let (mut replaced, mut added) = (0, 0);
    let updates = updates();
    for input in &updates {
        let Input {
            version,
            ref data,
            count,
            offset,
            ..
        } = *input;
        let call = Call {
            version,
            data: data.clone(),
            count,
            offset,
            rows: rows.clone(),
        };
        let told = told(&call);
        let answer = PROVED(version, data, count, offset, &mut rows);
        assert_eq!((answer, &rows), (told.answer(), &told.rows), "{input:?}");
        let known = Version::try_from(version).expect("a version");
        let counts = book.take_update(known, data, count, offset);
        let (number, of_answer) = exports::unpack(answer);
        assert_eq!(number, 0, "{input:?}");
        let of_answer = Counts {
            replaced: of_answer as usize,
            added: exports::additions(answer) as usize,
        };
        assert_eq!(counts, Ok(of_answer), "{input:?}");
        replaced += of_answer.replaced;
        added += of_answer.added;
        assert!(book.iter().eq(rows.iter().filter(|row| row.is_used())));
    }
    let identities: BTreeSet<_> = book.iter().map(identity).collect();
    assert_eq!(identities.len(), added);
    assert_eq!((updates.len(), replaced, added), (92, 47, 54));
}
