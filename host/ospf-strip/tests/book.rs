//! Rows and updates by hand: each field of a row both ways, the order in which
//! refusals and LSAs are taken, and a book that grows. host/book compares the
//! export with a second implementation.

use ospf_strip::Refusal::{Age, NoFreeRow, Offset, TooLong, TooShort};
use ospf_strip::{Book, Counts, Newness, Refusal, Row, Version, exports, newness, take_update};

/// A row with another value in each field and, but for the bytes of its version
/// and mark, in each byte.
const ROW: Row = Row {
    version: 3,
    used: 1,
    ls_type: 0xA1B2,
    link_state_id: 0x0B0C_0D0E,
    advertising_router: 0x1112_1314,
    sequence: 0x8586_8788,
    checksum: 0x9192,
    age: 0x0403,
};

/// A row's header, without a body. Of version 2, options before the type.
fn header(row: &Row) -> Vec<u8> {
    let [high, low] = row.ls_type.to_be_bytes();
    [
        &row.age.to_be_bytes()[..],
        &[if row.version == 2 { 0x5A } else { high }, low],
        &row.link_state_id.to_be_bytes(),
        &row.advertising_router.to_be_bytes(),
        &row.sequence.to_be_bytes(),
        &row.checksum.to_be_bytes(),
        &[0, 20],
    ]
    .concat()
}

fn update(rows: &[Row]) -> Vec<u8> {
    let count = rows.len() as u32;
    let headers = rows.iter().flat_map(header);
    count.to_be_bytes().into_iter().chain(headers).collect()
}

/// Takes LSAs of version 3, all that there are.
fn take(lsas: &[Row], rows: &mut [Row]) -> Result<Counts, Refusal> {
    take_update(Version::V3, &update(lsas), u32::MAX, 0, rows)
}

fn counts(replaced: usize, added: usize) -> Result<Counts, Refusal> {
    Ok(Counts { replaced, added })
}

/// Every field of an LSA's header is where the row has it.
#[test]
fn fields_are_written() {
    for (version, ls_type) in [(Version::V3, 0xA1B2), (Version::V2, 0x00B2)] {
        let lsa = Row {
            version: version.number(),
            ls_type,
            ..ROW
        };
        let mut rows = [Row::default(); 3];
        let data = update(&[lsa]);
        let taken = take_update(version, &data, 1, 0, &mut rows[1..2]);
        assert_eq!(taken, counts(0, 1));
        assert_eq!(rows, [Row::default(), lsa, Row::default()]);
    }
}

/// Every field of a row is read: each of the identity makes another one, and
/// each of the others decides which is newer.
#[test]
fn fields_are_read() {
    assert_eq!(take(&[ROW], &mut [ROW]), counts(0, 0));
    let others: [fn(&mut Row); 5] = [
        |row| row.version = 2,
        |row| row.used = 0,
        |row| row.ls_type ^= 0x8000,
        |row| row.link_state_id ^= 1,
        |row| row.advertising_router ^= 0x0100_0000,
    ];
    for (field, change) in others.into_iter().enumerate() {
        let mut other = ROW;
        change(&mut other);
        let mut rows = [other, Row::default()];
        assert_eq!(take(&[ROW], &mut rows), counts(0, 1), "{field}");
        let unused = other.used == 0;
        let expected = if unused {
            [ROW, Row::default()]
        } else {
            [other, ROW]
        };
        assert_eq!(rows, expected, "{field}");
    }
    let older: [fn(&mut Row); 4] = [
        |row| row.sequence -= 1,
        // The sign: what is negative is older.
        |row| row.sequence = 0x8000_0000,
        |row| row.checksum -= 0x0100,
        |row| row.age += 901,
    ];
    for (field, change) in older.into_iter().enumerate() {
        let mut other = Row { used: 7, ..ROW };
        change(&mut other);
        let mut rows = [other];
        assert_eq!(take(&[ROW], &mut rows), counts(1, 0), "{field}");
        assert_eq!(rows, [ROW], "{field}");
        let lsa = Row { used: 1, ..other };
        assert_eq!(take(&[lsa], &mut rows), counts(0, 0), "{field}");
        assert_eq!(rows, [ROW], "{field}");
    }
}

/// A row is replaced exactly where the comparison of headers calls its LSA newer.
#[test]
fn newer_is_what_newness_says() {
    let mut instances = Vec::new();
    for sequence in [0x8000_0001, 0x7FFF_FFFF, 0] {
        for checksum in [0, 1, 0xFFFF] {
            for age in [0, 900, 901, 1_801, 3_599, 3_600] {
                instances.push(Row {
                    sequence,
                    checksum,
                    age,
                    ..ROW
                });
            }
        }
    }
    let mut replaced = 0;
    for lsa in &instances {
        for row in &instances {
            let mut rows = [*row];
            let taken = take(&[*lsa], &mut rows).unwrap();
            let newness = newness(Version::V3, &header(lsa), &header(row)).unwrap();
            let is_newer = newness == Newness::First;
            assert_eq!(taken.replaced, usize::from(is_newer), "{lsa:?} {row:?}");
            assert_eq!(rows[0], if is_newer { *lsa } else { *row });
            replaced += taken.replaced;
        }
    }
    assert!(replaced > 500, "{replaced}");
}

/// Being the same is not transitive: an age of 900 is the same as 0 and as
/// 1,800, but 0 is newer than 1,800.
#[test]
fn order_counts() {
    let [young, middle, old] = [0, 900, 1_800].map(|age| Row { age, ..ROW });
    let mut rows = [Row::default()];
    assert_eq!(take(&[old, middle, young], &mut rows), counts(1, 1));
    assert_eq!(rows, [young]);
    let mut rows = [Row::default()];
    assert_eq!(take(&[middle, old, young], &mut rows), counts(0, 1));
    assert_eq!(rows, [middle]);
}

/// The first unused row is taken, and an LSA meets the row of an earlier one.
#[test]
fn rows_are_taken_in_order() {
    let other = Row {
        link_state_id: 7,
        ..ROW
    };
    let newer = Row {
        sequence: ROW.sequence + 1,
        ..ROW
    };
    // What lies in an unused row is not looked at.
    let junk = Row {
        used: 0,
        age: 0xFFFF,
        ..other
    };
    let used = Row {
        used: 255,
        version: 0,
        ..ROW
    };
    let mut rows = [used, junk, used, junk, junk];
    rows[2].link_state_id = 1;
    let before = rows;
    assert_eq!(take(&[ROW, newer, other, ROW], &mut rows), counts(1, 2));
    assert_eq!(rows, [used, newer, before[2], other, junk]);
}

/// Each refusal with all that come after it, and the rows as they were.
#[test]
fn refusals_in_their_order() {
    let old = Row { age: 3_601, ..ROW };
    let free = Row::default();
    let many = Row {
        link_state_id: 1,
        ..ROW
    };
    let good = update(&[ROW]);
    let aged = update(&[old]);
    let long = vec![0xFF; 65_536];
    let beyond = 4_294_901_761;
    let cases: [(&[u8], u64, &[Row], u8); 9] = [
        (&long, beyond, &[old, old], 2),
        (&good[..3], beyond, &[old, old], 3),
        (&good[..3], 0, &[old, old], 4),
        (&aged, 0, &[ROW, ROW], 11),
        (&good, 0, &[old, old], 11),
        (&good, 0, &[many, old], 11),
        (&good, 0, &[many, many], 14),
        (&good, 0, &[many], 15),
        (&good, 0, &[], 15),
    ];
    for (data, offset, before, number) in cases {
        let mut rows = before.to_vec();
        let taken = take_update(Version::V3, data, 1, offset, &mut rows);
        assert_eq!(taken.map_err(Refusal::number), Err(number));
        let answer = exports::ospf_book_update(3, data, 1, offset, &mut rows);
        assert_eq!(answer, u64::from(number) << 32);
        let answer = exports::ospf_book_update(4, data, 1, offset, &mut rows);
        assert_eq!(answer, 1 << 32);
        assert_eq!(rows, before, "{number}");
    }
    // At the edges of what is accepted.
    let oldest = Row { age: 3_600, ..ROW };
    let unused = Row { used: 0, ..old };
    assert_eq!(take(&[oldest], &mut [unused]), counts(0, 1));
    let last = exports::ospf_book_update(3, &good, 1, beyond - 1, &mut [free]);
    assert_eq!(last, 1 << 40);
    // As many unused rows as identities, of more LSAs.
    assert_eq!(take(&[ROW, many, ROW, many], &mut [free; 2]), counts(0, 2));
    assert_eq!(take(&[ROW, many], &mut [free]), Err(NoFreeRow));
}

/// What the count or a declared length cuts off is not taken.
#[test]
fn only_what_is_accepted() {
    let other = Row {
        link_state_id: 7,
        age: 0xFFFF,
        ..ROW
    };
    let mut data = update(&[ROW, other]);
    for count in [0, 1] {
        let mut rows = [Row::default(); 2];
        let taken = take_update(Version::V3, &data, count, 0, &mut rows);
        assert_eq!(taken, counts(0, count as usize));
        assert!(!rows[1].is_used());
    }
    for declared in [19, 21] {
        *data.last_mut().unwrap() = declared;
        let taken = take_update(Version::V3, &data, 2, 0, &mut [Row::default(); 2]);
        assert_eq!(taken, counts(0, 1), "{declared}");
    }
    *data.last_mut().unwrap() = 20;
    let taken = take_update(Version::V3, &data, 2, 0, &mut [Row::default(); 2]);
    assert_eq!(taken, Err(Age));
}

/// As many LSAs as there can be, each of its own identity.
fn most() -> Vec<Row> {
    let row = |id| Row {
        link_state_id: id,
        ..ROW
    };
    (0..3_276).map(row).collect()
}

/// A book gets the rows that it needs, and keeps each at its place.
#[test]
fn book_grows() {
    let lsas = most();
    let mut book = Book::new();
    assert_eq!(book.rows(), []);
    for (n, part) in lsas.chunks(100).enumerate() {
        let data = update(part);
        let taken = book.take_update(Version::V3, &data, u32::MAX, 0);
        assert_eq!(taken, counts(0, part.len()), "{n}");
        assert!(book.iter().eq(&lsas[..100 * n + part.len()]));
    }
    let again = book.take_update(Version::V3, &update(&lsas), u32::MAX, 0);
    assert_eq!(again, counts(0, 0));
    assert!(book.iter().eq(&lsas));

    let newer = Row {
        sequence: ROW.sequence + 1,
        ..lsas[1_000]
    };
    let taken = book.take_update(Version::V3, &update(&[newer]), 1, 24);
    assert_eq!(taken, counts(1, 0));
    assert_eq!(book.rows()[1_000], newer);
    // The same identity in version 2 is another one.
    let other = Row {
        version: 2,
        ls_type: 0xB2,
        ..newer
    };
    let taken = book.take_update(Version::V2, &update(&[other]), 1, 24);
    assert_eq!(taken, counts(0, 1));
    assert_eq!(book.iter().last(), Some(&other));
    assert_eq!((&book).into_iter().count(), 3_277);
}

/// The library tells most rows apart by a bit for each identity, of which it has
/// 131,072. Of 20,000 rows with ids without a pattern some thousand share one: no
/// two of them share an identity for that, and a row that is there twice is found
/// wherever it stands.
#[test]
fn rows_that_share_a_bit() {
    let mut id = 1_u32;
    let mut rows: Vec<Row> = (0..20_000)
        .map(|_| {
            // All numbers of 32 bits in turn (xorshift), but for 0.
            id ^= id << 13;
            id ^= id >> 17;
            id ^= id << 5;
            Row {
                link_state_id: id,
                ..ROW
            }
        })
        .collect();
    let data = update(&[]);
    assert_eq!(
        take_update(Version::V3, &data, 0, 0, &mut rows),
        counts(0, 0)
    );
    for place in [0, 1, 9_999, 19_999] {
        let mut twice = rows.clone();
        twice.insert(place + 1, rows[place]);
        let taken = take_update(Version::V3, &data, 0, 0, &mut twice);
        assert_eq!(taken, Err(Refusal::SharedIdentity));
        twice.swap(place, 20_000);
        let taken = take_update(Version::V3, &data, 0, 0, &mut twice);
        assert_eq!(taken, Err(Refusal::SharedIdentity));
    }
}

/// Whole updates at once, and what does not fill all rows.
#[test]
fn book_of_the_most_lsas() {
    let lsas = most();
    let mut book = Book::new();
    let taken = book.take_update(Version::V3, &update(&lsas), 3_276, 0);
    assert_eq!(taken, counts(0, 3_276));
    assert!(book.iter().eq(&lsas));
    // Of one identity a single row, however many LSAs.
    let mut book = Book::new();
    let taken = book.take_update(Version::V3, &update(&[ROW; 50]), 50, 0);
    assert_eq!(taken, counts(0, 1));
    assert_eq!(book.iter().collect::<Vec<_>>(), [&ROW]);
}

/// A refused update leaves the book as it was, and gives no new rows.
#[test]
fn book_refuses() {
    let mut book = Book::new();
    let data = update(&[ROW]);
    assert_eq!(book.take_update(Version::V3, &data, 1, 0), counts(0, 1));
    let before = book.rows().to_vec();
    let old = update(&[Row { age: 3_601, ..ROW }]);
    let long = vec![0; 65_536];
    let refusals = [
        (book.take_update(Version::V3, &long, 1, 0), TooLong),
        (book.take_update(Version::V3, &data, 1, u64::MAX), Offset),
        (book.take_update(Version::V3, &data[..3], 1, 0), TooShort),
        (book.take_update(Version::V3, &old, 1, 0), Age),
    ];
    for (found, refusal) in refusals {
        assert_eq!(found, Err(refusal));
    }
    assert_eq!(book.rows(), before);
}
