//! A strip's bytes from its listing, for expectations written by hand.
//!
//! This follows the requirements' two tables (the kinds, and the words that the
//! small program prints) and shares no code with the oracle.
//!
//! ```
//! let open = listing::hex("01 72 00000000 FFFF0000 00000002");
//! assert_eq!(listing::strip("open 114 0 4294901760 2"), open);
//! assert_eq!(listing::strip("u16 6 16 18 4660"), listing::hex("04 06 00000010 00000012 1234"));
//! let most = listing::strip("u64 147 8 16 18446744073709551615");
//! assert_eq!(most, listing::hex("0A 93 00000008 00000010 FFFFFFFFFFFFFFFF"));
//! assert_eq!(listing::strip("never 19 25 28"), listing::hex("09 13 00000019 0000001C"));
//! ```

/// The kinds: the number of each, its word, and how many bytes its body has.
pub const KINDS: [(u8, &str, usize); 10] = [
    (1, "open", 13),
    (2, "close", 0),
    (3, "u8", 10),
    (4, "u16", 11),
    (5, "u32", 13),
    (6, "ip4", 13),
    (7, "ip6", 25),
    (8, "bytes", 9),
    (9, "never", 9),
    (10, "u64", 17),
];

/// The word of a kind, and how many bytes its body has; none where no kind
/// has this number.
pub fn kind(number: u8) -> Option<(&'static str, usize)> {
    let row = KINDS.iter().find(|row| row.0 == number);
    row.map(|&(_, word, body)| (word, body))
}

/// The bytes of a strip, one entry a line. Panics on a line it cannot read.
pub fn strip(listing: &str) -> Vec<u8> {
    let lines = listing.lines().map(str::trim);
    lines.filter(|l| !l.is_empty()).flat_map(entry).collect()
}

/// The bytes written in hexadecimal; spaces and line ends do not count.
pub fn hex(digits: &str) -> Vec<u8> {
    let digits: String = digits.split_whitespace().collect();
    assert!(digits.len().is_multiple_of(2), "half a byte in {digits:?}");
    let pairs = (0..digits.len()).step_by(2).map(|i| &digits[i..i + 2]);
    pairs
        .map(|pair| u8::from_str_radix(pair, 16).expect("two hexadecimal digits"))
        .collect()
}

/// `n` times the same byte.
pub fn bytes(n: usize, byte: u8) -> Vec<u8> {
    vec![byte; n]
}

fn entry(line: &str) -> Vec<u8> {
    let words: Vec<&str> = line.split_whitespace().collect();
    let kind = KINDS.iter().find(|row| row.1 == words[0]);
    let &(kind, word, body) = kind.unwrap_or_else(|| panic!("no kind is called {:?}", words[0]));
    let mut out = vec![kind];
    if word == "close" {
        return out;
    }
    out.extend(number(words[1], 1));
    out.extend(number(words[2], 4));
    out.extend(number(words[3], 4));
    match word {
        "ip4" => out.extend(words[4].split('.').flat_map(|part| number(part, 1))),
        "ip6" => out.extend(hex(words[4])),
        _ if body > 9 => out.extend(number(words[4], body - 9)),
        _ => assert_eq!(words.len(), 4, "no value in {line:?}"),
    }
    assert_eq!(out.len(), 1 + body, "the value of {line:?}");
    out
}

/// A decimal number as `width` bytes, the highest first.
fn number(word: &str, width: usize) -> Vec<u8> {
    let number: u64 = word.parse().expect("a decimal number");
    // All 64 bits shifted out leave nothing.
    let beyond = number.checked_shr(8 * width as u32).unwrap_or(0);
    assert!(beyond == 0, "{number} in {width} bytes");
    number.to_be_bytes()[8 - width..].to_vec()
}
