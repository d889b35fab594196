//! The records that the tests ask about.

use peer::Edition;

/// A record of an edition with 3 in column 1, blank but for the texts at the columns.
pub fn record(edition: u64, texts: &[(usize, &str)]) -> Vec<u8> {
    let edition = Edition::from_number(edition).unwrap();
    let mut record = vec![b' '; edition.length()];
    record[0] = b'3';
    record[110] = edition.digit();
    for (column, text) in texts {
        record[column - 1..column - 1 + text.len()].copy_from_slice(text.as_bytes());
    }
    record
}
