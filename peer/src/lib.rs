//! The calls on IMMT ships' weather records of editions 1, 3 and 4 in ordinary Rust, written from the documents
//! alone. It shares no line with the proved crates, so that where both give the same answer neither has misread.

pub mod calls;
pub mod layout;
pub mod plain;
pub mod quick;
pub mod reading;
pub mod recasting;
pub mod report;
pub mod returns;
pub mod trial;
pub mod writing;

pub use layout::{Edition, ELEMENTS};
pub use reading::{Kind, Place, Reading};

/// What a call answers: number 0 for success, else the refusal; the place; and the elements lost, element 1 in bit 0 of
/// the first word and element 65 in bit 0 of the second.
#[derive(Clone, Copy, PartialEq, Eq, Debug)]
pub struct Answer {
    pub number: u64,
    pub place: u64,
    pub lost: [u64; 2],
}

impl Answer {
    #[inline]
    pub const fn refused(number: u64, place: u64) -> Answer {
        Answer { number, place, lost: [0, 0] }
    }

    #[inline]
    pub const fn done() -> Answer {
        Answer::refused(0, 0)
    }

    /// The elements lost, rising.
    pub fn lost_elements(&self) -> impl Iterator<Item = u64> {
        let mut words = self.lost;
        std::iter::from_fn(move || {
            let word = words.iter().position(|&word| word != 0)?;
            let bit = words[word].trailing_zeros();
            words[word] &= words[word] - 1;
            Some(64 * word as u64 + u64::from(bit) + 1)
        })
    }
}

/// Checks a record: either the refusal, 1 to 7, or its edition.
#[inline]
pub fn edition_of(record: &[u8]) -> Result<Edition, Answer> {
    quick::accepted(record).ok_or_else(|| plain::check(record))
}

/// Checks a record: refusals 1 to 7.
#[inline]
pub fn check(record: &[u8]) -> Answer {
    edition_of(record).map_or_else(|refusal| refusal, |_| Answer::done())
}

/// What an accepted record says: its edition, and the reading of every element, missing where the edition lacks it.
/// `all[0]` is the reading of element 1.
#[derive(Clone, PartialEq, Eq, Debug)]
pub struct Readings {
    pub edition: Edition,
    pub all: [Reading; ELEMENTS],
}

/// Checks a record and reads it: either the refusal, 1 to 7, or all the readings.
#[inline]
pub fn read(record: &[u8]) -> Result<Readings, Answer> {
    edition_of(record).map(|edition| Readings { edition, all: reading::readings(edition, record) })
}

/// The call sign as the part of the caller's own record from column 72 to its last character that is not blank;
/// empty where it is missing or the record is refused.
pub fn show_call_sign(record: &[u8]) -> &[u8] {
    if quick::accepted(record).is_none() {
        return &[];
    }
    call_sign(record)
}

/// The call sign of an accepted record.
#[inline]
pub(crate) fn call_sign(accepted: &[u8]) -> &[u8] {
    layout::text(accepted, 42).trim_ascii_end()
}

pub use recasting::recast;
pub use writing::write;
