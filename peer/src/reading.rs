//! What the text of an element says, and the text that says a reading.

use crate::layout::{blank, span, text, width, Edition, ELEMENTS};
use crate::plain::{legal, number, SIGNS};

/// How an amount came about.
#[derive(Clone, Copy, PartialEq, Eq, Debug)]
pub enum Kind {
    Measured,
    Computed,
    IcedMeasured,
    IcedComputed,
}

/// Signed hundredths of a degree of latitude, hundredths of longitude east of Greenwich (0 to 35999), and the digit of
/// column 12 as it stands.
#[derive(Clone, Copy, PartialEq, Eq, Debug)]
pub struct Place {
    pub latitude: i64,
    pub longitude: u64,
    pub digit: u64,
}

#[derive(Clone, Copy, PartialEq, Eq, Debug)]
pub enum Reading {
    Missing,
    Code(u64),
    /// The bytes of the columns as one number, the first byte highest.
    Text(u64),
    Amount(i64, Kind),
    Place(Place),
}

/// The hemispheres of a column 12 digit: south and west. Nothing where the edition has no such digit.
pub const fn hemispheres(edition: Edition, digit: u64) -> Option<(bool, bool)> {
    if matches!(edition, Edition::One) {
        match digit {
            0 | 1 => Some((false, true)),
            2 | 3 => Some((false, false)),
            5 | 6 => Some((true, true)),
            7 | 8 => Some((true, false)),
            _ => None,
        }
    } else {
        match digit {
            1 => Some((false, false)),
            3 => Some((true, false)),
            5 => Some((true, true)),
            7 => Some((false, true)),
            _ => None,
        }
    }
}

/// Hundredths of a degree in a tenth: the columns count tenths and a place hundredths.
const HUNDREDTHS: u64 = 10;

/// Signed latitude and east longitude, in hundredths, of the tenths in the columns and the hemispheres; 180.0 W is
/// 180.0 E and 0.0 W is 0.0 E.
pub const fn position(hemispheres: (bool, bool), latitude: u64, longitude: u64) -> (i64, u64) {
    let (south, west) = hemispheres;
    let latitude = (latitude * HUNDREDTHS) as i64;
    let longitude = longitude * HUNDREDTHS;
    let east = if west { (36000 - longitude) % 36000 } else { longitude };
    (if south { -latitude } else { latitude }, east)
}

/// The element that names the group an element shares its reading with; itself where it shares with none.
pub fn group(element: usize) -> usize {
    match element {
        6..=8 => 6,
        16 | 17 => 16,
        18 | 19 => 18,
        28 | 29 => 28,
        50 | 51 => 50,
        _ => element,
    }
}

fn as_text(bytes: &[u8]) -> Reading {
    Reading::Text(bytes.iter().fold(0, |value, &byte| value << 8 | u64::from(byte)))
}

fn signed(sign: u8, digits: &[u8]) -> Reading {
    let value = number(digits).unwrap_or(0) as i64;
    match sign {
        b'0' => Reading::Amount(value, Kind::Measured),
        b'1' => Reading::Amount(-value, Kind::Measured),
        b'2' => Reading::Amount(-value, Kind::IcedMeasured),
        b'5' => Reading::Amount(value, Kind::Computed),
        b'6' => Reading::Amount(-value, Kind::Computed),
        _ => Reading::Amount(-value, Kind::IcedComputed),
    }
}

/// The reading of an element of an accepted record.
pub fn reading(edition: Edition, record: &[u8], element: usize) -> Reading {
    let bytes = text(record, element);
    if blank(bytes) {
        return Reading::Missing;
    }
    match group(element) {
        6 => {
            let digit = u64::from(text(record, 6)[0] - b'0');
            let latitude = number(text(record, 7)).unwrap_or(0);
            let longitude = number(text(record, 8)).unwrap_or(0);
            let sides = hemispheres(edition, digit).unwrap_or((false, false));
            let (latitude, longitude) = position(sides, latitude, longitude);
            Reading::Place(Place { latitude, longitude, digit })
        }
        sign @ (16 | 18 | 28 | 50) => signed(text(record, sign)[0], text(record, sign + 1)),
        20 => {
            let tenths = number(bytes).unwrap_or(0);
            // The leading 1 is left out of the columns from 1000 hPa on.
            Reading::Code(if tenths < 1000 { tenths + 10000 } else { tenths })
        }
        42..=44 => as_text(bytes),
        91 => signed(bytes[0], &bytes[1..]),
        _ => match number(bytes) {
            Some(value) => Reading::Code(value),
            None => as_text(bytes),
        },
    }
}

/// What an element of one column reads as, by its byte.
static ONE_COLUMN: [Reading; 256] = {
    let mut readings = [Reading::Missing; 256];
    let mut byte = b'!';
    while byte <= b'~' {
        readings[byte as usize] = match byte {
            b'0'..=b'9' => Reading::Code((byte - b'0') as u64),
            _ => Reading::Text(byte as u64),
        };
        byte += 1;
    }
    readings
};

/// The elements of two, three and four columns that read as a code, their digits as they stand.
pub(crate) const TWO_COLUMNS: [usize; 18] = [3, 4, 5, 11, 13, 15, 21, 32, 33, 34, 35, 36, 38, 56, 57, 58, 89, 90];
pub(crate) const THREE_COLUMNS: [usize; 6] = [48, 53, 87, 88, 92, 93];
pub(crate) const FOUR_COLUMNS: [usize; 1] = [2];

/// Reads some of these elements, all of the same width, out of an accepted record.
#[inline(always)]
fn put_codes<const WIDTH: usize>(elements: &[usize], record: &[u8], all: &mut [Reading; ELEMENTS]) {
    for &element in elements {
        let start = span(element).start;
        // The edition may lack the last of them.
        let Some(columns) = record.get(start..start + WIDTH) else { return };
        let value = columns.iter().fold(0, |value, byte| 10 * value + u64::from(byte & 15));
        all[element - 1] = if columns[0] == b' ' { Reading::Missing } else { Reading::Code(value) };
    }
}

/// The readings of all elements of an accepted record, missing where the edition lacks the element: what `reading` says
/// of each, with most of them read by their width alone and only the rest by that rule.
pub fn readings(edition: Edition, record: &[u8]) -> [Reading; ELEMENTS] {
    let mut all = [Reading::Missing; ELEMENTS];
    // An accepted element is blank where its first column is.
    for (element, slot) in (1..).zip(&mut all[..edition.last_element()]) {
        *slot = ONE_COLUMN[usize::from(record[span(element).start])];
    }
    put_codes::<2>(&TWO_COLUMNS, record, &mut all);
    put_codes::<3>(&THREE_COLUMNS, record, &mut all);
    put_codes::<4>(&FOUR_COLUMNS, record, &mut all);
    all[5..8].fill(reading(edition, record, 6));
    for sign in SIGNS {
        all[sign - 1..=sign].fill(reading(edition, record, sign));
    }
    for element in [20, 42, 43, 44] {
        all[element - 1] = reading(edition, record, element);
    }
    if edition != Edition::One {
        all[90] = reading(edition, record, 91);
    }
    all
}

/// Spells a number in the digits of all the columns; nothing where it does not fit.
fn spell(mut value: u64, columns: &mut [u8]) -> Option<()> {
    for column in columns.iter_mut().rev() {
        *column = b'0' + (value % 10) as u8;
        value /= 10;
    }
    (value == 0).then_some(())
}

fn spell_text(mut value: u64, columns: &mut [u8]) -> Option<()> {
    for column in columns.iter_mut().rev() {
        *column = (value & 255) as u8;
        value >>= 8;
    }
    (value == 0).then_some(())
}

/// The sign column of an amount; zero that is not iced takes the sign without minus, which keeps its tie.
fn sign_of(value: i64, kind: Kind) -> Option<u8> {
    match kind {
        Kind::Measured if value >= 0 => Some(b'0'),
        Kind::Measured => Some(b'1'),
        Kind::Computed if value >= 0 => Some(b'5'),
        Kind::Computed => Some(b'6'),
        Kind::IcedMeasured if value <= 0 => Some(b'2'),
        Kind::IcedComputed if value <= 0 => Some(b'7'),
        _ => None,
    }
}

fn put_place(edition: Edition, place: Place, record: &mut [u8]) -> Option<()> {
    let (south, west) = hemispheres(edition, place.digit)?;
    let longitude = match (west, place.longitude) {
        (true, 1..=35999) => 36000 - place.longitude,
        (_, other) => other,
    } / HUNDREDTHS;
    let latitude = place.latitude.unsigned_abs() / HUNDREDTHS;
    // What is left over of a tenth no columns say: the position is another then.
    if latitude > 900
        || longitude > 1800
        || position((south, west), latitude, longitude) != (place.latitude, place.longitude)
    {
        return None;
    }
    record[11] = b'0' + place.digit as u8;
    spell(latitude, &mut record[span(7)])?;
    spell(longitude, &mut record[span(8)])
}

/// Puts the legal text of an element, or of the whole group that the element names, into a record; nothing where no
/// legal text gives the reading. The record may be left half written then, so the caller writes to a copy.
pub fn put(edition: Edition, element: usize, reading: Reading, record: &mut [u8]) -> Option<()> {
    let columns = span(element);
    match (element, reading) {
        (_, Reading::Missing) => {
            let last = match element {
                6 => 8,
                16 | 18 | 28 | 50 => element + 1,
                _ => element,
            };
            record[columns.start..span(last).end].fill(b' ');
            (element != 1 && element != 65).then_some(())
        }
        (6, Reading::Place(place)) => put_place(edition, place, record),
        (16 | 18 | 28 | 50, Reading::Amount(value, kind)) => {
            let sign = sign_of(value, kind)?;
            record[columns.start] = sign;
            spell(value.unsigned_abs(), &mut record[span(element + 1)])?;
            legal(edition, element, &[sign]).then_some(())
        }
        (91, Reading::Amount(value, Kind::Measured)) => {
            let columns = &mut record[columns];
            columns[0] = sign_of(value, Kind::Measured)?;
            spell(value.unsigned_abs(), &mut columns[1..])?;
            legal(edition, 91, columns).then_some(())
        }
        (6 | 16 | 18 | 28 | 50 | 91, _) => None,
        (20, Reading::Code(value)) => {
            let tenths = match value {
                10000..=10999 => value - 10000,
                8000..=9999 => value,
                _ => return None,
            };
            spell(tenths, &mut record[columns])
        }
        (42..=44, Reading::Text(value)) => {
            let columns = &mut record[columns];
            spell_text(value, columns)?;
            (!blank(columns) && legal(edition, element, columns)).then_some(())
        }
        (42..=44, _) => None,
        (_, Reading::Code(value)) => {
            let columns = &mut record[columns];
            spell(value, columns)?;
            legal(edition, element, columns).then_some(())
        }
        // A text is read from one column that holds no digit; digits are read as a code.
        (_, Reading::Text(value)) if width(element) == 1 => {
            let columns = &mut record[columns];
            spell_text(value, columns)?;
            (!columns[0].is_ascii_digit() && !blank(columns) && legal(edition, element, columns)).then_some(())
        }
        _ => None,
    }
}
