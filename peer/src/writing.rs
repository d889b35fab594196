//! A record written from readings.

use crate::layout::{span, width, Edition, ELEMENTS, LONGEST};
use crate::plain::{broken_tie, SIGNS};
use crate::quick;
use crate::reading::{group, put, Reading, FOUR_COLUMNS, THREE_COLUMNS, TWO_COLUMNS};
use crate::Answer;

/// The elements that are spelled by the rule for an element, or for the group that it names.
const BY_RULE: [usize; 10] = [6, 16, 18, 20, 28, 42, 43, 44, 50, 91];

/// The elements of one column that read as a code where it holds a digit, and else as a text.
const ONE_COLUMN: [usize; 60] = {
    let mut elements = [0; 60];
    let mut count = 0;
    let mut element = 1;
    while element <= ELEMENTS {
        if width(element) == 1 && !matches!(element, 6 | 16 | 18 | 28 | 44 | 50) {
            elements[count] = element;
            count += 1;
        }
        element += 1;
    }
    assert!(count == elements.len());
    elements
};

/// The byte of such a column that reads so.
#[inline(always)]
fn one_column(reading: Reading) -> Option<u8> {
    match reading {
        Reading::Missing => Some(b' '),
        Reading::Code(value @ 0..=9) => Some(b'0' + value as u8),
        Reading::Text(value @ 33..=126) if !(value as u8).is_ascii_digit() => Some(value as u8),
        _ => None,
    }
}

/// Spells some of these elements, all of the same width, whose digits read as a code.
#[inline(always)]
fn spell_codes<const WIDTH: usize>(
    elements: &[usize],
    readings: &[Reading; ELEMENTS],
    record: &mut [u8],
) -> Option<()> {
    for &element in elements {
        let columns: &mut [u8; WIDTH] = (&mut record[span(element)]).try_into().ok()?;
        match readings[element - 1] {
            Reading::Missing => *columns = [b' '; WIDTH],
            Reading::Code(mut value) => {
                for column in columns.iter_mut().rev() {
                    *column = b'0' + (value % 10) as u8;
                    value /= 10;
                }
                if value != 0 {
                    return None;
                }
            }
            _ => return None,
        }
    }
    Some(())
}

/// The record of the readings, spelled by the widths of the elements and looked at once it is whole: where it is accepted,
/// every text in it is legal and no tie is broken. Nothing where the rules have to be asked.
fn quick_record(edition: Edition, readings: &[Reading; ELEMENTS]) -> Option<[u8; LONGEST]> {
    // Elements that share a reading must have the same, and an edition has none for the elements that it lacks.
    let shared = readings[5] == readings[6]
        && readings[6] == readings[7]
        && SIGNS.iter().all(|&sign| readings[sign - 1] == readings[sign]);
    let none_lacking = readings[edition.last_element()..].iter().all(|&reading| reading == Reading::Missing);
    if !shared || !none_lacking {
        return None;
    }
    let mut record = [b' '; LONGEST];
    for element in ONE_COLUMN {
        record[span(element).start] = one_column(readings[element - 1])?;
    }
    spell_codes::<2>(&TWO_COLUMNS, readings, &mut record)?;
    spell_codes::<3>(&THREE_COLUMNS, readings, &mut record)?;
    spell_codes::<4>(&FOUR_COLUMNS, readings, &mut record)?;
    for element in BY_RULE {
        put(edition, element, readings[element - 1], &mut record)?;
    }
    (quick::accepted(&record[..edition.length()]) == Some(edition)).then_some(record)
}

/// Write: refusals 8, 6, 7, 9 in this order. `readings[0]` is the reading of element 1.
pub fn write(edition: u64, readings: &[Reading; ELEMENTS], buffer: &mut [u8]) -> Answer {
    let quick = Edition::from_number(edition).and_then(|edition| Some((edition, quick_record(edition, readings)?)));
    match quick {
        Some((edition, record)) => copy_into(buffer, &record[..edition.length()]),
        None => plain_write(edition, readings, buffer),
    }
}

/// The record in the lent buffer, or refusal 9 where it is too short.
fn copy_into(buffer: &mut [u8], record: &[u8]) -> Answer {
    let Some(front) = buffer.get_mut(..record.len()) else {
        return Answer::refused(9, 0);
    };
    front.copy_from_slice(record);
    Answer::done()
}

/// Write by the rule for every element, in the order of the refusals.
pub fn plain_write(edition: u64, readings: &[Reading; ELEMENTS], buffer: &mut [u8]) -> Answer {
    let Some(edition) = Edition::from_number(edition) else {
        return Answer::refused(8, 0);
    };
    let mut record = [b' '; LONGEST];
    for element in 1..=ELEMENTS {
        let reading = readings[element - 1];
        if element > edition.last_element() {
            if reading != Reading::Missing {
                return Answer::refused(6, element as u64);
            }
            continue;
        }
        if group(element) != element {
            // Judged with the lowest element of its group, which bears the name where they differ.
            continue;
        }
        let differs = (element + 1..=ELEMENTS)
            .take_while(|&other| group(other) == element)
            .any(|other| readings[other - 1] != reading);
        if differs || put(edition, element, reading, &mut record).is_none() {
            return Answer::refused(6, element as u64);
        }
    }
    if let Some(tie) = broken_tie(edition, &record) {
        return Answer::refused(7, tie);
    }
    copy_into(buffer, &record[..edition.length()])
}
