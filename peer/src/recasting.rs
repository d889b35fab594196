//! A record recast into another edition.

use crate::layout::{blank, span, text, Edition, LONGEST};
use crate::plain::{self, legal, number, octant_holds};
use crate::quick;
use crate::reading::{hemispheres, position};
use crate::Answer;

/// The column 12 digit in the target for the place of an accepted record: the lowest that gives the same place and keeps
/// tie 2. Every place has one in every edition.
fn digit_for(from: Edition, to: Edition, record: &[u8]) -> u8 {
    let tenths = |element| number(text(record, element)).expect("a place is there as a whole");
    let (latitude, longitude) = (tenths(7), tenths(8));
    let place = |edition: Edition, digit: u8| {
        hemispheres(edition, u64::from(digit - b'0')).map(|sides| position(sides, latitude, longitude))
    };
    let wanted = place(from, record[11]);
    (b'0'..=b'8')
        .find(|&digit| place(to, digit) == wanted && (to != Edition::One || octant_holds(digit, longitude)))
        .expect("every place has a digit in every edition")
}

/// The same digits in a table: by the digit in the record, whether the latitude is 000, and where the longitude stands
/// among 0000, 0900 and 1800. Nothing else of a place decides.
type Digits = [[[u8; 5]; 2]; 9];

/// A longitude of each kind: 0000, below 0900, 0900, above it, 1800.
const KINDS_OF_LONGITUDE: [u64; 5] = [0, 1, 900, 901, 1800];

const fn digits(from: Edition, to: Edition) -> Digits {
    let mut digits = [[[0; 5]; 2]; 9];
    let mut digit = 0;
    while digit < 9 {
        let mut latitude = 0;
        while latitude < 2 {
            let mut kind = 0;
            while kind < 5 {
                let longitude = KINDS_OF_LONGITUDE[kind];
                // From above, so that the lowest stays.
                let mut other = 9;
                while other > 0 {
                    other -= 1;
                    if let (Some(sides), Some(other_sides)) = (hemispheres(from, digit), hemispheres(to, other)) {
                        let (north, east) = position(sides, latitude, longitude);
                        let (other_north, other_east) = position(other_sides, latitude, longitude);
                        let character = b'0' + other as u8;
                        let holds = !matches!(to, Edition::One) || octant_holds(character, longitude);
                        if north == other_north && east == other_east && holds {
                            digits[digit as usize][latitude as usize][kind] = character;
                        }
                    }
                }
                kind += 1;
            }
            latitude += 1;
        }
        digit += 1;
    }
    digits
}

/// To quadrants, which editions 3 and 4 share, and to octants.
static QUADRANTS: Digits = digits(Edition::One, Edition::Three);
static OCTANTS: Digits = digits(Edition::Three, Edition::One);

#[inline(always)]
fn digit_of_table(to: Edition, record: &[u8]) -> u8 {
    let table = if matches!(to, Edition::One) { &OCTANTS } else { &QUADRANTS };
    let longitude = &record[15..19];
    let longitude = u32::from_be_bytes([longitude[0], longitude[1], longitude[2], longitude[3]]);
    // Digits of one length stand in the order of their numbers.
    let kind = usize::from(longitude > u32::from_be_bytes(*b"0000"))
        + usize::from(longitude >= u32::from_be_bytes(*b"0900"))
        + usize::from(longitude > u32::from_be_bytes(*b"0900"))
        + usize::from(longitude >= u32::from_be_bytes(*b"1800"));
    table[usize::from(record[11] - b'0')][usize::from(record[12..15] != *b"000")][kind]
}

/// Whether the characters of an element that is filled say the same in the target.
fn kept(from: Edition, to: Edition, element: usize, text: &[u8]) -> bool {
    if from == to || element == 65 {
        return true;
    }
    let across_one = (from == Edition::One) != (to == Edition::One);
    let across_four = (from == Edition::Four) != (to == Edition::Four);
    match element {
        // The place is recast as one.
        6..=8 => true,
        43 => !across_one,
        40 if across_four && (text == b"1" || text == b"4") => false,
        41 if across_four && (text == b"4" || text == b"9") => false,
        _ => element <= to.last_element() && legal(to, element, text),
    }
}

/// Recast by the rule for every element; the quick one below is held to it.
pub fn plain_recast(record: &[u8], edition: u64, buffer: &mut [u8]) -> Answer {
    let refusal = plain::check(record);
    if refusal.number != 0 {
        return refusal;
    }
    let from = Edition::from_digit(record[110]).expect("an accepted record names its edition");
    let Some(to) = Edition::from_number(edition) else {
        return Answer::refused(8, 0);
    };
    let mut result = [b' '; LONGEST];
    result[..record.len()].copy_from_slice(record);
    if (from == Edition::One) != (to == Edition::One) && record[11] != b' ' {
        result[11] = digit_for(from, to, record);
    }
    if buffer.len() < to.length() {
        return Answer::refused(9, 0);
    }
    let mut lost = [0u64; 2];
    for element in 1..=from.last_element() {
        let text = text(record, element);
        if !blank(text) && !kept(from, to, element, text) {
            lost[(element - 1) / 64] |= 1 << ((element - 1) % 64);
            result[span(element)].fill(b' ');
        }
    }
    result[110] = to.digit();
    buffer[..to.length()].copy_from_slice(&result[..to.length()]);
    Answer { lost, ..Answer::done() }
}

const fn bit(element: usize) -> u64 {
    1 << ((element - 1) % 64)
}

/// First position and element of the two runs of flags.
const FLAGS: (usize, usize, usize) = (111, 66, 20);
const LATER_FLAGS: (usize, usize, usize) = (151, 94, 8);

/// Flags 6 and 7 of a run, which edition 4 alone has, are lost.
#[inline(always)]
fn lose_flags(run: (usize, usize, usize), result: &mut [u8; LONGEST]) -> u64 {
    let (position, element, count) = run;
    let mut lost = 0;
    for index in 0..count {
        let byte = result[position + index];
        let gone = byte & 0xfe == b'6';
        lost |= u64::from(gone) << (element - 65 + index);
        result[position + index] = if gone { b' ' } else { byte };
    }
    lost
}

/// Whether the elements 86 to 101 are filled, as bits of the second word. An accepted element is filled where its first
/// column is.
#[inline(always)]
fn later_filled(record: &[u8]) -> u64 {
    let mut filled = 0;
    let mut element = 86;
    while element <= 101 {
        filled |= u64::from(record[span(element).start] != b' ') << (element - 65);
        element += 1;
    }
    filled
}

/// Recast: refusals 1 to 9 in this order.
#[inline]
pub fn recast(record: &[u8], edition: u64, buffer: &mut [u8]) -> Answer {
    let Some(from) = quick::accepted(record) else {
        return plain::check(record);
    };
    let Some(to) = Edition::from_number(edition) else {
        return Answer::refused(8, 0);
    };
    let across_one = matches!(from, Edition::One) != matches!(to, Edition::One);
    let across_four = matches!(from, Edition::Four) != matches!(to, Edition::Four);

    let mut digit = record[11];
    if across_one && digit != b' ' {
        digit = digit_of_table(to, record);
    }
    let length = to.length();
    if buffer.len() < length {
        return Answer::refused(9, 0);
    }
    if from == to {
        buffer[..length].copy_from_slice(record);
        return Answer::done();
    }

    let mut result = [b' '; LONGEST];
    match from {
        Edition::One => result[..131].copy_from_slice(&record[..131]),
        Edition::Three | Edition::Four => result.copy_from_slice(&record[..159]),
    }
    let mut lost = [0u64; 2];
    result[11] = digit;
    result[110] = to.digit();
    if across_one {
        lost[0] |= if result[78] != b' ' { bit(43) } else { 0 };
        result[78] = b' ';
        result[79] = b' ';
    }
    if across_four {
        // Logbooks of two kinds.
        if matches!(result[69], b'1' | b'4') {
            lost[0] |= bit(40);
            result[69] = b' ';
        }
        // Platforms that are others in the other edition; 7 and 8 do not stand in edition 4.
        if matches!(result[70], b'4' | b'7' | b'8' | b'9') {
            lost[0] |= bit(41);
            result[70] = b' ';
        }
    }
    if matches!(from, Edition::Four) {
        if matches!(result[109], b'9' | b'A') {
            lost[0] |= bit(64);
            result[109] = b' ';
        }
        lost[1] |= lose_flags(FLAGS, &mut result);
        if matches!(to, Edition::Three) {
            if result[131] == b'6' {
                lost[1] |= bit(86);
                result[131] = b' ';
            }
            lost[1] |= lose_flags(LATER_FLAGS, &mut result);
        }
    }
    if matches!(to, Edition::One) {
        lost[1] |= later_filled(record);
        buffer[..131].copy_from_slice(&result[..131]);
    } else {
        buffer[..159].copy_from_slice(&result);
    }
    Answer { lost, ..Answer::done() }
}
