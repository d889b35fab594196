//! The rules of check in the order and the words of the document. This is what an answer means; the quick pass only
//! says sooner that there is nothing to refuse.

use crate::layout::{blank, text, Edition};
use crate::Answer;

/// The number that a run of digits spells; nothing where a byte is not a digit.
pub fn number(text: &[u8]) -> Option<u64> {
    let mut value = 0;
    for &byte in text {
        if !byte.is_ascii_digit() {
            return None;
        }
        value = value * 10 + u64::from(byte - b'0');
    }
    Some(value)
}

fn within(text: &[u8], low: u64, high: u64) -> bool {
    number(text).is_some_and(|value| low <= value && value <= high)
}

fn digits(text: &[u8]) -> bool {
    number(text).is_some()
}

fn one_of(text: &[u8], allowed: &[u8]) -> bool {
    text.len() == 1 && allowed.contains(&text[0])
}

fn call_sign(text: &[u8]) -> bool {
    let length = text.iter().take_while(|byte| byte.is_ascii_uppercase() || byte.is_ascii_digit()).count();
    length >= 3 && blank(&text[length..])
}

/// Whether a text that is not blank is legal in an element of an edition. Elements 1 and 65 are answered here too,
/// for write; check has refusals of their own for them.
pub fn legal(edition: Edition, element: usize, text: &[u8]) -> bool {
    let four = edition == Edition::Four;
    match element {
        1 => one_of(text, b"345"),
        2 => digits(text),
        3 => within(text, 1, 12),
        4 => within(text, 1, 31),
        5 => within(text, 0, 23),
        6 if edition == Edition::One => one_of(text, b"01235678"),
        6 => one_of(text, b"1357"),
        7 => within(text, 0, 900),
        8 => within(text, 0, 1800),
        9 => one_of(text, b"0123"),
        10 | 12 | 24 | 25 | 26 | 27 => one_of(text, b"0123456789/"),
        11 => within(text, 0, 50) || within(text, 56, 99),
        13 | 34 | 56 => within(text, 0, 36) || within(text, 99, 99),
        14 => one_of(text, b"0134"),
        15 | 32 | 33 | 35 | 36 | 38 | 57 | 58 => digits(text),
        16 | 28 => one_of(text, b"01"),
        17 | 19 | 29 | 51 => digits(text),
        18 | 50 => one_of(text, b"012567"),
        20 => within(text, 0, 999) || within(text, 8000, 9999),
        21..=23 => digits(text),
        30 => one_of(text, b"01234567"),
        31 => digits(text),
        37 => one_of(text, b"12345"),
        39 => one_of(text, b"01234"),
        40 => one_of(text, b"0123456"),
        41 if four => one_of(text, b"01234569"),
        41 => digits(text),
        42 => call_sign(text),
        43 if edition == Edition::One => digits(text),
        43 => text.iter().all(u8::is_ascii_uppercase),
        44 => (33..=126).contains(&text[0]),
        45 => one_of(text, b"01234569"),
        46 => one_of(text, b"147"),
        47 => one_of(text, b"01234"),
        48 => within(text, 1, 999),
        49 => digits(text),
        52 => one_of(text, b"012345678"),
        53 => digits(text),
        54 | 55 | 59..=63 => one_of(text, b"0123456789/"),
        64 if four => one_of(text, b"0123456789A"),
        64 => one_of(text, b"012345678"),
        65 => text[0] == edition.digit(),
        66..=85 if four => one_of(text, b"012345679"),
        66..=85 => one_of(text, b"0123459"),
        _ if element > edition.last_element() => false,
        86 if four => one_of(text, b"123456"),
        86 => one_of(text, b"12345"),
        87 | 88 | 92 => within(text, 0, 360),
        89 | 90 => digits(text),
        91 => one_of(&text[..1], b"01") && digits(text) && text != b"100",
        93 => digits(text),
        94..=101 if four => one_of(text, b"012345679"),
        94..=101 => one_of(text, b"0123459"),
        _ => false,
    }
}

/// The sign elements of the four temperatures, air, dew point, sea and wet bulb; each value is the next element.
pub const SIGNS: [usize; 4] = [16, 18, 28, 50];

/// How many ties there are; they are numbered from 1.
pub const TIES: usize = 10;

/// Whether an octant may stand with the digits of a longitude (tie 2).
pub const fn octant_holds(octant: u8, longitude: u64) -> bool {
    match octant {
        b'0' | b'3' | b'5' | b'8' => longitude <= 900,
        _ => longitude >= 900,
    }
}

/// Whether February has a 29th in a year of the Gregorian calendar, which here reaches back to year 0.
fn leap(year: u64) -> bool {
    year.is_multiple_of(4) && (!year.is_multiple_of(100) || year.is_multiple_of(400))
}

/// The last day that a month may have in a year (tie 10): the widest where the year or the month is blank.
pub fn last_day(year: Option<u64>, month: Option<u64>) -> u64 {
    match month {
        Some(4 | 6 | 9 | 11) => 30,
        Some(2) => match year {
            Some(year) if !leap(year) => 28,
            _ => 29,
        },
        _ => 31,
    }
}

/// The lowest tie that is broken in a record whose elements are all blank or legal.
pub fn broken_tie(edition: Edition, record: &[u8]) -> Option<u64> {
    let there = |element: usize| !blank(text(record, element));

    if there(6) != there(7) || there(7) != there(8) {
        return Some(1);
    }
    if edition == Edition::One && there(6) {
        let longitude = number(text(record, 8)).unwrap_or(0);
        if !octant_holds(text(record, 6)[0], longitude) {
            return Some(2);
        }
    }
    for (index, &sign) in SIGNS.iter().enumerate() {
        let negative = one_of(text(record, sign), b"16");
        if there(sign) != there(sign + 1) || (negative && text(record, sign + 1) == b"000") {
            return Some(3 + index as u64);
        }
    }
    for sign in SIGNS {
        let value = text(record, sign + 1);
        let fits = match record[0] {
            b'4' => one_of(&value[2..], b"05"),
            b'5' => one_of(&value[2..], b"0"),
            _ => true,
        };
        // Air and sea are bound always, dew point and wet bulb only where they were measured.
        let bound = matches!(sign, 16 | 28) || one_of(text(record, sign), b"012");
        if there(sign + 1) && bound && !fits {
            return Some(7);
        }
    }
    if there(15) && !there(14) {
        return Some(8);
    }
    if edition != Edition::One && there(93) && !there(14) {
        return Some(9);
    }
    let date = |element: usize| number(text(record, element));
    if date(4).is_some_and(|day| day > last_day(date(2), date(3))) {
        return Some(10);
    }
    None
}

/// Check, refusals 1 to 7 in their order.
pub fn check(record: &[u8]) -> Answer {
    if record.len() != 131 && record.len() != 159 {
        return Answer::refused(1, 0);
    }
    if let Some(position) = record.iter().position(|byte| !(32..=126).contains(byte)) {
        return Answer::refused(2, position as u64 + 1);
    }
    if !matches!(record[0], b'3' | b'4' | b'5') {
        return Answer::refused(3, 1);
    }
    let Some(edition) = Edition::from_digit(record[110]) else {
        return Answer::refused(4, 111);
    };
    if record.len() != edition.length() {
        return Answer::refused(5, 0);
    }
    for element in 1..=edition.last_element() {
        let text = text(record, element);
        if !blank(text) && !legal(edition, element, text) {
            return Answer::refused(6, element as u64);
        }
    }
    match broken_tie(edition, record) {
        Some(tie) => Answer::refused(7, tie),
        None => Answer::done(),
    }
}
