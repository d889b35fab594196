//! Records and calls to try the implementations on, made from a seed so that a difference can be made again.

use crate::calls::Call;
use crate::layout::{blank, span, text, width, Edition, ELEMENTS};
use crate::plain::{last_day, legal, number, octant_holds, SIGNS, TIES};
use crate::reading::{group, Kind, Place, Reading};

/// A run of numbers that looks like chance: the splitmix generator.
pub struct Chance(u64);

impl Chance {
    pub fn new(seed: u64) -> Chance {
        Chance(seed)
    }

    pub fn number(&mut self) -> u64 {
        self.0 = self.0.wrapping_add(0x9e37_79b9_7f4a_7c15);
        let mut mixed = self.0;
        mixed = (mixed ^ (mixed >> 30)).wrapping_mul(0xbf58_476d_1ce4_e5b9);
        mixed = (mixed ^ (mixed >> 27)).wrapping_mul(0x94d0_49bb_1331_11eb);
        mixed ^ (mixed >> 31)
    }

    pub fn below(&mut self, limit: usize) -> usize {
        (self.number() % limit as u64) as usize
    }

    pub fn one_in(&mut self, count: usize) -> bool {
        self.below(count) == 0
    }

    pub fn pick<T: Copy>(&mut self, choices: &[T]) -> T {
        choices[self.below(choices.len())]
    }
}

/// The families of records.
#[derive(Clone, Copy, PartialEq, Eq, Debug)]
pub enum Family {
    Random,
    Typical,
    Damaged,
    Boundary,
    Ties,
    Lengths,
    Bytes,
    Mixed,
}

impl Family {
    pub const ALL: [(&'static str, Family); 8] = [
        ("random", Family::Random),
        ("typical", Family::Typical),
        ("damaged", Family::Damaged),
        ("boundary", Family::Boundary),
        ("ties", Family::Ties),
        ("lengths", Family::Lengths),
        ("bytes", Family::Bytes),
        ("mixed", Family::Mixed),
    ];

    pub fn of_name(name: &str) -> Option<Family> {
        Family::ALL.iter().find(|family| family.0 == name).map(|family| family.1)
    }
}

const LENGTHS: [usize; 9] = [0, 1, 130, 131, 132, 158, 159, 160, 172];
/// 32 and 126 are the last that may stand in a record.
const ODD_BYTES: [u8; 11] = [0, 9, 10, 13, 31, 32, 126, 127, 128, 160, 255];

/// Texts about the limits of every element: the first and the last of every run of legal texts, the ones just beyond,
/// and texts that are blank in part or hold a character next to the digits.
pub struct Limits {
    texts: Vec<Vec<Vec<u8>>>,
}

impl Limits {
    pub fn new() -> Limits {
        let mut texts = Vec::new();
        for edition in Edition::ALL {
            for element in 1..=ELEMENTS {
                texts.push(Limits::of(edition, element));
            }
        }
        Limits { texts }
    }

    fn of(edition: Edition, element: usize) -> Vec<Vec<u8>> {
        let width = width(element);
        let mut texts: Vec<Vec<u8>> = match (width, element) {
            (7, _) => ["ABC    ", "ABCD   ", "ABCDEF ", "ABCDEFG", "0000000", "ZZZ    ", "999    ", "A9Z    "]
                .iter()
                .chain(&[
                    "A      ", "AB     ", "A BC   ", " ABC   ", "AB CDEF", "ABC D  ", "ABCDE G", "   ABCD", "      A",
                ])
                .chain(&["abc    ", "AB[    ", "AB@    ", "AB/    ", "AB:    ", "ABCDEF-", "ABC-   "])
                .map(|text| text.as_bytes().to_vec())
                .collect(),
            (_, 43) => [
                "AA", "ZZ", "AZ", "A ", " A", "@A", "A[", "[A", "A@", "aA", "00", "99", "09", "0 ", " 0", "/0", "0:",
                "0A", "A0",
            ]
            .iter()
            .map(|text| text.as_bytes().to_vec())
            .collect(),
            (1, _) => {
                let good = |byte: u8| legal(edition, element, &[byte]);
                (31..=126u8)
                    .filter(|&byte| good(byte) != good(byte + 1))
                    .flat_map(|byte| [vec![byte], vec![byte + 1]])
                    .collect()
            }
            _ => {
                let count = 10u64.pow(width as u32);
                let spelled = |value: u64| format!("{value:0width$}").into_bytes();
                let good = |value: u64| legal(edition, element, &spelled(value));
                (0..count - 1)
                    .filter(|&value| good(value) != good(value + 1))
                    .flat_map(|value| [value, value + 1])
                    .chain([0, count - 1])
                    .map(spelled)
                    .collect()
            }
        };
        if (2..=4).contains(&width) {
            let whole = texts.iter().find(|text| legal(edition, element, text)).cloned();
            let whole = whole.unwrap_or_else(|| vec![b'1'; width]);
            for subset in 1..(1usize << width) - 1 {
                let mut half = whole.clone();
                for (position, byte) in half.iter_mut().enumerate() {
                    if subset >> position & 1 == 1 {
                        *byte = b' ';
                    }
                }
                texts.push(half);
            }
            for position in 0..width {
                for odd in *b"/:A-" {
                    let mut strange = whole.clone();
                    strange[position] = odd;
                    texts.push(strange);
                }
            }
        }
        texts.push(vec![b' '; width]);
        texts
    }

    fn pick<'a>(&'a self, chance: &mut Chance, edition: Edition, element: usize) -> &'a [u8] {
        let row = match edition {
            Edition::One => 0,
            Edition::Three => 1,
            Edition::Four => 2,
        };
        let texts = &self.texts[row * ELEMENTS + element - 1];
        &texts[chance.below(texts.len())]
    }
}

impl Default for Limits {
    fn default() -> Self {
        Limits::new()
    }
}

/// Years about every rule of the calendar: common and leap ones, centuries that are the one and the other, the first and
/// the last, and such as some calendars would have otherwise.
const YEARS: [u64; 28] = [
    0, 1, 3, 4, 96, 99, 100, 104, 200, 400, 1582, 1600, 1700, 1752, 1800, 1899, 1900, 1904, 1996, 2000, 2001, 2002,
    2003, 2004, 2100, 2400, 9996, 9999,
];
/// February above all, whose end moves, and then the months of 30 days.
const MONTHS: [u64; 23] = [2, 2, 2, 2, 2, 2, 2, 2, 4, 4, 6, 6, 9, 9, 11, 11, 1, 3, 5, 7, 8, 10, 12];
/// About the ends of the months.
const DAYS: [u64; 7] = [1, 27, 28, 29, 29, 30, 31];

/// A year, a month and a day about the end of a month, which need not have the day; each is missing at times.
fn date(chance: &mut Chance) -> [Option<u64>; 3] {
    let [year, month, day] =
        [&YEARS[..], &MONTHS, &DAYS].map(|values| (!chance.one_in(8)).then(|| chance.pick(values)));
    // Half of the days are the month's last and the one beyond, as long as that is a day of any month.
    let end = last_day(year, month) + chance.below(2) as u64;
    [year, month, if chance.one_in(2) { day } else { day.map(|_| end.min(31)) }]
}

/// Lays a number out over the columns of an element, nought before.
fn lay(record: &mut [u8], element: usize, value: u64) {
    let width = width(element);
    record[span(element)].copy_from_slice(format!("{value:0width$}").as_bytes());
}

/// Fills an element with some legal text.
fn fill(chance: &mut Chance, limits: &Limits, edition: Edition, element: usize, record: &mut [u8]) {
    loop {
        let text = &mut record[span(element)];
        if chance.one_in(4) {
            text.copy_from_slice(limits.pick(chance, edition, element));
            if blank(text) {
                continue;
            }
        } else {
            match element {
                2 if chance.one_in(2) => lay(record, element, chance.pick(&YEARS)),
                3 if chance.one_in(2) => lay(record, element, chance.pick(&MONTHS)),
                4 if chance.one_in(2) => lay(record, element, chance.pick(&DAYS)),
                42 => {
                    text.fill(b' ');
                    let length = 3 + chance.below(5);
                    for byte in &mut text[..length] {
                        *byte = chance.pick(b"ABCDEFGHIJKLMNOPQRSTUVWXYZ0123456789");
                    }
                }
                43 if edition != Edition::One => {
                    text.fill_with(|| b'A' + chance.below(26) as u8);
                }
                44 => text[0] = 33 + chance.below(94) as u8,
                _ if text.len() == 1 && chance.one_in(6) => text[0] = chance.pick(b"/A"),
                _ => text.fill_with(|| b'0' + chance.below(10) as u8),
            }
        }
        if legal(edition, element, &record[span(element)]) {
            return;
        }
    }
}

/// Makes the ties hold in a record whose elements are blank or legal.
fn mend(chance: &mut Chance, limits: &Limits, edition: Edition, record: &mut [u8]) {
    let there = |record: &[u8], element: usize| !blank(text(record, element));
    if there(record, 6) {
        for element in [7, 8] {
            if !there(record, element) {
                fill(chance, limits, edition, element, record);
            }
        }
        if edition == Edition::One {
            while !octant_holds(record[11], number(text(record, 8)).unwrap_or(0)) {
                fill(chance, limits, edition, 8, record);
            }
        }
    } else {
        record[12..19].fill(b' ');
    }
    for sign in SIGNS {
        if !there(record, sign) {
            record[span(sign + 1)].fill(b' ');
            continue;
        }
        if !there(record, sign + 1) {
            fill(chance, limits, edition, sign + 1, record);
        }
        let last = span(sign + 1).end - 1;
        let column = span(sign).start;
        match record[0] {
            // Computed, so that any tenth may stand there.
            _ if record[column] >= b'5' => {}
            b'4' => record[last] = chance.pick(b"05"),
            b'5' => record[last] = b'0',
            _ => {}
        }
        if text(record, sign + 1) == b"000" {
            record[column] = match record[column] {
                b'1' => b'0',
                b'6' => b'5',
                other => other,
            };
        }
    }
    let speed = there(record, 15) || (edition != Edition::One && there(record, 93));
    if speed && !there(record, 14) {
        fill(chance, limits, edition, 14, record);
    }
    let value = |element: usize| number(text(record, element));
    let last = last_day(value(2), value(3));
    if value(4).is_some_and(|day| day > last) {
        lay(record, 4, last);
    }
}

/// An accepted record with about so many eighths of its elements filled.
pub fn typical(chance: &mut Chance, limits: &Limits, edition: Edition, eighths: usize) -> Vec<u8> {
    let mut record = vec![b' '; edition.length()];
    record[0] = chance.pick(b"33345");
    for element in 2..=edition.last_element() {
        if chance.below(8) < eighths {
            fill(chance, limits, edition, element, &mut record);
        }
    }
    record[110] = edition.digit();
    mend(chance, limits, edition, &mut record);
    record
}

fn base(chance: &mut Chance, limits: &Limits, edition: Edition) -> Vec<u8> {
    let eighths = chance.pick(&[0, 1, 4, 7, 7, 8]);
    typical(chance, limits, edition, eighths)
}

fn random(chance: &mut Chance, edition: Edition) -> Vec<u8> {
    let length = if chance.one_in(8) { chance.below(200) } else { edition.length() };
    let alphabet = chance.below(4);
    let rarity = chance.pick(&[12, 50, 150]);
    let mut record: Vec<u8> = (0..length)
        .map(|_| match alphabet {
            0 => chance.below(256) as u8,
            1 => 32 + chance.below(95) as u8,
            2 => chance.pick(b"0123456789 /A"),
            // Mostly blank, so that many of these are accepted or fail late.
            _ if chance.one_in(rarity) => chance.pick(b"0123456789"),
            _ => b' ',
        })
        .collect();
    if length > 110 && !chance.one_in(8) {
        record[0] = chance.pick(b"345");
        record[110] = edition.digit();
    }
    record
}

fn damaged(chance: &mut Chance, limits: &Limits, edition: Edition) -> Vec<u8> {
    let mut record = base(chance, limits, edition);
    let column = chance.below(record.len());
    record[column] = match chance.below(8) {
        0 => chance.below(256) as u8,
        1 | 2 => 32 + chance.below(95) as u8,
        3 | 4 => b' ',
        _ => b'0' + chance.below(10) as u8,
    };
    record
}

fn boundary(chance: &mut Chance, limits: &Limits, edition: Edition) -> Vec<u8> {
    let mut record = base(chance, limits, edition);
    let element = 1 + chance.below(edition.last_element());
    let text = limits.pick(chance, edition, element);
    record[span(element)].copy_from_slice(text);
    if chance.one_in(2) && element != 65 {
        // With its ties held, so that the element alone decides.
        mend(chance, limits, edition, &mut record);
        record[span(element)].copy_from_slice(text);
    }
    record
}

/// Sets or breaks one tie.
fn strain(chance: &mut Chance, limits: &Limits, edition: Edition, tie: usize, record: &mut [u8]) {
    match tie {
        1 => {
            for element in 6..=8 {
                if chance.one_in(2) {
                    record[span(element)].fill(b' ');
                } else {
                    fill(chance, limits, edition, element, record);
                }
            }
        }
        2 => {
            fill(chance, limits, edition, 6, record);
            fill(chance, limits, edition, 7, record);
            let longitude = chance.pick(&[b"0000", b"0001", b"0899", b"0900", b"0901", b"1799", b"1800"]);
            record[15..19].copy_from_slice(longitude);
        }
        3..=6 => {
            let sign = SIGNS[tie - 3];
            match chance.below(4) {
                0 => record[span(sign)].fill(b' '),
                1 => record[span(sign + 1)].fill(b' '),
                _ => {
                    fill(chance, limits, edition, sign, record);
                    let value = chance.pick(&[b"000", b"001", b"005", b"010", b"100", b"999"]);
                    record[span(sign + 1)].copy_from_slice(value);
                }
            }
        }
        7 => {
            record[0] = chance.pick(b"34455");
            let sign = chance.pick(&SIGNS);
            fill(chance, limits, edition, sign, record);
            if blank(text(record, sign + 1)) {
                fill(chance, limits, edition, sign + 1, record);
            }
            let last = span(sign + 1).end - 1;
            record[last] = b'0' + chance.below(10) as u8;
        }
        8 => {
            if chance.one_in(2) {
                fill(chance, limits, edition, 15, record);
            }
            if !chance.one_in(4) {
                record[26] = b' ';
            }
        }
        9 => {
            record[span(15)].fill(b' ');
            if edition != Edition::One && !chance.one_in(4) {
                fill(chance, limits, edition, 93, record);
            }
            if !chance.one_in(4) {
                record[26] = b' ';
            }
        }
        _ => {
            for (element, value) in (2..).zip(date(chance)) {
                match value {
                    Some(value) => lay(record, element, value),
                    None => record[span(element)].fill(b' '),
                }
            }
        }
    }
}

/// One record of a family.
pub fn record(chance: &mut Chance, limits: &Limits, family: Family) -> Vec<u8> {
    let edition = chance.pick(&Edition::ALL);
    match family {
        Family::Random => random(chance, edition),
        Family::Typical => base(chance, limits, edition),
        Family::Damaged => damaged(chance, limits, edition),
        Family::Boundary => boundary(chance, limits, edition),
        Family::Ties => {
            let mut record = base(chance, limits, edition);
            for _ in 0..=chance.below(2) {
                let tie = 1 + chance.below(TIES);
                strain(chance, limits, edition, tie, &mut record);
            }
            record
        }
        Family::Lengths => {
            let mut record = base(chance, limits, edition);
            let length = chance.pick(&LENGTHS);
            let filler = chance.pick(b"   09");
            record.resize(length, filler);
            if chance.one_in(4) && length > 110 {
                record[110] = chance.pick(b"0123456 ");
            }
            record
        }
        Family::Bytes => {
            let mut record = base(chance, limits, edition);
            for _ in 0..=chance.below(2) {
                let anywhere = chance.below(record.len());
                let column = chance.pick(&[0, 11, 71, 80, 110, record.len() - 1, anywhere, anywhere]);
                record[column] = chance.pick(&ODD_BYTES);
            }
            record
        }
        Family::Mixed => {
            let family = Family::ALL[chance.below(Family::ALL.len() - 1)].1;
            self::record(chance, limits, family)
        }
    }
}

const CODES: [u64; 22] =
    [0, 1, 2, 3, 4, 7, 9, 10, 36, 51, 99, 100, 360, 361, 999, 1000, 7999, 9999, 10000, 10999, (1 << 32) + 3, u64::MAX];
const TEXTS: [u64; 12] =
    [0, 32, 47, 48, 65, 126, 127, 0x4142, 0x3031, 0x41_4243_2020_2020, 0x41_4220_2020_2020, u64::MAX];
const AMOUNTS: [i64; 19] =
    [0, 1, -1, 4, -5, 5, 10, -10, 99, -99, 100, -100, 999, -999, 1000, -1000, 1 << 32, i64::MIN, i64::MAX];
const KINDS: [Kind; 4] = [Kind::Measured, Kind::Computed, Kind::IcedMeasured, Kind::IcedComputed];
const LATITUDES: [i64; 13] = [0, 1, -1, 10, -10, 650, 6500, -6500, 9000, -9000, 9001, 9010, i64::MIN];
const LONGITUDES: [u64; 18] =
    [0, 1, 10, 900, 8990, 9000, 9010, 17990, 18000, 18010, 26990, 27000, 27010, 35990, 35999, 36000, WRAPS, u64::MAX];
/// 90 degrees, and a bit that 32 bits do not hold.
const WRAPS: u64 = (1 << 32) + 9000;
/// Hundredths that no columns can say, added to a place that they do.
const OFF_THE_TENTHS: [i64; 6] = [1, 4, 5, 6, 9, -1];
const DIGITS: [u64; 12] = [0, 1, 2, 3, 4, 5, 6, 7, 8, 9, (1 << 32) + 1, u64::MAX];

fn some_reading(chance: &mut Chance, element: usize, old: Reading) -> Reading {
    // Most often of the sort that the element holds, else the answer is always the same.
    let sort = if chance.one_in(6) {
        chance.below(5)
    } else {
        match (group(element), old) {
            (6, _) => 3,
            (16 | 18 | 28 | 50 | 91, _) => 2,
            (42..=44, _) | (_, Reading::Text(_)) => 1,
            _ if chance.one_in(6) => 1,
            _ => 0,
        }
    };
    match (sort, old) {
        (0, Reading::Code(value)) if chance.one_in(2) => {
            Reading::Code(if chance.one_in(2) { value.wrapping_add(1) } else { value.wrapping_sub(1) })
        }
        (0, _) => Reading::Code(chance.pick(&CODES)),
        (1, Reading::Text(value)) if chance.one_in(2) => Reading::Text(value ^ 1 << chance.below(64)),
        (1, _) => Reading::Text(chance.pick(&TEXTS)),
        (2, Reading::Amount(value, _)) if chance.one_in(3) => Reading::Amount(value, chance.pick(&KINDS)),
        (2, Reading::Amount(value, kind)) if chance.one_in(3) => Reading::Amount(value.wrapping_neg(), kind),
        (2, _) => Reading::Amount(chance.pick(&AMOUNTS), chance.pick(&KINDS)),
        (3, Reading::Place(place)) if chance.one_in(2) => match chance.below(3) {
            0 => Reading::Place(Place { latitude: chance.pick(&LATITUDES), ..place }),
            1 => Reading::Place(Place { longitude: chance.pick(&LONGITUDES), ..place }),
            _ => Reading::Place(Place { digit: chance.pick(&DIGITS), ..place }),
        },
        (3, _) => Reading::Place(Place {
            latitude: chance.pick(&LATITUDES),
            longitude: chance.pick(&LONGITUDES),
            digit: chance.pick(&DIGITS),
        }),
        _ => Reading::Missing,
    }
}

/// A place off the tenths next to one that the columns say.
fn off_the_tenths(chance: &mut Chance, place: Place) -> Place {
    let more = chance.pick(&OFF_THE_TENTHS);
    match chance.below(3) {
        0 => Place { latitude: place.latitude.wrapping_add(more), ..place },
        1 => Place { longitude: place.longitude.wrapping_add_signed(more), ..place },
        _ => {
            let other = chance.pick(&OFF_THE_TENTHS);
            let latitude = place.latitude.wrapping_sub(other);
            Place { latitude, longitude: place.longitude.wrapping_add_signed(more), ..place }
        }
    }
}

fn edition_number(chance: &mut Chance) -> u64 {
    if chance.one_in(4) {
        chance.pick(&[0, 1, 2, 3, 4, 5, 6, 49, 51, 52, 257, 259, 260, (1 << 32) + 4, (1 << 32) + 1, 1 << 63, u64::MAX])
    } else {
        chance.pick(&[1, 3, 4])
    }
}

fn room(chance: &mut Chance) -> usize {
    chance.pick(&[0, 1, 130, 131, 132, 158, 159, 160, 200, 159, 159, 200])
}

/// One trial call on a record of a family.
pub fn call(chance: &mut Chance, limits: &Limits, family: Family) -> Call {
    let record = record(chance, limits, family);
    match chance.below(10) {
        0 | 1 => Call::Check(record),
        2 | 3 => Call::Read(record),
        4 => Call::Show(record),
        5..=7 => Call::Recast(edition_number(chance), room(chance), record),
        _ => {
            let readings = crate::read(&record).or_else(|_| {
                let edition = chance.pick(&Edition::ALL);
                crate::read(&base(chance, limits, edition))
            });
            let mut readings = Box::new(readings.expect("a base is accepted").all);
            let edition = match readings[64] {
                Reading::Code(number) if !chance.one_in(6) => number,
                _ => {
                    let number = edition_number(chance);
                    if chance.one_in(2) {
                        readings[64] = Reading::Code(number);
                    }
                    number
                }
            };
            for _ in 0..chance.below(3) {
                let element = 1 + chance.below(ELEMENTS);
                let reading = some_reading(chance, element, readings[element - 1]);
                if chance.one_in(6) {
                    readings[element - 1] = reading;
                } else {
                    for other in 1..=ELEMENTS {
                        if group(other) == group(element) {
                            readings[other - 1] = reading;
                        }
                    }
                }
            }
            if let (Reading::Place(place), true) = (readings[5], chance.one_in(6)) {
                let off = Reading::Place(off_the_tenths(chance, place));
                // Now and then in one of the three elements alone.
                match chance.below(12) {
                    one @ 0..=2 => readings[5 + one] = off,
                    _ => readings[5..8].fill(off),
                }
            }
            if chance.one_in(8) {
                // Ties 7, 8 and 9.
                match chance.below(4) {
                    0 => readings[0] = Reading::Code(chance.pick(&[3, 4, 5])),
                    1 => {
                        // The same dew point or wet bulb, measured or computed.
                        let sign = chance.pick(&[18, 50]);
                        if let Reading::Amount(value, _) = readings[sign - 1] {
                            readings[0] = Reading::Code(chance.pick(&[4, 5]));
                            readings[sign - 1] = Reading::Amount(value, chance.pick(&KINDS));
                            readings[sign] = readings[sign - 1];
                        }
                    }
                    2 => readings[13] = Reading::Missing,
                    _ => readings[14] = Reading::Missing,
                }
            }
            if chance.one_in(8) {
                // Tie 10, at times with one of those.
                let date = date(chance).map(|value| value.map_or(Reading::Missing, Reading::Code));
                readings[1..4].copy_from_slice(&date);
            }
            Call::Write(edition, room(chance), readings)
        }
    }
}
