//! Trial calls answered in bulk over pipes, so that another implementation can answer the same stream and the two
//! streams of answers can be compared byte for byte.
//!
//! One request a line, its fields parted by one blank:
//!
//! | Request | Call |
//! |---|---|
//! | `c RECORD` | check |
//! | `r RECORD` | check and read |
//! | `s RECORD` | show the call sign |
//! | `t EDITION ROOM RECORD` | recast to an edition into a lent buffer of so many bytes |
//! | `b RECORD` | recast there, back and there again, for each edition |
//! | `w EDITION ROOM READINGS` | write from 101 readings into a lent buffer of so many bytes |
//! | `d EDITION YEAR` | check, for every day of every month of a year |
//!
//! EDITION is a whole number from 0 to 2^64 - 1 in decimal, ROOM one from 0 to 4096. RECORD is the bytes in hexadecimal,
//! two lower-case digits each, or `-` where there is none. READINGS are fields of the form `ELEMENT=READING` for those of
//! the elements 1 to 101 that are not missing, or `-` where all are; a reading is `cVALUE` (code), `tVALUE` (text),
//! `aVALUE:KIND` (amount; KIND is `m` measured, `c` computed, `im` iced measured, `ic` iced computed) or
//! `pLATITUDE:LONGITUDE:DIGIT` (place). For `d` EDITION is 1, 3 or 4, and YEAR is four digits, or `-` for a blank year.
//!
//! One answer a line, its parts parted by one blank:
//!
//! | Request | Answer |
//! |---|---|
//! | `c`, `s`, `t`, `w` | `NUMBER PLACE LOW HIGH BUFFER` |
//! | `b` | that of `c` for a refused record, else that of `t` for each recast |
//! | `r` | `NUMBER PLACE LOW HIGH BUFFER EDITION READINGS` |
//! | `d` | `DAYS` thirteen times, for the blank month and each month from 01 |
//! | anything else | `?` |
//!
//! NUMBER and PLACE are decimal, LOW and HIGH the two words of the loss set as 16 hexadecimal digits each. BUFFER is `-`
//! but for `t`, `w` and `s`. For `t` and `w` it is the memory after the call in hexadecimal: the lent ROOM bytes and 16
//! guard bytes beyond them, byte I (from 0) of both having been 128 + I mod 128 before the call. For `s` it is the bytes
//! shown (`-` where none), and PLACE is then the column where they begin in the caller's own record (0 where none);
//! NUMBER, LOW and HIGH are 0.
//!
//! For `r` EDITION is the number of the record's edition, 0 where the record is refused. READINGS are the fields that a
//! `w` takes, the elements rising, so that what a read answers can be handed to a write. Both stand there whatever NUMBER
//! is: a refused record has no readings, and one that was left shows.
//!
//! For `b` an accepted record goes on three trips, to editions 1, 3 and 4 in this order, and a trip is three recasts: the
//! record to that edition, what the first recast left to the record's own edition, and what the second left to that
//! edition again. Each is a `t` with a ROOM of 159 and memory of its own; what a recast left is the front of its memory,
//! as long as a record of the edition it was asked for. Where a recast answers another NUMBER than 0, its answer is the
//! last of the trip.
//!
//! For `d` DAYS are 32 characters, one for the blank day and each day from 01. The record that is checked is one of the
//! edition with 3 in column 1, the year, that month and that day, blank elsewhere. The character is `.` where it is
//! accepted, `x` where the answer is refusal 7 at place 10, and `?` where it is any other.

use std::io::{self, BufRead, Write};

use crate::layout::{span, Edition, ELEMENTS, LONGEST};
use crate::reading::{Kind, Place, Reading};
use crate::report::{put_number, put_signed};
use crate::{Answer, Readings};

pub const GUARD: usize = 16;
const MOST_ROOM: usize = 4096;

/// One trial call.
#[derive(Clone, PartialEq, Debug)]
pub enum Call {
    Check(Vec<u8>),
    Read(Vec<u8>),
    Show(Vec<u8>),
    Recast(u64, usize, Vec<u8>),
    ThereAndBack(Vec<u8>),
    Write(u64, usize, Box<[Reading; ELEMENTS]>),
    /// The year as its columns hold it.
    Calendar(Edition, [u8; 4]),
}

fn put_bytes(output: &mut Vec<u8>, bytes: &[u8]) {
    const DIGITS: &[u8; 16] = b"0123456789abcdef";
    if bytes.is_empty() {
        output.push(b'-');
    }
    for &byte in bytes {
        output.push(DIGITS[usize::from(byte >> 4)]);
        output.push(DIGITS[usize::from(byte & 15)]);
    }
}

fn put_word(output: &mut Vec<u8>, word: u64) {
    put_bytes(output, &word.to_be_bytes());
}

/// The bytes of a field in hexadecimal; nothing where it is none.
pub(crate) fn bytes_of(field: &str) -> Option<Vec<u8>> {
    if field == "-" {
        return Some(Vec::new());
    }
    let digit = |byte: u8| match byte {
        b'0'..=b'9' => Some(byte - b'0'),
        b'a'..=b'f' => Some(byte - b'a' + 10),
        _ => None,
    };
    if field.is_empty() || !field.len().is_multiple_of(2) {
        return None;
    }
    field.as_bytes().chunks(2).map(|pair| Some(digit(pair[0])? << 4 | digit(pair[1])?)).collect()
}

/// A whole number without a plus, which the standard parser would take.
fn number_of(field: &str) -> Option<u64> {
    if !field.bytes().all(|byte| byte.is_ascii_digit()) {
        return None;
    }
    field.parse().ok()
}

fn signed_of(field: &str) -> Option<i64> {
    if field.starts_with('+') {
        return None;
    }
    field.parse().ok()
}

fn room_of(field: &str) -> Option<usize> {
    number_of(field).filter(|&room| room <= MOST_ROOM as u64).map(|room| room as usize)
}

/// The columns of a year: four digits, or blanks for `-`.
fn year_of(field: &str) -> Option<[u8; 4]> {
    if field == "-" {
        return Some(*b"    ");
    }
    field.as_bytes().try_into().ok().filter(|year: &[u8; 4]| year.iter().all(u8::is_ascii_digit))
}

fn reading_of(field: &str) -> Option<Reading> {
    let rest = field.get(1..)?;
    match field.as_bytes()[0] {
        b'c' => Some(Reading::Code(number_of(rest)?)),
        b't' => Some(Reading::Text(number_of(rest)?)),
        b'a' => {
            let (value, kind) = rest.split_once(':')?;
            let kind = match kind {
                "m" => Kind::Measured,
                "c" => Kind::Computed,
                "im" => Kind::IcedMeasured,
                "ic" => Kind::IcedComputed,
                _ => return None,
            };
            Some(Reading::Amount(signed_of(value)?, kind))
        }
        b'p' => {
            let (latitude, rest) = rest.split_once(':')?;
            let (longitude, digit) = rest.split_once(':')?;
            Some(Reading::Place(Place {
                latitude: signed_of(latitude)?,
                longitude: number_of(longitude)?,
                digit: number_of(digit)?,
            }))
        }
        _ => None,
    }
}

fn readings_of<'a>(fields: impl Iterator<Item = &'a str>) -> Option<Box<[Reading; ELEMENTS]>> {
    let mut readings = Box::new([Reading::Missing; ELEMENTS]);
    for field in fields {
        if field == "-" {
            continue;
        }
        let (element, reading) = field.split_once('=')?;
        let element = number_of(element).filter(|element| (1..=ELEMENTS as u64).contains(element))?;
        readings[element as usize - 1] = reading_of(reading)?;
    }
    Some(readings)
}

impl Call {
    /// The call that a line asks for.
    pub fn of_line(line: &str) -> Option<Call> {
        let mut fields = line.split(' ');
        let call = match fields.next()? {
            "c" => Call::Check(bytes_of(fields.next()?)?),
            "r" => Call::Read(bytes_of(fields.next()?)?),
            "s" => Call::Show(bytes_of(fields.next()?)?),
            "t" => Call::Recast(number_of(fields.next()?)?, room_of(fields.next()?)?, bytes_of(fields.next()?)?),
            "b" => Call::ThereAndBack(bytes_of(fields.next()?)?),
            "w" => {
                let edition = number_of(fields.next()?)?;
                let room = room_of(fields.next()?)?;
                Call::Write(edition, room, readings_of(fields.by_ref())?)
            }
            "d" => Call::Calendar(Edition::from_number(number_of(fields.next()?)?)?, year_of(fields.next()?)?),
            _ => return None,
        };
        fields.next().is_none().then_some(call)
    }

    /// The line that asks for this call, with its line end.
    pub fn put_line(&self, output: &mut Vec<u8>) {
        let numbers = |output: &mut Vec<u8>, letter: u8, numbers: &[u64]| {
            output.push(letter);
            for &number in numbers {
                output.push(b' ');
                put_number(output, number);
            }
            output.push(b' ');
        };
        match self {
            Call::Check(record) => {
                numbers(output, b'c', &[]);
                put_bytes(output, record);
            }
            Call::Read(record) => {
                numbers(output, b'r', &[]);
                put_bytes(output, record);
            }
            Call::Show(record) => {
                numbers(output, b's', &[]);
                put_bytes(output, record);
            }
            Call::Recast(edition, room, record) => {
                numbers(output, b't', &[*edition, *room as u64]);
                put_bytes(output, record);
            }
            Call::ThereAndBack(record) => {
                numbers(output, b'b', &[]);
                put_bytes(output, record);
            }
            Call::Write(edition, room, readings) => {
                numbers(output, b'w', &[*edition, *room as u64]);
                put_readings(output, readings);
            }
            Call::Calendar(edition, year) => {
                numbers(output, b'd', &[edition.number()]);
                output.extend_from_slice(if year == b"    " { b"-" } else { year });
            }
        }
        output.push(b'\n');
    }

    /// Makes the call and appends its answer, with a line end.
    pub fn put_answer(&self, output: &mut Vec<u8>) {
        match self {
            Call::Check(record) => put_answer(output, crate::check(record), &[]),
            Call::Read(record) => {
                let (answer, edition, all) = match crate::read(record) {
                    Ok(Readings { edition, all }) => (Answer::done(), edition.number(), all),
                    Err(refusal) => (refusal, 0, [Reading::Missing; ELEMENTS]),
                };
                put_answer(output, answer, &[]);
                output.push(b' ');
                put_number(output, edition);
                output.push(b' ');
                put_readings(output, &all);
            }
            Call::Show(record) => {
                let shown = crate::show_call_sign(record);
                let place = match shown.is_empty() {
                    true => 0,
                    // Where the part begins in the caller's own bytes, which a copy would not.
                    false => (shown.as_ptr() as usize).wrapping_sub(record.as_ptr() as usize) as u64 + 1,
                };
                put_answer(output, Answer { place, ..Answer::done() }, shown);
            }
            Call::Recast(edition, room, record) => {
                let mut memory = memory(*room);
                let answer = crate::recast(record, *edition, &mut memory[..*room]);
                put_answer(output, answer, &memory);
            }
            Call::ThereAndBack(record) => put_trips(output, record),
            Call::Write(edition, room, readings) => {
                let mut memory = memory(*room);
                let answer = crate::write(*edition, readings, &mut memory[..*room]);
                put_answer(output, answer, &memory);
            }
            Call::Calendar(edition, year) => put_calendar(output, *edition, year),
        }
        output.push(b'\n');
    }
}

/// A lent buffer with its guard, filled with bytes that no record holds and that tell their position.
pub(crate) fn memory(room: usize) -> Vec<u8> {
    (0..room + GUARD).map(|index| 128 + (index % 128) as u8).collect()
}

fn put_answer(output: &mut Vec<u8>, answer: Answer, buffer: &[u8]) {
    put_number(output, answer.number);
    output.push(b' ');
    put_number(output, answer.place);
    output.push(b' ');
    put_word(output, answer.lost[0]);
    output.push(b' ');
    put_word(output, answer.lost[1]);
    output.push(b' ');
    put_bytes(output, buffer);
}

/// Recasts a record there, back and there again, for each edition, and puts the answer of each recast; the refusal alone
/// where the record is refused.
fn put_trips(output: &mut Vec<u8>, record: &[u8]) {
    let refusal = crate::check(record);
    if refusal.number != 0 {
        return put_answer(output, refusal, &[]);
    }
    let own = Edition::from_digit(record[110]).expect("an accepted record names its edition");
    let start = output.len();
    for edition in Edition::ALL {
        let mut left = record.to_vec();
        for to in [edition, own, edition] {
            let mut memory = memory(LONGEST);
            let answer = crate::recast(&left, to.number(), &mut memory[..LONGEST]);
            if output.len() > start {
                output.push(b' ');
            }
            put_answer(output, answer, &memory);
            if answer.number != 0 {
                break;
            }
            memory.truncate(to.length());
            left = memory;
        }
    }
}

/// Puts the fields of the readings that are not missing, or `-` where all are.
fn put_readings(output: &mut Vec<u8>, readings: &[Reading; ELEMENTS]) {
    let start = output.len();
    for (element, &reading) in (1..).zip(readings) {
        if reading == Reading::Missing {
            continue;
        }
        if output.len() > start {
            output.push(b' ');
        }
        put_number(output, element);
        output.push(b'=');
        put_reading(output, reading);
    }
    if output.len() == start {
        output.push(b'-');
    }
}

/// Puts a reading as `reading_of` takes it; nothing for a missing one.
fn put_reading(output: &mut Vec<u8>, reading: Reading) {
    match reading {
        Reading::Missing => {}
        Reading::Code(value) => {
            output.push(b'c');
            put_number(output, value);
        }
        Reading::Text(value) => {
            output.push(b't');
            put_number(output, value);
        }
        Reading::Amount(value, kind) => {
            output.push(b'a');
            put_signed(output, value);
            output.extend_from_slice(match kind {
                Kind::Measured => b":m",
                Kind::Computed => b":c",
                Kind::IcedMeasured => b":im",
                Kind::IcedComputed => b":ic",
            });
        }
        Reading::Place(Place { latitude, longitude, digit }) => {
            output.push(b'p');
            put_signed(output, latitude);
            output.push(b':');
            put_number(output, longitude);
            output.push(b':');
            put_number(output, digit);
        }
    }
}

/// Two digits, or two blanks for 0.
fn two_digits(number: u8) -> [u8; 2] {
    match number {
        0 => *b"  ",
        _ => [b'0' + number / 10, b'0' + number % 10],
    }
}

fn put_calendar(output: &mut Vec<u8>, edition: Edition, year: &[u8; 4]) {
    let mut record = vec![b' '; edition.length()];
    record[0] = b'3';
    record[110] = edition.digit();
    record[span(2)].copy_from_slice(year);
    for month in 0..=12 {
        if month > 0 {
            output.push(b' ');
        }
        record[span(3)].copy_from_slice(&two_digits(month));
        for day in 0..=31 {
            record[span(4)].copy_from_slice(&two_digits(day));
            let answer = crate::check(&record);
            output.push(match (answer.number, answer.place) {
                (0, 0) => b'.',
                (7, 10) => b'x',
                _ => b'?',
            });
        }
    }
}

/// Answers every request of the input.
pub fn serve(input: &mut impl BufRead, sink: &mut impl Write) -> io::Result<()> {
    let mut line = Vec::new();
    let mut output = Vec::new();
    loop {
        line.clear();
        if input.read_until(b'\n', &mut line)? == 0 {
            break;
        }
        let request = line.strip_suffix(b"\n").unwrap_or(&line);
        match std::str::from_utf8(request).ok().and_then(Call::of_line) {
            Some(call) => call.put_answer(&mut output),
            None => output.extend_from_slice(b"?\n"),
        }
        if output.len() >= 1 << 16 {
            sink.write_all(&output)?;
            output.clear();
        }
    }
    sink.write_all(&output)?;
    sink.flush()
}
