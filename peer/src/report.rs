//! The three programs over a whole input: what the check says of every record, what every element of every record reads
//! as, and the recast report.

use std::io::{self, Read, Write};

use crate::layout::{Edition, ELEMENTS, LONGEST};
use crate::reading::{Kind, Reading};
use crate::{Answer, Readings};

/// Large enough that calls to the system are few; a longer line is counted, not kept, for its length alone is refused.
const ROOM: usize = 1 << 18;
/// More than is ever said of one line: that is most where every element has a line of its own, of 64 bytes or fewer.
const MOST: usize = 1 << 13;
const CHUNK: usize = 32;
/// The lowest bit of each byte of a word.
const LOWEST: u64 = u64::from_ne_bytes([1; 8]);

/// The position of the first line end. Whole chunks are asked at once, which the compiler turns into vector compares.
#[inline]
fn line_end(bytes: &[u8]) -> Option<usize> {
    let mut start = 0;
    while let Some(chunk) = bytes[start..].first_chunk::<CHUNK>() {
        let mut found = 0u8;
        for &byte in chunk {
            found |= u8::from(byte == b'\n');
        }
        if found != 0 {
            break;
        }
        start += CHUNK;
    }
    // Then by words: a byte of the word that is a line end becomes 0, and the lowest 0 is found by its borrow.
    while let Some(&word) = bytes[start..].first_chunk::<8>() {
        let word = u64::from_le_bytes(word) ^ (LOWEST * u64::from(b'\n'));
        let zeros = word.wrapping_sub(LOWEST) & !word & (LOWEST << 7);
        if zeros != 0 {
            return Some(start + zeros.trailing_zeros() as usize / 8);
        }
        start += 8;
    }
    bytes[start..].iter().position(|&byte| byte == b'\n').map(|position| start + position)
}

/// Gives every line without its line end to the caller, a last one without it only where it is not empty. A line that
/// is too long for the buffer is given as its first bytes, still longer than any record. Ends early where the caller says so.
fn each_line(input: &mut impl Read, mut take: impl FnMut(&[u8]) -> io::Result<bool>) -> io::Result<()> {
    let mut buffer = vec![0u8; ROOM];
    let mut start = 0;
    let mut searched = 0;
    let mut end = 0;
    loop {
        while let Some(position) = line_end(&buffer[searched..end]) {
            let stop = searched + position;
            if !take(&buffer[start..stop])? {
                return Ok(());
            }
            start = stop + 1;
            searched = start;
        }
        searched = end;
        if start > 0 {
            buffer.copy_within(start..end, 0);
            end -= start;
            searched -= start;
            start = 0;
        }
        if end == ROOM {
            // Longer than any record by far: what is dropped changes no answer.
            end = ROOM / 2;
            searched = end;
        }
        let count = match input.read(&mut buffer[end..]) {
            Ok(count) => count,
            Err(error) if error.kind() == io::ErrorKind::Interrupted => continue,
            Err(error) => return Err(error),
        };
        if count == 0 {
            if end > 0 {
                take(&buffer[..end])?;
            }
            return Ok(());
        }
        end += count;
    }
}

/// The most digits that a number of 64 bits has.
const DIGITS: usize = 20;

/// Puts a number in decimal at the front of the bytes, and answers how many digits it has.
#[inline]
fn put_digits(bytes: &mut [u8], mut value: u64) -> usize {
    let count = value.checked_ilog10().map_or(1, |log| log as usize + 1);
    for digit in bytes[..count].iter_mut().rev() {
        *digit = b'0' + (value % 10) as u8;
        value /= 10;
    }
    count
}

/// Appends a number in decimal.
pub(crate) fn put_number(output: &mut Vec<u8>, value: u64) {
    let mut digits = [0u8; DIGITS];
    let count = put_digits(&mut digits, value);
    output.extend_from_slice(&digits[..count]);
}

pub(crate) fn put_signed(output: &mut Vec<u8>, value: i64) {
    if value < 0 {
        output.push(b'-');
    }
    put_number(output, value.unsigned_abs());
}

/// A short text with room behind it. It is copied with that room, which is one step whatever its length; what comes after
/// it is written over what was copied too much.
#[derive(Clone, Copy)]
struct Short<const SIZE: usize> {
    bytes: [u8; SIZE],
    length: usize,
}

/// ` E ` for every element, from 1.
static ELEMENT_WORDS: [Short<8>; ELEMENTS] = {
    let mut words = [Short { bytes: [b' '; 8], length: 0 }; ELEMENTS];
    let mut element = 1;
    while element <= ELEMENTS {
        let digits = 1 + (element >= 10) as usize + (element >= 100) as usize;
        let word = &mut words[element - 1];
        let mut rest = element;
        let mut at = digits;
        while at > 0 {
            word.bytes[at] = b'0' + (rest % 10) as u8;
            rest /= 10;
            at -= 1;
        }
        word.length = digits + 2;
        element += 1;
    }
    words
};

/// What is said of an input and not yet passed on, and the records counted so far.
struct Told {
    bytes: Vec<u8>,
    end: usize,
    records: u64,
    refused: u64,
    /// The number of the last record in decimal, with which each of its lines begins.
    number: Short<24>,
}

impl Told {
    fn new() -> Told {
        let number = Short { bytes: [b'0'; 24], length: 1 };
        Told { bytes: vec![0; ROOM + MOST], end: 0, records: 0, refused: 0, number }
    }

    #[inline]
    fn put(&mut self, text: &[u8]) {
        self.bytes[self.end..self.end + text.len()].copy_from_slice(text);
        self.end += text.len();
    }

    #[inline]
    fn put_short<const SIZE: usize>(&mut self, short: &Short<SIZE>) {
        self.bytes[self.end..self.end + SIZE].copy_from_slice(&short.bytes);
        self.end += short.length;
    }

    /// Puts a number in decimal. Most numbers that are said are codes of one digit.
    #[inline]
    fn put_number(&mut self, value: u64) {
        if value < 10 {
            self.put(&[b'0' + value as u8]);
        } else {
            self.end += put_digits(&mut self.bytes[self.end..], value);
        }
    }

    #[inline]
    fn put_signed(&mut self, value: i64) {
        if value < 0 {
            self.put(b"-");
        }
        self.put_number(value.unsigned_abs());
    }

    /// One record more: its number is counted on in its digits, so that nothing is divided.
    #[inline]
    fn next_record(&mut self) {
        self.records += 1;
        let Short { bytes, length } = &mut self.number;
        for digit in bytes[..*length].iter_mut().rev() {
            if *digit < b'9' {
                *digit += 1;
                return;
            }
            *digit = b'0';
        }
        // All were nines, and are noughts: a one goes before them.
        bytes[0] = b'1';
        bytes[*length] = b'0';
        *length += 1;
    }

    /// Begins a line about the record with its number.
    #[inline]
    fn begin(&mut self) {
        let number = self.number;
        self.put_short(&number);
    }

    #[inline]
    fn say_edition(&mut self, edition: Edition) {
        self.begin();
        self.put(b" ok edition ");
        self.put(&[edition.digit(), b'\n']);
    }

    #[inline]
    fn say_refused(&mut self, answer: Answer) {
        self.refused += 1;
        self.begin();
        self.put(b" refused ");
        self.put_number(answer.number);
        self.put(b" ");
        self.put_number(answer.place);
        self.put(b"\n");
    }

    #[inline]
    fn say_call_sign(&mut self, accepted: &[u8]) {
        let call_sign = crate::call_sign(accepted);
        if !call_sign.is_empty() {
            self.begin();
            self.put(b" call sign ");
            self.put(call_sign);
            self.put(b"\n");
        }
    }

    /// Says what the record's elements read as, those that are missing left out.
    fn say_readings(&mut self, all: &[Reading; ELEMENTS]) {
        for (&reading, word) in all.iter().zip(&ELEMENT_WORDS) {
            if reading != Reading::Missing {
                self.begin();
                self.put_short(word);
                self.put_reading(reading);
                self.put(b"\n");
            }
        }
    }

    #[inline]
    fn put_reading(&mut self, reading: Reading) {
        match reading {
            Reading::Missing => self.put(b"missing"),
            Reading::Code(value) => {
                self.put(b"code ");
                self.put_number(value);
            }
            Reading::Text(value) => {
                self.put(b"text ");
                self.put_number(value);
            }
            Reading::Amount(value, kind) => {
                self.put(b"amount ");
                self.put_signed(value);
                self.put(match kind {
                    Kind::Measured => b" measured",
                    Kind::Computed => b" computed",
                    Kind::IcedMeasured => b" iced measured",
                    Kind::IcedComputed => b" iced computed",
                });
            }
            Reading::Place(place) => {
                self.put(b"place ");
                self.put_signed(place.latitude);
                self.put(b" ");
                self.put_number(place.longitude);
                self.put(b" ");
                self.put_number(place.digit);
            }
        }
    }

    fn say_total(&mut self) {
        self.put(b"records ");
        self.put_number(self.records);
        self.put(b" refused ");
        self.put_number(self.refused);
        self.put(b"\n");
    }

    /// Passes on what was said.
    fn pass_on(&mut self, sink: &mut impl Write) -> io::Result<()> {
        sink.write_all(&self.bytes[..self.end])?;
        self.end = 0;
        Ok(())
    }

    /// Has every line of the input told, as long as the caller says so, and passes on what was said whenever it is much.
    fn tell(
        &mut self,
        input: &mut impl Read,
        sink: &mut impl Write,
        mut tell_line: impl FnMut(&mut Told, &[u8]) -> bool,
    ) -> io::Result<()> {
        each_line(input, |line| {
            let more = tell_line(self, line);
            if self.end >= ROOM {
                self.pass_on(sink)?;
            }
            Ok(more)
        })
    }

    fn finish(&mut self, sink: &mut impl Write) -> io::Result<()> {
        self.pass_on(sink)?;
        sink.flush()
    }
}

/// What the check says of every record: its edition and its call sign, or the refusal.
pub fn check_report(input: &mut impl Read, sink: &mut impl Write) -> io::Result<()> {
    let mut told = Told::new();
    told.tell(input, sink, |told, line| {
        told.next_record();
        match crate::edition_of(line) {
            Ok(edition) => {
                told.say_edition(edition);
                told.say_call_sign(line);
            }
            Err(refusal) => told.say_refused(refusal),
        }
        true
    })?;
    told.say_total();
    told.finish(sink)
}

/// What every element of every record reads as that is not missing, the call sign, and whether the record is written
/// from these readings with its own characters.
pub fn readings_report(input: &mut impl Read, sink: &mut impl Write) -> io::Result<()> {
    let mut told = Told::new();
    told.tell(input, sink, |told, line| {
        told.next_record();
        match &crate::read(line) {
            Ok(Readings { edition, all }) => {
                told.say_edition(*edition);
                told.say_readings(all);
                told.say_call_sign(line);
                let mut written = [0u8; LONGEST];
                let answer = crate::write(edition.number(), all, &mut written);
                let same = answer.number == 0 && written[..line.len()] == *line;
                told.begin();
                told.put(if same { b" written same\n" } else { b" written otherwise\n" });
            }
            Err(refusal) => told.say_refused(*refusal),
        }
        true
    })?;
    told.say_total();
    told.finish(sink)
}

/// The recast report: the first line holds the edition asked for, every other line is a record.
pub fn recast_report(input: &mut impl Read, sink: &mut impl Write) -> io::Result<()> {
    let mut told = Told::new();
    let mut edition: Option<Edition> = None;
    let mut scratch = [b' '; LONGEST];
    told.tell(input, sink, |told, line| {
        let Some(edition) = edition else {
            if let [digit] = *line {
                edition = Edition::from_digit(digit);
            }
            if let Some(edition) = edition {
                told.put(b"recast to ");
                told.put(&[edition.digit(), b'\n']);
            }
            return edition.is_some();
        };
        told.next_record();
        let answer = crate::recast(line, edition.number(), &mut scratch);
        if answer.number == 0 {
            told.begin();
            told.put(b" ok ");
            told.put_number(u64::from(answer.lost[0].count_ones() + answer.lost[1].count_ones()));
            for element in answer.lost_elements() {
                told.put(b" ");
                told.put_number(element);
            }
            told.put(b"\n");
        } else {
            told.say_refused(answer);
        }
        true
    })?;
    if edition.is_some() {
        told.say_total();
    } else {
        told.put(b"recast refused 8\n");
    }
    told.finish(sink)
}
