//! Records that go there and back, and a judge of what an implementation answers for them.
//!
//! A buyer sends a recast record home, and it is recast to where it began. The judge reads `b` requests and their answers,
//! in the protocol of src/calls.rs, and holds every trip to the sentences below. They are the documents' and know no way to
//! recast, so that an answer can be wrong here though two implementations agree on it.

use std::io::{self, BufRead, Write};

use crate::calls::{bytes_of, memory, Call, GUARD};
use crate::layout::{blank, text, Edition, LONGEST};
use crate::reading::{reading, Reading};
use crate::{check, Answer};

/// What is said of a request, its answer and each trip, in the order in which an answer is held to it. A sentence that
/// follows from others stands before them: after them nothing could break it.
#[derive(Clone, Copy, PartialEq, Eq, Debug)]
pub enum Sentence {
    Asked,
    Answered,
    Refused,
    Complete,
    Made,
    Untouched,
    SecondLosesNothing,
    ThirdLosesNothing,
    ThirdGivesTheFirst,
    Version,
    Accepted,
    LossesAreBlank,
    PlainPlace,
    SameDigit,
    DigitStays,
    BlankWasLost,
    Characters,
    OnlyOnEdges,
    SamePlace,
}

impl Sentence {
    pub const ALL: [(Sentence, &'static str); 19] = [
        (Sentence::Asked, "a request is `b RECORD`"),
        (Sentence::Answered, "every request has an answer, and every answer a request"),
        (Sentence::Refused, "a refused record is answered as check answers it"),
        (Sentence::Complete, "an accepted record is answered with three recasts for each edition, and nothing else"),
        (Sentence::Made, "every recast of a trip is made"),
        (Sentence::Untouched, "a recast writes the record and nothing beyond it"),
        (Sentence::SecondLosesNothing, "the second recast loses nothing"),
        (Sentence::ThirdLosesNothing, "the third recast loses nothing"),
        (Sentence::ThirdGivesTheFirst, "the third recast gives what the first gave, byte for byte"),
        (Sentence::Version, "column 111 has its first digit again"),
        (Sentence::Accepted, "what a recast gives is an accepted record of the edition asked for"),
        (Sentence::LossesAreBlank, "an element in the first loss set was filled, and comes home blank"),
        (Sentence::PlainPlace, "a record that lost nothing and has no place on an edge comes home byte for byte"),
        (Sentence::SameDigit, "a record that lost nothing and has its digit in column 12 comes home byte for byte"),
        (Sentence::DigitStays, "between 3 and 4, and to the record's own edition, column 12 stays as it is"),
        (Sentence::BlankWasLost, "an element that was filled and comes home blank was in the first loss set"),
        (Sentence::Characters, "an element that comes home filled has its first characters, or is column 12"),
        (Sentence::OnlyOnEdges, "another digit comes only on the equator or at 0.0, 90.0 or 180.0"),
        (Sentence::SamePlace, "another digit is for the same place"),
    ];

    pub fn words(self) -> &'static str {
        Sentence::ALL.iter().find(|row| row.0 == self).expect("every sentence has words").1
    }
}

/// The edges on which a place can have more than one digit, as the counts name them: latitude 000, and longitude 0000, 0900
/// and 1800. A place on the equator at one of these longitudes counts as `both` alone, for either can be why another digit
/// came.
pub const EDGES: [&str; 5] = ["equator", "0.0", "90.0", "180.0", "both"];

/// Which of the edges the place of a record stands on, by the figures in its columns.
fn edge(record: &[u8]) -> Option<usize> {
    let longitude = [b"0000", b"0900", b"1800"].iter().position(|&figure| text(record, 8) == figure);
    match (text(record, 7) == b"000", longitude) {
        (true, None) => Some(0),
        (true, Some(_)) => Some(4),
        (false, longitude) => longitude.map(|at| 1 + at),
    }
}

/// What was found in a stream: the trips that keep every sentence, the answers that break one, and how often another digit
/// came home, by the edge of its place.
#[derive(Clone, Copy, PartialEq, Eq, Default, Debug)]
pub struct Findings {
    pub trips: u64,
    pub broken: u64,
    pub other_digits: [u64; EDGES.len()],
}

/// One recast of a trip, as it was answered: what was lost, and the record that it left.
struct Leg {
    answer: Answer,
    record: Vec<u8>,
}

fn hold(holds: bool, sentence: Sentence) -> Result<(), Sentence> {
    if holds {
        Ok(())
    } else {
        Err(sentence)
    }
}

fn word_of(field: &str) -> Option<u64> {
    Some(u64::from_be_bytes(bytes_of(field)?.try_into().ok()?))
}

/// The next recast of an answer, which was asked for an edition.
fn next_leg<'a>(fields: &mut impl Iterator<Item = &'a str>, to: Edition) -> Result<Leg, Sentence> {
    let mut field = || fields.next().ok_or(Sentence::Complete);
    let (number, place, low, high, buffer) = (field()?, field()?, field()?, field()?, field()?);
    hold((number, place) == ("0", "0"), Sentence::Made)?;
    let word = |field| word_of(field).ok_or(Sentence::Complete);
    let lost = [word(low)?, word(high)?];
    let mut record = bytes_of(buffer).ok_or(Sentence::Complete)?;
    hold(record.len() == LONGEST + GUARD, Sentence::Complete)?;
    hold(record[to.length()..] == memory(LONGEST)[to.length()..], Sentence::Untouched)?;
    record.truncate(to.length());
    Ok(Leg { answer: Answer { lost, ..Answer::done() }, record })
}

/// Latitude and longitude of the place of an accepted record; nothing where it has none.
fn place(edition: Edition, record: &[u8]) -> Option<(i64, u64)> {
    match reading(edition, record, 6) {
        Reading::Place(place) => Some((place.latitude, place.longitude)),
        _ => None,
    }
}

/// Holds the trip of an accepted record to every sentence about it: the edge of its place, where another digit came home.
fn hold_trip(from: Edition, to: Edition, record: &[u8], legs: [Leg; 3]) -> Result<Option<usize>, Sentence> {
    let [there, home, again] = legs;
    let edge = edge(record);
    let whole = home.record == record;
    let same_digit = text(&home.record, 6) == text(record, 6);
    hold(home.answer.lost == [0, 0], Sentence::SecondLosesNothing)?;
    hold(again.answer.lost == [0, 0], Sentence::ThirdLosesNothing)?;
    hold(again.record == there.record, Sentence::ThirdGivesTheFirst)?;
    hold(home.record[110] == from.digit(), Sentence::Version)?;
    hold(there.record[110] == to.digit(), Sentence::Accepted)?;
    hold([&there, &home].iter().all(|leg| check(&leg.record) == Answer::done()), Sentence::Accepted)?;

    for element in there.answer.lost_elements().map(|element| element as usize) {
        let lost =
            element <= from.last_element() && !blank(text(record, element)) && blank(text(&home.record, element));
        hold(lost, Sentence::LossesAreBlank)?;
    }
    if there.answer.lost == [0, 0] {
        hold(whole || edge.is_some(), Sentence::PlainPlace)?;
        hold(whole || !same_digit, Sentence::SameDigit)?;
    }
    let across_one = (from == Edition::One) != (to == Edition::One);
    hold(same_digit || across_one, Sentence::DigitStays)?;

    let mut other_digit = None;
    for element in 1..=from.last_element() {
        let after = text(&home.record, element);
        if after == text(record, element) {
            continue;
        }
        if blank(after) {
            let named = there.answer.lost_elements().any(|lost| lost == element as u64);
            hold(named, Sentence::BlankWasLost)?;
            continue;
        }
        hold(element == 6, Sentence::Characters)?;
        hold(edge.is_some(), Sentence::OnlyOnEdges)?;
        hold(place(from, record) == place(from, &home.record), Sentence::SamePlace)?;
        other_digit = edge;
    }
    Ok(other_digit)
}

/// Holds the answer to a request to every sentence and counts its trips; the first sentence broken, where one is.
pub fn hold_answer(request: &str, answer: &str, findings: &mut Findings) -> Result<(), Sentence> {
    let Some(Call::ThereAndBack(record)) = Call::of_line(request) else {
        return Err(Sentence::Asked);
    };
    if check(&record).number != 0 {
        let mut refusal = Vec::new();
        Call::Check(record).put_answer(&mut refusal);
        return hold(refusal.strip_suffix(b"\n") == Some(answer.as_bytes()), Sentence::Refused);
    }
    let own = Edition::from_digit(record[110]).expect("an accepted record names its edition");
    let mut fields = answer.split(' ');
    for edition in Edition::ALL {
        let there = next_leg(&mut fields, edition)?;
        let home = next_leg(&mut fields, own)?;
        let again = next_leg(&mut fields, edition)?;
        if let Some(edge) = hold_trip(own, edition, &record, [there, home, again])? {
            findings.other_digits[edge] += 1;
        }
        findings.trips += 1;
    }
    hold(fields.next().is_none(), Sentence::Complete)
}

/// Takes the next line, without its line end; whether there is one.
fn next_line(input: &mut impl BufRead, line: &mut Vec<u8>) -> io::Result<bool> {
    line.clear();
    let more = input.read_until(b'\n', line)? > 0;
    if line.last() == Some(&b'\n') {
        line.pop();
    }
    Ok(more)
}

/// Judges a stream of answers: shows the first that breaks a sentence, and prints the counts. Whether none does.
pub fn judge(requests: &mut impl BufRead, answers: &mut impl BufRead, sink: &mut impl Write) -> io::Result<bool> {
    let mut findings = Findings::default();
    let (mut request, mut answer) = (Vec::new(), Vec::new());
    for line in 1u64.. {
        let asked = next_line(requests, &mut request)?;
        let answered = next_line(answers, &mut answer)?;
        if !asked && !answered {
            break;
        }
        // Bytes that are no text are neither a request nor an answer, and an empty line is neither too.
        let words = |line| std::str::from_utf8(line).unwrap_or("");
        let held = match asked && answered {
            true => hold_answer(words(&request), words(&answer), &mut findings),
            false => Err(Sentence::Answered),
        };
        if let Err(sentence) = held {
            if findings.broken == 0 {
                writeln!(sink, "line {line} breaks: {}", sentence.words())?;
                for (name, text) in [("request", &request), ("answer", &answer)] {
                    writeln!(sink, "  {name} {}", String::from_utf8_lossy(text))?;
                }
            }
            findings.broken += 1;
        }
    }
    write!(sink, "trips {} broken {}", findings.trips, findings.broken)?;
    for (name, count) in EDGES.iter().zip(findings.other_digits) {
        write!(sink, " {name} {count}")?;
    }
    writeln!(sink)?;
    sink.flush()?;
    Ok(findings.broken == 0)
}
