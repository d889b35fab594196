//! The judge of records that go there and back: it lets the true answer by, refuses one that breaks a sentence for that
//! sentence, and counts what it met.

use peer::calls::Call;
use peer::returns::{hold_answer, judge, Findings, Sentence};

mod records;
use records::record;

fn request(record: &[u8]) -> String {
    let mut line = Vec::new();
    Call::ThereAndBack(record.to_vec()).put_line(&mut line);
    String::from_utf8(line).unwrap().trim_end().to_string()
}

fn answer(record: &[u8]) -> String {
    let mut line = Vec::new();
    Call::ThereAndBack(record.to_vec()).put_answer(&mut line);
    String::from_utf8(line).unwrap().trim_end().to_string()
}

/// An answer in its parts, five for a recast: number, place, the two words of losses, the memory.
struct Parts(Vec<String>);

/// The recasts of a trip.
const THERE: usize = 0;
const HOME: usize = 1;
const AGAIN: usize = 2;

impl Parts {
    fn part(&mut self, edition: u64, leg: usize, part: usize) -> &mut String {
        let trip = [1, 3, 4].iter().position(|&number| number == edition).unwrap();
        &mut self.0[(3 * trip + leg) * 5 + part]
    }

    /// Puts another byte into the memory of a recast.
    fn put(&mut self, edition: u64, leg: usize, column: usize, byte: u8) {
        let memory = self.part(edition, leg, 4);
        memory.replace_range(2 * column - 2..2 * column, &format!("{byte:02x}"));
    }

    /// Names an element as lost.
    fn lose(&mut self, edition: u64, leg: usize, element: usize) {
        let word = self.part(edition, leg, 2 + (element - 1) / 64);
        let bits = u64::from_str_radix(word, 16).unwrap() | 1 << ((element - 1) % 64);
        *word = format!("{bits:016x}");
    }
}

/// What the judge says of the true answer to a record after a change; the true one keeps every sentence.
fn changed(record: &[u8], change: impl FnOnce(&mut Parts)) -> Result<(), Sentence> {
    let (request, answer) = (request(record), answer(record));
    assert_eq!(hold_answer(&request, &answer, &mut Findings::default()), Ok(()));
    let mut parts = Parts(answer.split(' ').map(str::to_string).collect());
    change(&mut parts);
    let changed = parts.0.join(" ");
    assert!(changed != answer);
    hold_answer(&request, &changed, &mut Findings::default())
}

/// Edition 4, with a plain place, a pressure and a country, which edition 1 loses.
fn country() -> Vec<u8> {
    record(4, &[(12, "10650795"), (20, "1"), (38, "0132"), (79, "GB")])
}

/// Edition 3 on the equator, with a digit that is not the lowest, and nothing to lose.
fn equator() -> Vec<u8> {
    record(3, &[(12, "30000100"), (20, "1")])
}

/// Every sentence with answers that break it, a request and an answer each.
fn breaches() -> Vec<(Sentence, Result<(), Sentence>)> {
    let nothing_lost = record(4, &[(12, "10650795"), (20, "1")]);
    let lowest_digit = record(3, &[(12, "10000100"), (20, "1")]);
    let refused = record(4, &[(20, "9")]);
    // Edition 3 loses the first flag and keeps the last.
    let flags = record(4, &[(112, "6"), (159, "5")]);
    let hold = |request: &str, answer: &str| hold_answer(request, answer, &mut Findings::default());
    vec![
        (Sentence::Asked, hold("", &answer(&country()))),
        (Sentence::Asked, hold(&request(&country()).replace("b ", "c "), &answer(&country()))),
        (Sentence::Asked, hold("b 3", "?")),
        (Sentence::Refused, hold(&request(&refused), &answer(&country()))),
        (Sentence::Refused, changed(&refused, |parts| parts.0[1] = "10".to_string())),
        (Sentence::Refused, changed(&refused, |parts| parts.0[2] = format!("{:016x}", 1))),
        (Sentence::Refused, changed(&refused, |parts| parts.0[4] = "20".to_string())),
        (Sentence::Refused, changed(&refused, |parts| parts.0.push("0".to_string()))),
        (Sentence::Complete, hold(&request(&country()), "")),
        (Sentence::Complete, changed(&country(), |parts| parts.0.truncate(44))),
        (Sentence::Complete, changed(&country(), |parts| parts.0.truncate(30))),
        (Sentence::Complete, changed(&country(), |parts| parts.0.push("0".to_string()))),
        (Sentence::Complete, changed(&country(), |parts| *parts.part(3, HOME, 3) = "0".to_string())),
        (Sentence::Complete, changed(&country(), |parts| parts.part(1, THERE, 4).truncate(2 * 159))),
        (Sentence::Complete, changed(&country(), |parts| parts.part(4, AGAIN, 4).push_str("9f"))),
        (Sentence::Complete, changed(&country(), |parts| *parts.part(4, AGAIN, 4) = "-".to_string())),
        (Sentence::Made, hold(&request(&country()), &answer(&refused))),
        (
            Sentence::Made,
            changed(&country(), |parts| {
                // As the protocol answers where the way back is refused.
                *parts.part(3, HOME, 0) = "6".to_string();
                *parts.part(3, HOME, 1) = "43".to_string();
                parts.0.drain(25..30);
            }),
        ),
        (Sentence::Made, changed(&country(), |parts| *parts.part(4, AGAIN, 1) = "6".to_string())),
        (Sentence::Untouched, changed(&country(), |parts| parts.put(1, THERE, 132, b' '))),
        (Sentence::Untouched, changed(&country(), |parts| parts.put(1, HOME, 160, b' '))),
        (Sentence::Untouched, changed(&country(), |parts| parts.put(4, AGAIN, 175, 0))),
        (Sentence::SecondLosesNothing, changed(&country(), |parts| parts.lose(1, HOME, 43))),
        (Sentence::SecondLosesNothing, changed(&country(), |parts| parts.lose(4, HOME, 101))),
        (Sentence::ThirdLosesNothing, changed(&country(), |parts| parts.lose(1, AGAIN, 43))),
        (Sentence::ThirdLosesNothing, changed(&country(), |parts| parts.lose(3, AGAIN, 65))),
        (Sentence::ThirdGivesTheFirst, changed(&country(), |parts| parts.put(1, AGAIN, 20, b' '))),
        (Sentence::ThirdGivesTheFirst, changed(&equator(), |parts| parts.put(1, AGAIN, 12, b'8'))),
        (Sentence::Version, changed(&country(), |parts| parts.put(1, HOME, 111, b'3'))),
        (Sentence::Version, changed(&country(), |parts| parts.put(3, HOME, 111, b' '))),
        (Sentence::Accepted, changed(&country(), |parts| parts.put(1, HOME, 20, b'9'))),
        (Sentence::Accepted, changed(&country(), |parts| parts.put(1, HOME, 13, b' '))),
        (
            Sentence::Accepted,
            changed(&country(), |parts| [THERE, AGAIN].iter().for_each(|&leg| parts.put(3, leg, 112, b'6'))),
        ),
        (
            Sentence::Accepted,
            changed(&country(), |parts| [THERE, AGAIN].iter().for_each(|&leg| parts.put(3, leg, 111, b'4'))),
        ),
        // Lost and never there, lost and there again, and no element at all.
        (Sentence::LossesAreBlank, changed(&country(), |parts| parts.lose(3, THERE, 2))),
        (Sentence::LossesAreBlank, changed(&country(), |parts| parts.lose(3, THERE, 9))),
        (Sentence::LossesAreBlank, changed(&country(), |parts| parts.lose(1, THERE, 128))),
        (Sentence::LossesAreBlank, changed(&record(1, &[]), |parts| parts.lose(4, THERE, 86))),
        (Sentence::PlainPlace, changed(&nothing_lost, |parts| parts.put(1, HOME, 20, b'2'))),
        (Sentence::PlainPlace, changed(&nothing_lost, |parts| parts.put(1, HOME, 12, b'3'))),
        (Sentence::PlainPlace, changed(&record(4, &[(20, "1")]), |parts| parts.put(4, HOME, 20, b' '))),
        (Sentence::SameDigit, changed(&lowest_digit, |parts| parts.put(1, HOME, 20, b'2'))),
        (Sentence::SameDigit, changed(&equator(), |parts| parts.put(4, HOME, 20, b' '))),
        (Sentence::BlankWasLost, changed(&country(), |parts| parts.put(1, HOME, 20, b' '))),
        (
            Sentence::BlankWasLost,
            changed(&country(), |parts| (12..=19).for_each(|column| parts.put(1, HOME, column, b' '))),
        ),
        (Sentence::BlankWasLost, changed(&flags, |parts| parts.put(3, HOME, 159, b' '))),
        (Sentence::BlankWasLost, changed(&equator(), |parts| parts.put(1, HOME, 20, b' '))),
        (Sentence::Characters, changed(&country(), |parts| parts.put(1, HOME, 20, b'2'))),
        (Sentence::Characters, changed(&country(), |parts| parts.put(1, HOME, 38, b'9'))),
        (Sentence::Characters, changed(&flags, |parts| parts.put(3, HOME, 159, b'4'))),
        // A nought where there was nothing.
        (Sentence::Characters, changed(&country(), |parts| parts.put(1, HOME, 21, b'0'))),
        (Sentence::Characters, changed(&country(), |parts| parts.put(1, HOME, 19, b'6'))),
        (Sentence::OnlyOnEdges, changed(&country(), |parts| parts.put(1, HOME, 12, b'3'))),
        (Sentence::OnlyOnEdges, changed(&country(), |parts| parts.put(1, HOME, 12, b'7'))),
        (Sentence::SamePlace, changed(&equator(), |parts| parts.put(1, HOME, 12, b'7'))),
        (Sentence::SamePlace, changed(&equator(), |parts| parts.put(1, HOME, 19, b'1'))),
        (Sentence::SamePlace, changed(&record(1, &[(12, "31000900")]), |parts| parts.put(4, HOME, 12, b'0'))),
        (Sentence::SamePlace, changed(&record(4, &[(12, "71001800")]), |parts| parts.put(1, HOME, 12, b'3'))),
        (Sentence::DigitStays, changed(&equator(), |parts| parts.put(4, HOME, 12, b'1'))),
        (Sentence::DigitStays, changed(&equator(), |parts| parts.put(3, HOME, 12, b'1'))),
        (Sentence::DigitStays, changed(&record(1, &[(12, "31000000")]), |parts| parts.put(1, HOME, 12, b'0'))),
        (
            Sentence::DigitStays,
            changed(&country(), |parts| {
                // A place that is lost is no other digit, and has not stayed either.
                (6..=8).for_each(|element| parts.lose(3, THERE, element));
                (12..=19).for_each(|column| parts.put(3, HOME, column, b' '));
            }),
        ),
    ]
}

#[test]
fn every_sentence_is_broken_by_some_answer() {
    let breaches = breaches();
    for (index, (sentence, judged)) in breaches.iter().enumerate() {
        assert_eq!(*judged, Err(*sentence), "breach {index}");
    }
    for (sentence, _) in Sentence::ALL {
        // A stream alone can lack an answer; that is tried below.
        let tried = breaches.iter().any(|(other, _)| *other == sentence);
        assert!(tried != (sentence == Sentence::Answered), "{sentence:?}");
    }
}

/// What the judge prints for lines of requests and of answers, and what it answers.
fn judged(requests: &[String], answers: &[String]) -> (String, bool) {
    let lines = |lines: &[String]| lines.iter().map(|line| format!("{line}\n")).collect::<String>();
    let mut output = Vec::new();
    let kept = judge(&mut lines(requests).as_bytes(), &mut lines(answers).as_bytes(), &mut output).unwrap();
    (String::from_utf8(output).unwrap(), kept)
}

#[test]
fn a_stream_is_counted() {
    let none = "trips 0 broken 0 equator 0 0.0 0 90.0 0 180.0 0 both 0\n";
    assert_eq!(judged(&[], &[]), (none.to_string(), true));
    assert_eq!(judged(&["b -".to_string()], &[answer(b"")]), (none.to_string(), true));
    // Each edge as often as no other, the equator and a longitude together apart; the plain place comes first and last.
    let places = [
        (4, "10650795", 1),
        (3, "30000100", 1),
        (4, "71000000", 2),
        (1, "31000900", 3),
        (1, "11000900", 3),
        (1, "21001800", 5),
        (1, "80000900", 4),
        (1, "30650795", 1),
    ];
    let records: Vec<Vec<u8>> =
        places.iter().flat_map(|&(from, place, times)| vec![record(from, &[(12, place)]); times]).collect();
    let requests: Vec<String> = records.iter().map(|record| request(record)).collect();
    let answers: Vec<String> = records.iter().map(|record| answer(record)).collect();
    // From edition 1 another digit comes on the trips to 3 and to 4, from the others on the one to 1.
    let counts = "trips 60 broken 0 equator 1 0.0 2 90.0 12 180.0 10 both 8\n";
    assert_eq!(judged(&requests, &answers), (counts.to_string(), true));
}

#[test]
fn the_first_breach_is_shown() {
    let (good, bad) = (country(), equator());
    let requests = [request(&good), request(&bad), request(&bad)];
    let answers = [answer(&good), answer(&bad).replacen('0', "9", 1), "?".to_string()];
    let shown = format!(
        "line 2 breaks: every recast of a trip is made\n  request {}\n  answer {}\n\
         trips 3 broken 2 equator 0 0.0 0 90.0 0 180.0 0 both 0\n",
        requests[1], answers[1]
    );
    assert_eq!(judged(&requests, &answers), (shown, false));
}

#[test]
fn requests_and_answers_come_in_pairs() {
    let (requests, answers) = ([request(&country()), request(&country())], [answer(&country()), answer(&country())]);
    let words = "line 2 breaks: every request has an answer, and every answer a request\n";
    for (requests, answers) in [(&requests[..], &answers[..1]), (&requests[..1], &answers[..])] {
        let (output, kept) = judged(requests, answers);
        assert!(output.starts_with(words) && output.contains("\ntrips 3 broken 1 ") && !kept, "{output}");
    }
    // Bytes that are no text, and an empty line, are no answer.
    for wrong in [&b"\xff\n"[..], b"\n"] {
        let mut output = Vec::new();
        assert!(!judge(&mut requests[0].as_bytes(), &mut &wrong[..], &mut output).unwrap());
        assert!(output.ends_with(b"trips 0 broken 1 equator 0 0.0 0 90.0 0 180.0 0 both 0\n"));
    }
}
