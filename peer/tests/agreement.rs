//! The quick passes against the plain rules, and the calls against one another.

use peer::calls::Call;
use peer::layout::{span, Edition, LONGEST};
use peer::plain::{self, TIES};
use peer::reading::reading as plain_reading;
use peer::recasting::plain_recast;
use peer::returns::{hold_answer, Findings, EDGES};
use peer::trial::{self, Chance, Family, Limits};
use peer::writing::plain_write;
use peer::{check, quick, read, recast, write, Answer, Place, Reading, ELEMENTS};

fn agree(record: &[u8]) {
    let answer = plain::check(record);
    let edition = quick::accepted(record);
    assert_eq!(answer.number == 0, edition.is_some(), "{:?}", String::from_utf8_lossy(record));
    assert_eq!(answer, check(record));
    match read(record) {
        Ok(readings) => {
            assert_eq!(Some(readings.edition), edition);
            assert_eq!(readings.edition.digit(), record[110]);
            for (element, &reading) in (1..).zip(&readings.all) {
                let lacking = element > readings.edition.last_element();
                let plain = if lacking { Reading::Missing } else { plain_reading(readings.edition, record, element) };
                assert_eq!(reading, plain, "element {element} of {:?}", String::from_utf8_lossy(record));
            }
        }
        Err(refusal) => assert_eq!(refusal, answer),
    }
}

#[test]
fn checks_agree_on_every_family() {
    let limits = Limits::new();
    for (index, (name, family)) in Family::ALL.into_iter().enumerate() {
        let mut chance = Chance::new(100 + index as u64);
        let mut accepted = 0;
        for _ in 0..30_000 {
            let record = trial::record(&mut chance, &limits, family);
            agree(&record);
            accepted += usize::from(check(&record).number == 0);
        }
        // A family of which nothing or everything passes would try little.
        match family {
            Family::Typical => assert_eq!(accepted, 30_000),
            _ => assert!((100..29_000).contains(&accepted), "{name}: {accepted} accepted"),
        }
    }
}

#[test]
fn computed_tenths_come_often() {
    let limits = Limits::new();
    let mut chance = Chance::new(77);
    for family in [Family::Typical, Family::Ties] {
        // Accepted records that tie 7 would refuse, had the dew point or the wet bulb been measured.
        let free = (0..10_000)
            .filter(|_| {
                let mut record = trial::record(&mut chance, &limits, family);
                let accepted = check(&record).number == 0;
                let computed: Vec<usize> =
                    [33, 88].into_iter().filter(|&sign| record.get(sign) >= Some(&b'5')).collect();
                computed.into_iter().for_each(|sign| record[sign] = b'0');
                accepted && check(&record) == Answer::refused(7, 7)
            })
            .count();
        assert!(free > 400, "{family:?}: {free}");
    }
}

#[test]
fn places_off_the_tenths_come_often() {
    let limits = Limits::new();
    let mut chance = Chance::new(80);
    // Writes that are refused for a place off the tenths and would not be for the next one on them: the latitude, the
    // longitude, both.
    let mut counts = [0; 3];
    for _ in 0..100_000 {
        let Call::Write(edition, _, mut readings) = trial::call(&mut chance, &limits, Family::Typical) else {
            continue;
        };
        let Reading::Place(place) = readings[5] else { continue };
        let on = Place { latitude: place.latitude / 10 * 10, longitude: place.longitude / 10 * 10, ..place };
        if write(edition, &readings, &mut [0; LONGEST]) != Answer::refused(6, 6) {
            continue;
        }
        readings[5..8].fill(Reading::Place(on));
        if write(edition, &readings, &mut [0; LONGEST]).number == 0 {
            let (north, east) = (on.latitude != place.latitude, on.longitude != place.longitude);
            counts[2 * usize::from(north && east) + usize::from(east && !north)] += 1;
        }
    }
    assert!(counts.iter().all(|&count| count > 100), "{counts:?}");
}

#[test]
fn the_ends_of_months_come_often() {
    let limits = Limits::new();
    let mut chance = Chance::new(78);
    for family in [Family::Typical, Family::Ties] {
        // The last days of months that have no 31st, those of February, its 29ths with a year and without, the 31sts of no
        // month.
        let mut counts = [0; 5];
        for _ in 0..10_000 {
            let mut record = trial::record(&mut chance, &limits, family);
            if check(&record).number != 0 {
                continue;
            }
            let year = plain::number(&record[span(2)]);
            let date = record[span(3).start..span(4).end].to_vec();
            counts[2] += usize::from(date == b"0229" && year.is_some());
            counts[3] += usize::from(date == b"0229" && year.is_none());
            counts[4] += usize::from(date == b"  31");
            if let Some(day) = plain::number(&date[2..]) {
                record[span(4)].copy_from_slice(format!("{:02}", day + 1).as_bytes());
                let last = check(&record) == Answer::refused(7, 10);
                counts[0] += usize::from(last);
                counts[1] += usize::from(last && date.starts_with(b"02"));
            }
        }
        assert!(counts[0] > 400 && counts[1..].iter().all(|&count| count > 30), "{family:?}: {counts:?}");
    }
}

#[test]
fn the_calendar_is_strained_and_hidden() {
    let limits = Limits::new();
    let mut chance = Chance::new(79);
    // Records that a day decides alone, and such as break a lower tie too: any of them, and tie 9.
    let (mut alone, mut hidden, mut behind_nine) = (0, 0, 0);
    for _ in 0..50_000 {
        let mut record = trial::record(&mut chance, &limits, Family::Ties);
        let answer = check(&record);
        if answer.number != 7 {
            continue;
        }
        alone += usize::from(answer.place == 10);
        // What the date alone is refused for, with nothing else left that could break a tie.
        let version = record[110];
        record[span(4).end..].fill(b' ');
        record[110] = version;
        let also = answer.place < 10 && check(&record) == Answer::refused(7, 10);
        hidden += usize::from(also);
        behind_nine += usize::from(also && answer.place == 9);
    }
    assert!(alone > 800 && hidden > 300 && behind_nine > 30, "{alone} {hidden} {behind_nine}");
}

/// Every date, with each of its parts blank too, by the quick pass and the plain rules.
#[test]
fn checks_agree_on_the_whole_calendar() {
    let two = |number: u64| if number == 0 { "  ".to_string() } else { format!("{number:02}") };
    let months: Vec<String> = (0..=12).map(two).collect();
    let days: Vec<String> = (0..=31).map(two).collect();
    for edition in Edition::ALL {
        let mut record = vec![b' '; edition.length()];
        record[0] = b'3';
        record[110] = edition.digit();
        let mut whole_dates = 0;
        for year in (0..=9999).map(Some).chain([None]) {
            let text = year.map_or("    ".to_string(), |year: u64| format!("{year:04}"));
            record[span(2)].copy_from_slice(text.as_bytes());
            for month in &months {
                record[span(3)].copy_from_slice(month.as_bytes());
                for day in &days {
                    record[span(4)].copy_from_slice(day.as_bytes());
                    let answer = plain::check(&record);
                    assert_eq!(quick::accepted(&record), (answer.number == 0).then_some(edition));
                    assert!(answer == Answer::done() || answer == Answer::refused(7, 10));
                    let whole = year.is_some() && month != "  " && day != "  ";
                    whole_dates += u64::from(whole && answer.number == 0);
                }
            }
        }
        // Four hundred years of the Gregorian calendar have 146097 days, wherever they begin.
        assert_eq!(whole_dates, 25 * 146_097);
    }
}

#[test]
fn checks_agree_on_every_byte_of_every_column() {
    let limits = Limits::new();
    let mut chance = Chance::new(7);
    for edition in Edition::ALL {
        for eighths in [0, 4, 8] {
            let whole = trial::typical(&mut chance, &limits, edition, eighths);
            for column in 0..whole.len() {
                let mut record = whole.clone();
                for byte in 0..=255 {
                    record[column] = byte;
                    agree(&record);
                }
            }
        }
    }
}

#[test]
fn checks_agree_on_every_number_of_every_element() {
    let limits = Limits::new();
    let mut chance = Chance::new(8);
    for edition in Edition::ALL {
        for eighths in [0, 8] {
            let whole = trial::typical(&mut chance, &limits, edition, eighths);
            for element in 1..=edition.last_element() {
                let width = span(element).len();
                if width > 4 {
                    continue;
                }
                let mut record = whole.clone();
                for value in 0..10u32.pow(width as u32) {
                    let text = format!("{value:0width$}");
                    record[span(element)].copy_from_slice(text.as_bytes());
                    agree(&record);
                }
            }
        }
    }
}

#[test]
fn recasts_agree() {
    let limits = Limits::new();
    let mut chance = Chance::new(9);
    for _ in 0..60_000 {
        let family = if chance.one_in(3) { Family::Mixed } else { Family::Typical };
        let record = trial::record(&mut chance, &limits, family);
        let edition = chance.pick(&[1, 1, 3, 3, 4, 4, 0, 2, 5, 260]);
        let room = chance.pick(&[0, 130, 131, 158, 159, 160, 159, 159]);
        let mut quick = vec![200; room];
        let mut slow = vec![200; room];
        let answer = recast(&record, edition, &mut quick);
        assert_eq!(answer, plain_recast(&record, edition, &mut slow));
        assert_eq!(quick, slow);
        if answer.number == 0 {
            let length = Edition::from_number(edition).unwrap().length();
            assert_eq!(check(&quick[..length]).number, 0);
            assert!(quick[length..].iter().all(|&byte| byte == 200));
            assert_eq!(
                answer.lost_elements().count() as u32,
                answer.lost[0].count_ones() + answer.lost[1].count_ones()
            );
        } else {
            assert!(quick.iter().all(|&byte| byte == 200));
            assert_eq!(answer.lost, [0, 0]);
        }
    }
}

/// Every element that can be lost between two editions is lost in some trial, and no other.
#[test]
fn losses_are_all_tried() {
    let expected = |from, to| -> Vec<u64> {
        match (from, to) {
            (1, 3) => vec![43],
            (1, 4) => vec![40, 41, 43],
            (3, 1) => [43].into_iter().chain(86..=101).collect(),
            (3, 4) => vec![40, 41],
            (4, 1) => [40, 41, 43, 64].into_iter().chain(66..=101).collect(),
            (4, 3) => [40, 41, 64].into_iter().chain(66..=86).chain(94..=101).collect(),
            _ => vec![],
        }
    };
    let limits = Limits::new();
    let mut chance = Chance::new(14);
    for from in Edition::ALL {
        let mut lost = [[0; 2]; 5];
        for _ in 0..5_000 {
            let record = trial::typical(&mut chance, &limits, from, 7);
            for to in [1, 3, 4] {
                let answer = recast(&record, to, &mut [0; LONGEST]);
                lost[to as usize][0] |= answer.lost[0];
                lost[to as usize][1] |= answer.lost[1];
            }
        }
        for to in [1, 3, 4] {
            let answer = Answer { lost: lost[to as usize], ..Answer::done() };
            assert_eq!(answer.lost_elements().collect::<Vec<_>>(), expected(from.number(), to));
        }
    }
}

#[test]
fn places_agree_on_every_longitude() {
    for (from, digits) in [(Edition::One, &b"01235678"[..]), (Edition::Three, b"1357"), (Edition::Four, b"1357")] {
        let mut record = vec![b' '; from.length()];
        record[0] = b'3';
        record[110] = from.digit();
        for &digit in digits {
            for latitude in [0, 1, 10, 100, 900] {
                for longitude in 0..=1801 {
                    record[11..19].copy_from_slice(format!("{}{latitude:03}{longitude:04}", digit as char).as_bytes());
                    for to in [1, 3, 4] {
                        let mut quick = [0; LONGEST];
                        let mut slow = [0; LONGEST];
                        let answer = recast(&record, to, &mut quick);
                        assert_eq!(answer, plain_recast(&record, to, &mut slow));
                        assert_eq!(quick, slow);
                        // Every place of one edition has a digit in the others.
                        assert!(matches!(answer.number, 0 | 6 | 7));
                    }
                }
            }
        }
    }
}

/// Recasts a record to an edition, home and to that edition again: each answer, and what it left in the lent buffer.
fn trip(recast: fn(&[u8], u64, &mut [u8]) -> Answer, record: &[u8], edition: Edition) -> Vec<(Answer, Vec<u8>)> {
    let own = Edition::from_digit(record[110]).unwrap();
    let mut trip: Vec<(Answer, Vec<u8>)> = Vec::new();
    for to in [edition, own, edition] {
        let mut buffer = vec![200; LONGEST + 1];
        let left = trip.last().map_or(record, |(_, left)| left);
        let answer = recast(left, to.number(), &mut buffer);
        assert!(answer.number == 0 && buffer[to.length()..].iter().all(|&byte| byte == 200));
        buffer.truncate(to.length());
        trip.push((answer, buffer));
    }
    trip
}

/// Holds the two recasts to each other on all trips of an accepted record, and what the protocol answers to the judge.
fn trips_agree_on(record: &[u8], findings: &mut Findings) {
    for edition in Edition::ALL {
        assert_eq!(trip(recast, record, edition), trip(plain_recast, record, edition));
    }
    let (mut request, mut answer) = (Vec::new(), Vec::new());
    Call::ThereAndBack(record.to_vec()).put_line(&mut request);
    Call::ThereAndBack(record.to_vec()).put_answer(&mut answer);
    let [request, answer] = [request, answer].map(|line| String::from_utf8(line).unwrap());
    assert_eq!(hold_answer(request.trim_end(), answer.trim_end(), findings), Ok(()), "{request}");
}

#[test]
fn trips_agree() {
    let limits = Limits::new();
    let mut chance = Chance::new(16);
    let mut findings = Findings::default();
    let (mut whole, mut lost) = (0, 0);
    for _ in 0..20_000 {
        let family = if chance.one_in(3) { Family::Mixed } else { Family::Typical };
        let record = trial::record(&mut chance, &limits, family);
        if check(&record).number != 0 {
            continue;
        }
        trips_agree_on(&record, &mut findings);
        for edition in Edition::ALL {
            let trip = trip(recast, &record, edition);
            whole += usize::from(trip[1].1 == record);
            lost += usize::from(trip[0].0.lost != [0, 0]);
        }
    }
    // Trips of every sort come often.
    assert!(findings.trips > 40_000 && whole > 10_000 && lost > 10_000, "{findings:?} {whole} {lost}");
    assert!(findings.other_digits.iter().all(|&count| count > 5), "{findings:?}");
}

/// How often each edge gives another digit is counted here by hand. Of the 1798 longitudes off the edges every one has two
/// octants in the south, each on two trips, and in editions 3 and 4 the quadrants 3 and 7, each on one. At 0.0, 90.0 and
/// 180.0, at either latitude, it is two octants (at 90.0 four) on two trips and, but for 90.0, two quadrants of two
/// editions on one. Where they meet the equator all digits of one place but the lowest are others.
#[test]
fn trips_agree_on_every_longitude() {
    let mut findings = Findings::default();
    for (from, digits) in [(Edition::One, &b"01235678"[..]), (Edition::Three, b"1357"), (Edition::Four, b"1357")] {
        let mut record = vec![b' '; from.length()];
        record[0] = b'3';
        record[110] = from.digit();
        for &digit in digits {
            for latitude in [0, 1, 900] {
                for longitude in 0..=1800 {
                    record[11..19].copy_from_slice(format!("{}{latitude:03}{longitude:04}", digit as char).as_bytes());
                    if check(&record).number == 0 {
                        trips_agree_on(&record, &mut findings);
                    }
                }
            }
        }
    }
    assert_eq!(EDGES, ["equator", "0.0", "90.0", "180.0", "both"]);
    let equator = 1798 * (2 * 2 + 2 * 2);
    let zero = 2 * (2 * 2 + 2 * 2);
    let ninety = 2 * 4 * 2;
    // At 0.0 and at 180.0 three octants and three quadrants, at 90.0 three octants and one quadrant in the east and in the west.
    let both = 2 * (3 * 2 + 3 * 2) + 2 * (3 * 2 + 2);
    assert_eq!(findings.other_digits, [equator, zero, ninety, zero, both]);
}

/// A read answers what the check does, and an accepted record is written from its own readings.
#[test]
fn reads_agree_on_every_family() {
    let limits = Limits::new();
    for (index, (name, family)) in Family::ALL.into_iter().enumerate() {
        let mut chance = Chance::new(200 + index as u64);
        let mut written = 0;
        for _ in 0..20_000 {
            let record = trial::record(&mut chance, &limits, family);
            agree(&record);
            let Ok(readings) = read(&record) else {
                assert!(check(&record).number != 0);
                continue;
            };
            let mut buffer = [0; LONGEST];
            assert_eq!(write(readings.edition.number(), &readings.all, &mut buffer), Answer::done());
            assert!(buffer[..record.len()] == record[..]);
            assert!(buffer[record.len()..].iter().all(|&byte| byte == 0));
            written += 1;
        }
        assert!(written > 60, "{name}: {written} written");
    }
}

#[test]
fn what_is_written_reads_as_what_was_given() {
    let limits = Limits::new();
    let mut chance = Chance::new(11);
    let mut counts = [0; 10];
    let mut ties = [0; TIES + 1];
    for _ in 0..60_000 {
        let Call::Write(edition, room, readings) = trial::call(&mut chance, &limits, Family::Mixed) else {
            continue;
        };
        let mut buffer = vec![200; room];
        let answer = write(edition, &readings, &mut buffer);
        counts[answer.number as usize] += 1;
        ties[if answer.number == 7 { answer.place as usize } else { 0 }] += 1;
        if answer.number == 0 {
            let length = Edition::from_number(edition).unwrap().length();
            assert!(read(&buffer[..length]).unwrap().all == *readings);
            assert!(buffer[length..].iter().all(|&byte| byte == 200));
        } else {
            assert!(buffer.iter().all(|&byte| byte == 200));
        }
    }
    for number in [0, 6, 7, 8, 9] {
        assert!(counts[number] > 100, "refusal {number} was tried {} times", counts[number]);
    }
    // Ties 1 and 3 to 6 cannot be broken by readings.
    for (tie, &count) in ties.iter().enumerate().skip(1) {
        let never = matches!(tie, 1 | 3..=6);
        assert!(never == (count == 0), "tie {tie}: {count}");
    }
    assert!(ties[TIES] > 50, "{ties:?}");
}

#[test]
fn writes_agree() {
    let limits = Limits::new();
    let mut numbers = [0; 10];
    for (index, (_, family)) in Family::ALL.into_iter().enumerate() {
        let mut chance = Chance::new(900 + index as u64);
        for _ in 0..40_000 {
            if let Call::Write(edition, room, readings) = trial::call(&mut chance, &limits, family) {
                let (mut quick, mut plain) = ([0; 4096], [0; 4096]);
                let answer = write(edition, &readings, &mut quick[..room]);
                assert_eq!(answer, plain_write(edition, &readings, &mut plain[..room]));
                assert!(quick == plain);
                numbers[answer.number as usize] += 1;
            }
        }
    }
    for number in [0, 6, 7, 8, 9] {
        assert!(numbers[number] > 200, "{numbers:?}");
    }
}

/// One reading of an accepted record becomes another: every code and text up to some above what the columns hold.
#[test]
fn writes_agree_on_every_small_reading_of_every_element() {
    let limits = Limits::new();
    let mut chance = Chance::new(31);
    for edition in Edition::ALL {
        let record = trial::typical(&mut chance, &limits, edition, 6);
        let all = read(&record).unwrap().all;
        for element in 1..=ELEMENTS {
            for value in (0..1100).chain([9_999, 10_000, 65_535, u64::MAX]) {
                for reading in [Reading::Missing, Reading::Code(value), Reading::Text(value)] {
                    let mut readings = all;
                    readings[element - 1] = reading;
                    let (mut quick, mut plain) = ([0; LONGEST], [0; LONGEST]);
                    let answer = write(edition.number(), &readings, &mut quick);
                    assert_eq!(answer, plain_write(edition.number(), &readings, &mut plain), "{element} {reading:?}");
                    assert_eq!(quick, plain, "{element} {reading:?}");
                }
            }
        }
    }
}

#[test]
fn requests_are_read_as_they_were_asked() {
    let limits = Limits::new();
    let mut chance = Chance::new(12);
    let calendars = [(Edition::One, *b"0000"), (Edition::Three, *b"    "), (Edition::Four, *b"9999")];
    let calendars = calendars.into_iter().map(|(edition, year)| Call::Calendar(edition, year));
    let trips = [vec![], b"3".to_vec(), trial::typical(&mut chance, &limits, Edition::Four, 4)].map(Call::ThereAndBack);
    for call in (0..5_000).map(|_| trial::call(&mut chance, &limits, Family::Mixed)).chain(calendars).chain(trips) {
        let mut line = Vec::new();
        call.put_line(&mut line);
        let line = String::from_utf8(line).unwrap();
        assert_eq!(Call::of_line(line.strip_suffix('\n').unwrap()).as_ref(), Some(&call));
        let mut answer = Vec::new();
        call.put_answer(&mut answer);
        assert_eq!(answer.iter().filter(|&&byte| byte == b'\n').count(), 1);
    }
    for wrong in ["", "c", "c 3", "c 3g", "c 33 33", "t 4 9999 33", "w 4", "w 4 159 102=c1", "x 33", "c  33"] {
        assert_eq!(Call::of_line(wrong), None, "{wrong}");
    }
    for wrong in ["r", "r ", "r 3", "r 3g", "r 16 33", "r 33 33", "r  33", "r 33 ", "r - -"] {
        assert_eq!(Call::of_line(wrong), None, "{wrong}");
    }
    for wrong in ["b", "b ", "b 3", "b 3g", "b 4 33", "b 33 33", "b  33", "b 33 ", "b - -"] {
        assert_eq!(Call::of_line(wrong), None, "{wrong}");
    }
    for wrong in
        ["d", "d 4", "d 4 ", "d 2 2000", "d 4 20000", "d 4 200", "d 4 200A", "d 4 +200", "d 4 2000 ", "d 4 - -"]
    {
        assert_eq!(Call::of_line(wrong), None, "{wrong}");
    }
}

/// The answer to the line of a request.
fn answer_of(request: &str) -> String {
    let mut answer = Vec::new();
    Call::of_line(request).unwrap().put_answer(&mut answer);
    String::from_utf8(answer).unwrap().strip_suffix('\n').unwrap().to_string()
}

/// What a read answers is handed to a write as it stands, and gives the record's own bytes.
#[test]
fn the_answer_of_a_read_is_the_request_of_a_write() {
    let limits = Limits::new();
    let mut chance = Chance::new(15);
    for _ in 0..5_000 {
        let record = trial::record(&mut chance, &limits, Family::Mixed);
        let mut request = Vec::new();
        Call::Read(record.clone()).put_line(&mut request);
        let answer = answer_of(String::from_utf8(request).unwrap().trim_end());
        let Answer { number, place, .. } = check(&record);
        let readings = answer
            .strip_prefix(&format!("{number} {place} {:016x} {:016x} - ", 0, 0))
            .unwrap_or_else(|| panic!("{answer}"));
        if number != 0 {
            assert_eq!(readings, "0 -");
            continue;
        }
        let (edition, fields) = readings.split_once(' ').unwrap();
        assert_eq!(edition.as_bytes(), &record[110..111]);
        let bytes: String = record.iter().map(|byte| format!("{byte:02x}")).collect();
        let written = answer_of(&format!("w {edition} {} {fields}", record.len()));
        assert!(written.starts_with(&format!("0 0 {:016x} {:016x} {bytes}", 0, 0)), "{written}");
    }
    assert_eq!(answer_of("r -"), format!("1 0 {:016x} {:016x} - 0 -", 0, 0));
}

/// A request to go there and back is answered as a check where the record is refused, else as the nine recasts would be,
/// each of what the one before it left.
#[test]
fn the_answer_of_a_trip_is_that_of_its_recasts() {
    let limits = Limits::new();
    let mut chance = Chance::new(17);
    let mut accepted = 0;
    for _ in 0..5_000 {
        let record = trial::record(&mut chance, &limits, Family::Mixed);
        let digits: String = record.iter().map(|byte| format!("{byte:02x}")).collect();
        let digits = if digits.is_empty() { "-".to_string() } else { digits };
        let mut expected = vec![answer_of(&format!("c {digits}"))];
        if check(&record).number == 0 {
            expected.clear();
            accepted += 1;
            for edition in [1, 3, 4] {
                let mut left = digits.clone();
                for to in [edition, u64::from(record[110] - b'0'), edition] {
                    let answer = answer_of(&format!("t {to} 159 {left}"));
                    let buffer = answer.rsplit(' ').next().unwrap();
                    left = buffer[..if to == 1 { 262 } else { 318 }].to_string();
                    expected.push(answer);
                }
            }
        }
        assert_eq!(answer_of(&format!("b {digits}")), expected.join(" "));
    }
    assert!((500..4_500).contains(&accepted), "{accepted}");
}

#[test]
fn every_refusal_and_every_tie_is_tried() {
    let limits = Limits::new();
    let mut chance = Chance::new(13);
    let mut numbers = [0; 8];
    let mut elements = [0; 102];
    let mut ties = [0; TIES + 1];
    for _ in 0..200_000 {
        let answer = check(&trial::record(&mut chance, &limits, Family::Mixed));
        numbers[answer.number as usize] += 1;
        match answer.number {
            6 => elements[answer.place as usize] += 1,
            7 => ties[answer.place as usize] += 1,
            _ => {}
        }
    }
    assert!(numbers.iter().all(|&count| count > 500), "{numbers:?}");
    assert!(ties[1..].iter().all(|&count| count > 100), "{ties:?}");
    // Elements 1 and 65 have refusals of their own, and column 81 takes whatever is printable.
    for (element, &count) in elements.iter().enumerate().skip(1) {
        let never = matches!(element, 1 | 44 | 65);
        assert!(never == (count == 0), "element {element}: {count}");
    }
}
