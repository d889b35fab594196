//! The cases P1 to P12 of the document and the points that were settled beside it.

use peer::calls::Call;
use peer::layout::{span, text, LONGEST};
use peer::plain::number;
use peer::report::{readings_report, recast_report};
use peer::{check, read, recast, show_call_sign, write, Answer, Edition, Kind, Place, Reading, ELEMENTS};

mod records;
use records::record;

fn refusal(record: &[u8]) -> (u64, u64) {
    let answer = check(record);
    assert_eq!(answer, Answer::refused(answer.number, answer.place));
    (answer.number, answer.place)
}

/// What an element of an accepted record reads as.
fn reading(record: &[u8], element: usize) -> Reading {
    read(record).unwrap().all[element - 1]
}

fn recast_to(record: &[u8], edition: u64) -> (Vec<u8>, Vec<u64>) {
    let mut buffer = vec![0; LONGEST + 1];
    let answer = recast(record, edition, &mut buffer);
    assert_eq!((answer.number, answer.place), (0, 0));
    buffer.truncate(Edition::from_number(edition).unwrap().length());
    (buffer, answer.lost_elements().collect())
}

#[test]
fn p1_p2_p4_places() {
    assert_eq!(recast_to(&record(4, &[(12, "30650795")]), 1), (record(1, &[(12, "80650795")]), vec![]));
    assert_eq!(recast_to(&record(1, &[(12, "30650795")]), 4), (record(4, &[(12, "10650795")]), vec![]));
    assert_eq!(recast_to(&record(1, &[(12, "20001800")]), 4), (record(4, &[(12, "10001800")]), vec![]));
}

#[test]
fn p3_octants() {
    assert_eq!(refusal(&record(1, &[(12, "30650900")])), (0, 0));
    assert_eq!(refusal(&record(1, &[(12, "30650901")])), (7, 2));
}

#[test]
fn p5_signs() {
    assert_eq!(refusal(&record(4, &[(30, "1000")])), (7, 3));
    let cold = record(4, &[(30, "1001")]);
    assert_eq!(reading(&cold, 16), Reading::Amount(-1, Kind::Measured));
    assert_eq!(reading(&cold, 17), Reading::Amount(-1, Kind::Measured));
}

#[test]
fn p6_pressure() {
    assert_eq!(reading(&record(4, &[(38, "0132")]), 20), Reading::Code(10132));
    assert_eq!(reading(&record(4, &[(38, "9987")]), 20), Reading::Code(9987));
    assert_eq!(refusal(&record(4, &[(38, "1000")])), (6, 20));
}

#[test]
fn p7_halves() {
    assert_eq!(refusal(&record(4, &[(1, "4"), (30, "0235")])), (0, 0));
    assert_eq!(refusal(&record(4, &[(1, "4"), (30, "0234")])), (7, 7));
}

#[test]
fn computed_tenths() {
    // Dew point and wet bulb are bound by tie 7 where they were measured, air and sea always.
    for (column, signs) in [(30, "01"), (34, "012567"), (50, "01"), (89, "012567")] {
        for sign in signs.chars() {
            for (first, value) in [("4", "123"), ("5", "123"), ("5", "125")] {
                let expected = if sign >= '5' { (0, 0) } else { (7, 7) };
                let text = format!("{sign}{value}");
                assert_eq!(refusal(&record(4, &[(1, first), (column, &text)])), expected, "{first} {text} at {column}");
                assert_eq!(refusal(&record(4, &[(column, &text)])), (0, 0));
            }
        }
    }
    // Ties 3 to 6 stay.
    for (text, expected) in [("5000", (0, 0)), ("7000", (0, 0)), ("6000", (7, 4))] {
        assert_eq!(refusal(&record(4, &[(1, "4"), (34, text)])), expected);
    }
    // A write goes by the kind of the reading.
    for (kind, expected) in
        [(Kind::Measured, (7, 7)), (Kind::Computed, (0, 0)), (Kind::IcedMeasured, (7, 7)), (Kind::IcedComputed, (0, 0))]
    {
        for sign in [18, 50] {
            let mut readings = [Reading::Missing; ELEMENTS];
            readings[0] = Reading::Code(4);
            readings[64] = Reading::Code(4);
            readings[sign - 1] = Reading::Amount(-123, kind);
            readings[sign] = readings[sign - 1];
            let answer = write(4, &readings, &mut [0; LONGEST]);
            assert_eq!((answer.number, answer.place), expected, "{kind:?} in element {sign}");
        }
    }
}

/// Dates as year, month and day stand in columns 2 to 9, and whether the day exists in its month.
const DATES: [(&str, bool); 34] = [
    ("20030630", true),
    ("20030631", false),
    ("    0430", true),
    ("    0431", false),
    ("    0931", false),
    ("20001131", false),
    ("20030131", true),
    ("    1231", true),
    ("20000229", true),
    ("20000230", false),
    ("00000229", true),
    ("00000230", false),
    ("    0229", true),
    ("    0230", false),
    ("    0231", false),
    ("19000228", true),
    ("19000229", false),
    ("20030228", true),
    ("20030229", false),
    ("00040229", true),
    ("00010229", false),
    ("01000229", false),
    ("04000229", true),
    ("15000229", false),
    ("16000229", true),
    ("17000229", false),
    ("19960229", true),
    ("21000229", false),
    ("24000229", true),
    ("99960229", true),
    ("99990229", false),
    ("2003  31", true),
    ("      31", true),
    ("200302  ", true),
];

#[test]
fn the_calendar() {
    for edition in [1, 3, 4] {
        for (date, exists) in DATES {
            let expected = if exists { (0, 0) } else { (7, 10) };
            let record = record(edition, &[(2, date)]);
            assert_eq!(refusal(&record), expected, "{date}");
            // Every call that checks goes by it.
            let answer = read(&record).err().unwrap_or(Answer::done());
            assert_eq!((answer.number, answer.place), expected, "{date}");
            for to in [1, 3, 4] {
                let mut buffer = [7; LONGEST];
                let answer = recast(&record, to, &mut buffer);
                assert_eq!((answer.number, answer.place), expected, "{date}");
                assert_eq!(buffer.iter().all(|&byte| byte == 7), !exists);
                if exists {
                    assert_eq!(buffer[1..9], *date.as_bytes());
                }
            }
            // A write from the numbers of the date does too.
            let code = |element| number(text(&record, element)).map_or(Reading::Missing, Reading::Code);
            let own = [(2, code(2)), (3, code(3)), (4, code(4))];
            assert_eq!(written(edition, &own), expected, "{date}");
        }
    }
}

#[test]
fn the_calendar_in_the_programs() {
    let june = [record(4, &[(2, "20030631")]), record(4, &[(2, "20030630")])];
    let mut output = Vec::new();
    recast_report(&mut &[&b"3"[..], &june[0], &june[1]].join(&b'\n')[..], &mut output).unwrap();
    assert_eq!(output, b"recast to 3\n1 refused 7 10\n2 ok 0\nrecords 2 refused 1\n");
    output.clear();
    readings_report(&mut &june[0][..], &mut output).unwrap();
    assert_eq!(output, b"1 refused 7 10\nrecords 1 refused 1\n");
}

#[test]
fn the_calendar_is_the_last_tie() {
    let date = (2, "20030631");
    assert_eq!(refusal(&record(4, &[date, (149, "010")])), (7, 9));
    assert_eq!(refusal(&record(4, &[date, (28, "10")])), (7, 8));
    assert_eq!(refusal(&record(4, &[date, (1, "4"), (30, "0234")])), (7, 7));
    assert_eq!(refusal(&record(1, &[date, (12, "30650901")])), (7, 2));
    // A day or a month that is none at all is the element's.
    assert_eq!(refusal(&record(4, &[(2, "20030632")])), (6, 4));
    assert_eq!(refusal(&record(4, &[(2, "20031331")])), (6, 3));
    assert_eq!(refusal(&record(4, &[date, (20, "9")])), (6, 9));
    let june = [(2, Reading::Code(2003)), (3, Reading::Code(6)), (4, Reading::Code(31))];
    assert_eq!(written(4, &[&june[..], &[(93, Reading::Code(10))]].concat()), (7, 9));
    assert_eq!(written(4, &[&june[..], &[(14, Reading::Code(0)), (93, Reading::Code(10))]].concat()), (7, 10));
    // The room comes after the ties.
    assert_eq!(write(4, &readings(4, &june), &mut []), Answer::refused(7, 10));
}

#[test]
fn p8_visibility() {
    for (text, expected) in [("50", (0, 0)), ("56", (0, 0)), ("51", (6, 11)), ("55", (6, 11))] {
        assert_eq!(refusal(&record(4, &[(22, text)])), expected);
    }
}

#[test]
fn p9_flags() {
    assert_eq!(refusal(&record(3, &[(112, "6")])), (6, 66));
    assert_eq!(recast_to(&record(4, &[(112, "6")]), 3), (record(3, &[]), vec![66]));
}

#[test]
fn p10_wind() {
    assert_eq!(refusal(&record(4, &[(28, "12")])), (7, 8));
}

#[test]
fn p11_platform() {
    assert_eq!(recast_to(&record(3, &[(71, "4")]), 4), (record(4, &[]), vec![41]));
}

#[test]
fn p12_call_sign() {
    let named = record(4, &[(72, "ABC")]);
    assert_eq!(refusal(&named), (0, 0));
    assert_eq!(show_call_sign(&named), b"ABC");
    assert_eq!(show_call_sign(&named).as_ptr(), named[71..].as_ptr());
    assert_eq!(refusal(&record(4, &[(72, "AB")])), (6, 42));
    assert_eq!(refusal(&record(4, &[(72, "A BC")])), (6, 42));
    assert_eq!(show_call_sign(&record(4, &[(72, "AB")])), b"");
    assert_eq!(show_call_sign(&record(4, &[])), b"");
}

#[test]
fn refusals_in_order() {
    assert_eq!(refusal(b""), (1, 0));
    assert_eq!(refusal(&[b' '; 172]), (1, 0));
    assert_eq!(refusal(&record(4, &[(1, "2"), (111, "2"), (159, "\u{7f}")])), (2, 159));
    assert_eq!(refusal(&record(4, &[(1, "2"), (111, "2")])), (3, 1));
    assert_eq!(refusal(&record(4, &[(111, "2")])), (4, 111));
    assert_eq!(refusal(&record(4, &[(111, "1"), (20, "9")])), (5, 0));
    assert_eq!(refusal(&record(4, &[(20, "9"), (143, "1  ")])), (6, 9));
    assert_eq!(refusal(&record(4, &[(143, "100")])), (6, 91));
    assert_eq!(refusal(&record(4, &[(149, "010")])), (7, 9));
    assert_eq!(refusal(&record(4, &[(149, "010"), (28, "10"), (12, "1")])), (7, 1));
    assert_eq!(refusal(&record(4, &[(156, "7"), (110, "A"), (132, "6")])), (0, 0));
    assert_eq!(refusal(&record(3, &[(156, "9"), (110, "9")])), (6, 64));
}

#[test]
fn a_refused_record_has_no_readings() {
    // Each in a record that says something, so that there is something to leave out.
    let said = [(2, "20030614"), (12, "10650795"), (30, "0123"), (72, "ABCDEFG")];
    let refused = [
        (record(4, &said)[..158].to_vec(), (1, 0)),
        (record(4, &[&said[..], &[(20, "\u{7f}")]].concat()), (2, 20)),
        (record(4, &[&said[..], &[(1, "6")]].concat()), (3, 1)),
        (record(4, &[&said[..], &[(111, "2")]].concat()), (4, 111)),
        (record(4, &[&said[..], &[(111, "1")]].concat()), (5, 0)),
        (record(4, &[&said[..], &[(143, "100")]].concat()), (6, 91)),
        (record(4, &[&said[..], &[(149, "010")]].concat()), (7, 9)),
    ];
    assert!(read(&record(4, &said)).is_ok());
    for (record, (number, place)) in refused {
        assert_eq!(read(&record), Err(Answer::refused(number, place)));
        // In the protocol every reading is missing, and so is the edition.
        let mut answer = Vec::new();
        Call::Read(record).put_answer(&mut answer);
        let expected = format!("{number} {place} {:016x} {:016x} - 0 -\n", 0, 0);
        assert_eq!(String::from_utf8(answer).unwrap(), expected);
    }
}

#[test]
fn a_read_answers_every_element() {
    for edition in Edition::ALL {
        let last = edition.last_element();
        let plain = read(&record(edition.number(), &[])).unwrap();
        assert_eq!(plain.edition, edition);
        assert_eq!(plain.all, readings(edition.number(), &[]));
        // The last element of the edition reads, and what it lacks is missing.
        let flagged = record(edition.number(), &[(span(last).start + 1, "5")]);
        assert_eq!(read(&flagged).unwrap().all, readings(edition.number(), &[(last, Reading::Code(5))]));
    }
    // Every flag of edition 1 is there, and none of the elements 86 to 101.
    let flags = read(&record(1, &[(112, "55555555555555555555")])).unwrap();
    assert!(flags.all[65..85].iter().all(|&reading| reading == Reading::Code(5)));
    assert!(flags.all[85..].iter().all(|&reading| reading == Reading::Missing));
    let flags = read(&record(3, &[(112, "555555555555555555555"), (152, "55555555")])).unwrap();
    assert!(flags.all[65..86].iter().all(|&reading| reading == Reading::Code(5)));
    assert!(flags.all[86..93].iter().all(|&reading| reading == Reading::Missing));
    assert!(flags.all[93..].iter().all(|&reading| reading == Reading::Code(5)));
}

#[test]
fn whole_numbers() {
    let plain = record(4, &[]);
    for edition in [0, 2, 5, 6, 52, 260, (1 << 32) + 4, u64::MAX] {
        let mut buffer = [7; 200];
        assert_eq!(recast(&plain, edition, &mut buffer), Answer::refused(8, 0));
        assert_eq!(write(edition, &[Reading::Missing; ELEMENTS], &mut buffer), Answer::refused(8, 0));
        assert_eq!(buffer, [7; 200]);
    }
}

#[test]
fn rooms() {
    let plain = record(4, &[(70, "1")]);
    for (edition, room, number) in [(1, 130, 9), (1, 131, 0), (3, 158, 9), (3, 159, 0), (4, 158, 9), (4, 160, 0)] {
        let mut buffer = [7; 200];
        let answer = recast(&plain, edition, &mut buffer[..room]);
        assert_eq!((answer.number, answer.place), (number, 0));
        let written = if number == 0 { Edition::from_number(edition).unwrap().length() } else { 0 };
        assert!(buffer[written..].iter().all(|&byte| byte == 7));
        assert!(buffer[..written].iter().all(|&byte| byte != 7));
    }
}

fn readings(edition: u64, own: &[(usize, Reading)]) -> [Reading; ELEMENTS] {
    let mut readings = [Reading::Missing; ELEMENTS];
    readings[0] = Reading::Code(3);
    readings[64] = Reading::Code(edition);
    for &(element, reading) in own {
        readings[element - 1] = reading;
    }
    readings
}

fn written(edition: u64, own: &[(usize, Reading)]) -> (u64, u64) {
    let mut buffer = [0; LONGEST];
    let answer = write(edition, &readings(edition, own), &mut buffer);
    if answer.number == 0 {
        assert_eq!(refusal(&buffer[..Edition::from_number(edition).unwrap().length()]), (0, 0));
    }
    (answer.number, answer.place)
}

#[test]
fn writes() {
    let amount = |value| Reading::Amount(value, Kind::Measured);
    assert_eq!(written(4, &[]), (0, 0));
    assert_eq!(written(4, &[(1, Reading::Missing)]), (6, 1));
    assert_eq!(written(4, &[(1, Reading::Code((1 << 32) + 3))]), (6, 1));
    assert_eq!(written(4, &[(65, Reading::Code(3))]), (6, 65));
    assert_eq!(written(4, &[(65, Reading::Missing)]), (6, 65));
    assert_eq!(written(1, &[(86, Reading::Code(1))]), (6, 86));
    assert_eq!(written(1, &[(101, amount(1))]), (6, 101));
    assert_eq!(written(4, &[(17, amount(5))]), (6, 16));
    assert_eq!(written(4, &[(16, amount(5)), (17, amount(5))]), (0, 0));
    assert_eq!(written(4, &[(16, amount(1000)), (17, amount(1000))]), (6, 16));
    assert_eq!(written(4, &[(15, Reading::Code(10))]), (7, 8));
    assert_eq!(written(4, &[(91, amount(-100))]), (6, 91));
    assert_eq!(written(4, &[(91, amount(0))]), (0, 0));
    assert_eq!(written(4, &[(44, Reading::Text(32))]), (6, 44));
    assert_eq!(written(4, &[(10, Reading::Text(47))]), (0, 0));
    assert_eq!(written(4, &[(10, Reading::Text(48))]), (6, 10));
    assert_eq!(written(4, &[(64, Reading::Text(65))]), (0, 0));
    assert_eq!(written(3, &[(64, Reading::Text(65))]), (6, 64));
    let place = |latitude, longitude, digit| {
        let place = Reading::Place(Place { latitude, longitude, digit });
        [(6, place), (7, place), (8, place)]
    };
    assert_eq!(written(1, &place(6500, 9010, 3)), (7, 2));
    assert_eq!(written(1, &place(-6500, 9010, 3)), (6, 6));
    assert_eq!(written(1, &place(6500, 27000, 1)), (0, 0));
    assert_eq!(written(1, &place(6500, 0, 0)), (0, 0));
    assert_eq!(written(1, &place(6500, 36000, 0)), (6, 6));
    assert_eq!(written(4, &place(0, 18000, 5)), (0, 0));
    assert_eq!(written(4, &place(0, 17990, 5)), (6, 6));
    assert_eq!(written(4, &place(0, 17990, 2)), (6, 6));
    assert_eq!(written(4, &place(6500, 17990, 1)[..2]), (6, 6));
    assert_eq!(written(4, &place(6500, 17990, 1)[1..]), (6, 6));
    // Off the tenths, to either side, and next to the circle's end.
    assert_eq!(written(4, &place(6500, 17990, 1)), (0, 0));
    assert_eq!(written(4, &place(6501, 17990, 1)), (6, 6));
    assert_eq!(written(4, &place(-6509, 17990, 3)), (6, 6));
    assert_eq!(written(4, &place(6500, 17995, 1)), (6, 6));
    assert_eq!(written(4, &place(6500, 35990, 7)), (0, 0));
    assert_eq!(written(4, &place(6500, 35999, 7)), (6, 6));
    assert_eq!(written(4, &place(6500, 18001, 7)), (6, 6));
    assert_eq!(written(4, &place(1, 0, 1)), (6, 6));
    assert_eq!(written(4, &place(0, 1, 7)), (6, 6));
}

/// Recasts a record to an edition, home and to that edition again: what came home, and what the first recast lost.
fn there_and_back(record: &[u8], edition: u64) -> (Vec<u8>, Vec<u64>) {
    let (there, lost) = recast_to(record, edition);
    let (home, lost_on_the_way_back) = recast_to(&there, u64::from(record[110] - b'0'));
    assert_eq!(lost_on_the_way_back, vec![]);
    assert_eq!(recast_to(&home, edition), (there, vec![]));
    (home, lost)
}

/// the places that come home with another digit, by edition and the edition between, as they go and as they return.
const OTHER_DIGITS: [(u64, u64, &str, &str); 19] = [
    // The equator, east and west of Greenwich and on either side of 90 degrees.
    (3, 1, "30000100", "10000100"),
    (4, 1, "70001700", "50001700"),
    (1, 3, "80000100", "30000100"),
    (1, 4, "50000100", "00000100"),
    (1, 4, "70000901", "20000901"),
    (1, 3, "60000901", "10000901"),
    // 0.0, 90.0 and 180.0, in the north and in the south.
    (3, 1, "71000000", "11000000"),
    (4, 1, "51000000", "31000000"),
    (1, 4, "31000000", "01000000"),
    (1, 3, "81000000", "51000000"),
    (1, 4, "31000900", "21000900"),
    // 90.0 W counts too.
    (1, 4, "11000900", "01000900"),
    (1, 3, "89000900", "79000900"),
    (3, 1, "71001800", "11001800"),
    (4, 1, "51001800", "31001800"),
    (1, 3, "21001800", "11001800"),
    (1, 4, "71001800", "61001800"),
    // On the equator at one of them.
    (4, 1, "50001800", "10001800"),
    (1, 3, "80000900", "20000900"),
];

#[test]
fn another_digit_comes_home() {
    for (from, to, before, after) in OTHER_DIGITS {
        let (home, lost) = there_and_back(&record(from, &[(12, before)]), to);
        assert_eq!((home, lost), (record(from, &[(12, after)]), vec![]), "{before} of {from} to {to}");
        // What came home stays: the same digit from then on, and to its own edition any.
        assert_eq!(there_and_back(&record(from, &[(12, after)]), to).0, record(from, &[(12, after)]));
        assert_eq!(there_and_back(&record(from, &[(12, before)]), from).0, record(from, &[(12, before)]));
        if from != 1 {
            assert_eq!(there_and_back(&record(from, &[(12, before)]), 7 - from).0, record(from, &[(12, before)]));
        }
    }
}

#[test]
fn a_plain_place_comes_home_unchanged() {
    // Away from the edges, and in quadrants at 90.0, where no other has the same place.
    let octants = ["30650795", "00010001", "19000901", "21231799", "50010899", "60651000", "71231234", "89000001"];
    let quadrants = ["10650795", "39000001", "50011799", "71230899", "11000900", "31000900", "51000900", "71000900"];
    for (from, places) in [(1, octants), (3, quadrants), (4, quadrants)] {
        for place in places.iter().chain(&["        "]) {
            for to in [1, 3, 4] {
                let record = record(from, &[(2, "20030614"), (12, place), (22, "97"), (72, "ABCD")]);
                assert_eq!(there_and_back(&record, to), (record, vec![]), "{place} to {to}");
            }
        }
    }
}

#[test]
fn what_was_lost_comes_home_blank() {
    let country = record(4, &[(12, "10650795"), (79, "GB"), (81, "x")]);
    assert_eq!(there_and_back(&country, 1), (record(4, &[(12, "10650795"), (81, "x")]), vec![43]));
    assert_eq!(there_and_back(&country, 3), (country, vec![]));
    let logbook = record(1, &[(70, "1"), (71, "4"), (79, "02"), (112, "5")]);
    assert_eq!(there_and_back(&logbook, 3), (record(1, &[(70, "1"), (71, "4"), (112, "5")]), vec![43]));
    assert_eq!(there_and_back(&logbook, 4), (record(1, &[(112, "5")]), vec![40, 41, 43]));
    let flags = record(4, &[(110, "A"), (112, "60"), (132, "6"), (133, "360"), (159, "7")]);
    assert_eq!(there_and_back(&flags, 3), (record(4, &[(113, "0"), (133, "360")]), vec![64, 66, 86, 101]));
    assert_eq!(there_and_back(&flags, 1), (record(4, &[(113, "0")]), vec![64, 66, 86, 87, 101]));
    assert_eq!(there_and_back(&flags, 4), (flags, vec![]));
}

#[test]
fn every_place_is_recast_to_the_same_place() {
    let latitudes = [0, 1, 450, 899, 900];
    let longitudes = [0, 1, 899, 900, 901, 1799, 1800];
    for (from, digits) in [(1, &b"01235678"[..]), (3, b"1357"), (4, b"1357")] {
        for &digit in digits {
            for latitude in latitudes {
                for longitude in longitudes {
                    let text = format!("{}{latitude:03}{longitude:04}", digit as char);
                    let first = record(from, &[(12, &text)]);
                    if refusal(&first) != (0, 0) {
                        assert_eq!(refusal(&first), (7, 2));
                        continue;
                    }
                    for to in [1, 3, 4] {
                        let (second, lost) = recast_to(&first, to);
                        assert!(lost.is_empty());
                        assert_eq!(refusal(&second), (0, 0));
                        assert_eq!(second[span(7).start..span(8).end], first[span(7).start..span(8).end]);
                        let of = |record: &[u8]| match reading(record, 6) {
                            Reading::Place(place) => (place.latitude, place.longitude),
                            other => panic!("{other:?}"),
                        };
                        assert_eq!(of(&first), of(&second));
                    }
                }
            }
        }
    }
}
