//! The outside vectors and the whole outputs that the document prints.

use std::fmt::Write;

use peer::report::{check_report, readings_report, recast_report};
use peer::trial::{self, Chance, Family, Limits};
use peer::{check, show_call_sign};

fn report(input: &[u8]) -> Vec<u8> {
    let mut output = Vec::new();
    recast_report(&mut &input[..], &mut output).unwrap();
    output
}

#[test]
fn recast_reports() {
    assert!(report(include_bytes!("../vectors/report_to_1.in")) == include_bytes!("../vectors/report_to_1.out"));
    assert!(report(include_bytes!("../vectors/report_to_3.in")) == include_bytes!("../vectors/report_to_3.out"));
    assert!(report(include_bytes!("../vectors/report_to_4.in")) == include_bytes!("../vectors/report_to_4.out"));
}

fn readings_of(input: &[u8]) -> Vec<u8> {
    let mut output = Vec::new();
    readings_report(&mut &input[..], &mut output).unwrap();
    output
}

#[test]
fn readings() {
    assert!(readings_of(include_bytes!("../vectors/readings.in")) == include_bytes!("../vectors/readings.out"));
}

fn check_of(input: &[u8]) -> Vec<u8> {
    let mut output = Vec::new();
    check_report(&mut &input[..], &mut output).unwrap();
    output
}

/// What the check report says of the records of which this was read: the same lines but for those about an element and
/// about the record that was written.
fn without_readings(readings: &[u8]) -> Vec<u8> {
    let said_by_both = |line: &&[u8]| {
        let mut words = line.split(|&byte| byte == b' ');
        let (first, second) = (words.next().unwrap(), words.next().unwrap());
        first == b"records" || second == b"ok" || second == b"call" || second == b"refused"
    };
    readings.split_inclusive(|&byte| byte == b'\n').filter(said_by_both).flatten().copied().collect()
}

#[test]
fn checks() {
    let output = check_of(include_bytes!("../../crates/check_report/stdin"));
    assert!(output == include_bytes!("../../crates/check_report/stdout"));
    // No outside vector is of the check report, but those of the readings hold what it says.
    let output = check_of(include_bytes!("../vectors/readings.in"));
    assert!(output == without_readings(include_bytes!("../vectors/readings.out")));
    let output = check_of(include_bytes!("../vectors/more.in"));
    assert!(output == without_readings(include_bytes!("../vectors/more_readings.out")));
}

/// The check report in the words that it has, of what the calls answer: no line is kept back and none comes twice.
#[test]
fn checks_say_what_the_calls_answer() {
    let limits = Limits::new();
    let mut chance = Chance::new(12);
    let (mut input, mut expected, mut refused) = (Vec::new(), String::new(), 0);
    const COUNT: usize = 12_000;
    for number in 1..=COUNT {
        let mut record = trial::record(&mut chance, &limits, Family::Mixed);
        record.retain(|&byte| byte != b'\n');
        input.extend_from_slice(&record);
        input.push(b'\n');
        let answer = check(&record);
        if answer.number == 0 {
            writeln!(expected, "{number} ok edition {}", char::from(record[110])).unwrap();
            match std::str::from_utf8(show_call_sign(&record)).unwrap() {
                "" => {}
                call_sign => writeln!(expected, "{number} call sign {call_sign}").unwrap(),
            }
        } else {
            refused += 1;
            writeln!(expected, "{number} refused {} {}", answer.number, answer.place).unwrap();
        }
    }
    writeln!(expected, "records {COUNT} refused {refused}").unwrap();
    assert!(check_of(&input) == expected.as_bytes());
}

#[test]
fn more() {
    let records = include_bytes!("../vectors/more.in");
    assert!(report(&[b"1\n", &records[..]].concat()) == include_bytes!("../vectors/more_to_1.out"));
    assert!(report(&[b"3\n", &records[..]].concat()) == include_bytes!("../vectors/more_to_3.out"));
    assert!(report(&[b"4\n", &records[..]].concat()) == include_bytes!("../vectors/more_to_4.out"));
    assert!(readings_of(records) == include_bytes!("../vectors/more_readings.out"));
}

#[test]
fn the_case_of_the_document() {
    let mut record = vec![b' '; 131];
    for (column, text) in [(1, "3"), (2, "2003061412"), (12, "3"), (13, "0650795"), (70, "1"), (79, "02"), (111, "1")] {
        record[column - 1..column - 1 + text.len()].copy_from_slice(text.as_bytes());
    }
    let mut input = b"4\n".to_vec();
    input.extend_from_slice(&record);
    input.extend_from_slice(b"\n\n");
    assert_eq!(report(&input), b"recast to 4\n1 ok 2 40 43\n2 refused 1 0\nrecords 2 refused 1\n");
}

#[test]
fn first_lines() {
    for refused in [&b""[..], b"\n", b"2\n", b"4\r\n", b" 4\n", b"44\n", b"\n4\n", b"0", b"52\n4\n"] {
        assert_eq!(report(refused), b"recast refused 8\n", "{refused:?}");
    }
    assert_eq!(report(b"4"), b"recast to 4\nrecords 0 refused 0\n");
    assert_eq!(report(b"1\n"), b"recast to 1\nrecords 0 refused 0\n");
    assert_eq!(report(b"3\n\n"), b"recast to 3\n1 refused 1 0\nrecords 1 refused 1\n");
    assert_eq!(report(b"3\n\n\nx"), b"recast to 3\n1 refused 1 0\n2 refused 1 0\n3 refused 1 0\nrecords 3 refused 3\n");
}

/// The programs that have no first line of their own.
#[test]
fn last_lines() {
    for program in [check_of, readings_of] {
        assert_eq!(program(b""), b"records 0 refused 0\n");
        assert_eq!(program(b"\n"), b"1 refused 1 0\nrecords 1 refused 1\n");
        assert_eq!(program(b"4"), b"1 refused 1 0\nrecords 1 refused 1\n");
        assert_eq!(program(b"4\r\n\n"), b"1 refused 1 0\n2 refused 1 0\nrecords 2 refused 2\n");
        let record = &include_bytes!("../vectors/readings.in")[..159];
        for end in [&b""[..], b"\n"] {
            assert!(program(&[record, end].concat()).ends_with(b"\nrecords 1 refused 0\n"));
        }
        // The return that some files have before a line's end is a column too many.
        assert_eq!(program(&[record, b"\r\n"].concat()), b"1 refused 1 0\nrecords 1 refused 1\n");
    }
}

/// Counts what is written, and the most that is written at once.
#[derive(Default)]
struct Counted {
    all: usize,
    most: usize,
}

impl std::io::Write for Counted {
    fn write(&mut self, bytes: &[u8]) -> std::io::Result<usize> {
        self.all += bytes.len();
        self.most = self.most.max(bytes.len());
        Ok(bytes.len())
    }

    fn flush(&mut self) -> std::io::Result<()> {
        Ok(())
    }
}

/// What is said is passed on, whatever is said: of records that are refused too, which some program might forget.
#[test]
fn little_is_kept() {
    let refused = b"4\n".iter().chain(&[b'\n'; 200_000]).copied().collect::<Vec<u8>>();
    let accepted = [b"4\n", &[&include_bytes!("../vectors/readings.in")[..160]; 20_000].concat()[..]].concat();
    for input in [refused, accepted] {
        let mut sinks = [Counted::default(), Counted::default(), Counted::default()];
        check_report(&mut &input[..], &mut sinks[0]).unwrap();
        readings_report(&mut &input[..], &mut sinks[1]).unwrap();
        recast_report(&mut &input[..], &mut sinks[2]).unwrap();
        for Counted { all, most } in sinks {
            assert!(all > 200_000 && most < 300_000, "{most} bytes of {all} at once");
        }
    }
}

/// Gives few bytes at a time, so that a line comes in pieces.
struct Drops<'a>(&'a [u8], usize);

impl std::io::Read for Drops<'_> {
    fn read(&mut self, buffer: &mut [u8]) -> std::io::Result<usize> {
        let count = self.0.len().min(buffer.len()).min(self.1);
        buffer[..count].copy_from_slice(&self.0[..count]);
        self.0 = &self.0[count..];
        Ok(count)
    }
}

#[test]
fn lines_of_any_length_and_in_pieces() {
    let record = &include_bytes!("../vectors/report_to_4.in")[2..133];
    for length in [1 << 17, (1 << 18) - 1, 1 << 18, (1 << 18) + 1, 1 << 20] {
        let mut input = b"4\n".to_vec();
        input.resize(2 + length, b'9');
        input.push(b'\n');
        input.extend_from_slice(record);
        input.push(b'\n');
        input.resize(input.len() + length, b'9');
        let expected = b"recast to 4\n1 refused 1 0\n2 ok 2 41 43\n3 refused 1 0\nrecords 3 refused 2\n";
        assert_eq!(report(&input), expected);
        let mut output = Vec::new();
        recast_report(&mut Drops(&input, 1000), &mut output).unwrap();
        assert_eq!(output, expected);
        let expected = b"1 refused 1 0\n2 ok edition 1\n2 call sign XTAZ\n3 refused 1 0\nrecords 3 refused 2\n";
        assert_eq!(without_readings(&readings_of(&input[2..])), check_of(&input[2..]));
        output.clear();
        check_report(&mut Drops(&input[2..], 1000), &mut output).unwrap();
        assert_eq!(output, expected);
    }
    let input = include_bytes!("../vectors/report_to_3.in");
    for count in [1, 7, 159, 160] {
        let mut output = Vec::new();
        recast_report(&mut Drops(input, count), &mut output).unwrap();
        assert!(output == include_bytes!("../vectors/report_to_3.out"));
        output.clear();
        readings_report(&mut Drops(include_bytes!("../vectors/readings.in"), count), &mut output).unwrap();
        assert!(output == include_bytes!("../vectors/readings.out"));
        output.clear();
        check_report(&mut Drops(include_bytes!("../vectors/readings.in"), count), &mut output).unwrap();
        assert!(output == without_readings(include_bytes!("../vectors/readings.out")));
    }
}
