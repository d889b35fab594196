//! The sub-commands that comparison scripts use:
//!
//!     peer check-report < input            what the check says of every record
//!     peer readings < input                what every element of every record reads as
//!     peer report < input                  the recast report
//!     peer calls < requests                trial calls answered in bulk (the protocol stands in src/calls.rs)
//!     peer judge REQUESTS < answers        whether every answer to the file of `b` requests keeps the sentences about a record
//!                                          that goes there and back (they stand in src/returns.rs)
//!     peer generate SEED COUNT KIND [FORM] trial inputs; KIND is random, typical, damaged, boundary, ties, lengths, bytes or
//!                                          mixed; FORM is calls (if none is given), records, report1, report3, report4, or
//!                                          back for `b` requests of the records that records and the reports have
//!     peer bench                           nanoseconds a record, the best of many runs
//!
//! Exit status: 0, 1 where an answer is judged broken or a file cannot be read or written, 2 for wrong usage.

use std::fs::File;
use std::hint::black_box;
use std::io::{self, BufRead, BufReader, Read, Write};
use std::process::ExitCode;
use std::time::Instant;

use peer::calls::Call;
use peer::layout::Edition;
use peer::trial::{self, Chance, Family, Limits};

/// What a sub-command exits with.
const DONE: u8 = 0;
const BROKEN: u8 = 1;
const WRONG_USAGE: u8 = 2;

/// An input that is long, read in few pieces.
fn in_pieces(input: impl Read) -> impl BufRead {
    BufReader::with_capacity(1 << 18, input)
}

fn generate(arguments: &[String], sink: &mut impl Write) -> io::Result<u8> {
    let [seed, count, family, form @ ..] = arguments else {
        return Ok(WRONG_USAGE);
    };
    let (Ok(seed), Ok(count), Some(family)) = (seed.parse(), count.parse::<u64>(), Family::of_name(family)) else {
        return Ok(WRONG_USAGE);
    };
    let form = form.first().map_or("calls", String::as_str);
    let first: &[u8] = match form {
        "calls" | "records" | "back" => b"",
        "report1" => b"1\n",
        "report3" => b"3\n",
        "report4" => b"4\n",
        _ => return Ok(WRONG_USAGE),
    };
    let mut chance = Chance::new(seed);
    let limits = Limits::new();
    let mut output = first.to_vec();
    for index in 0..count {
        match form {
            "calls" => trial::call(&mut chance, &limits, family).put_line(&mut output),
            "back" => Call::ThereAndBack(trial::record(&mut chance, &limits, family)).put_line(&mut output),
            _ => {
                output.extend_from_slice(&trial::record(&mut chance, &limits, family));
                // The last line end is left out by half of the seeds.
                if index + 1 < count || seed % 2 == 0 {
                    output.push(b'\n');
                }
            }
        }
        if output.len() >= 1 << 16 {
            sink.write_all(&output)?;
            output.clear();
        }
    }
    sink.write_all(&output)?;
    sink.flush()?;
    Ok(DONE)
}

fn judge(arguments: &[String], answers: impl Read, sink: &mut impl Write) -> io::Result<u8> {
    let [requests] = arguments else {
        return Ok(WRONG_USAGE);
    };
    let requests = File::open(requests)?;
    let kept = peer::returns::judge(&mut in_pieces(requests), &mut in_pieces(answers), sink)?;
    Ok(if kept { DONE } else { BROKEN })
}

/// The best of many runs over the records, in nanoseconds for one of them.
fn best(records: &[Vec<u8>], mut run: impl FnMut(&[u8])) -> f64 {
    let mut best = f64::INFINITY;
    for _ in 0..400 {
        let start = Instant::now();
        for record in records {
            run(black_box(record));
        }
        best = best.min(start.elapsed().as_nanos() as f64 / records.len() as f64);
    }
    best
}

fn bench() {
    const COUNT: usize = 2000;
    let limits = Limits::new();
    let mut chance = Chance::new(1);
    let mut rows = Vec::new();
    for edition in Edition::ALL {
        for eighths in [1, 7] {
            let records: Vec<Vec<u8>> =
                (0..COUNT).map(|_| trial::typical(&mut chance, &limits, edition, eighths)).collect();
            rows.push((edition, eighths, records));
        }
    }
    for (edition, eighths, records) in &rows {
        let check = best(records, |record| {
            black_box(peer::check(record));
        });
        let read = best(records, |record| {
            black_box(&peer::read(record));
        });
        print!("edition {} filled {eighths}/8: check {check:.1} ns, read all {read:.1} ns", edition.number());
        for to in [1, 3, 4] {
            let mut buffer = [0u8; 160];
            let recast = best(records, |record| {
                black_box(peer::recast(record, black_box(to), &mut buffer));
                black_box(&mut buffer);
            });
            print!(", recast to {to} {recast:.1} ns");
        }
        let plain = best(records, |record| {
            black_box(peer::plain::check(record));
        });
        println!(", plain check {plain:.1} ns");
    }
    let all: Vec<Vec<u8>> = {
        let mut all: Vec<Vec<u8>> = rows.into_iter().flat_map(|row| row.2).collect();
        for index in (1..all.len()).rev() {
            all.swap(index, chance.below(index + 1));
        }
        all
    };
    let check = best(&all, |record| {
        black_box(peer::check(record));
    });
    let read = best(&all, |record| {
        black_box(&peer::read(record));
    });
    let mut buffer = [0u8; 160];
    let recast = best(&all, |record| {
        black_box(peer::recast(record, black_box(4), &mut buffer));
        black_box(&mut buffer);
    });
    println!("all editions in chance order: check {check:.1} ns, read all {read:.1} ns, recast to 4 {recast:.1} ns");
    let damaged: Vec<Vec<u8>> = (0..COUNT)
        .map(|_| trial::record(&mut chance, &limits, Family::Damaged))
        .filter(|record| peer::check(record).number != 0)
        .collect();
    let refused = best(&damaged, |record| {
        black_box(peer::check(record));
    });
    println!("refused for one column: check {refused:.1} ns");
    let mut input = b"4\n".to_vec();
    for record in &all {
        input.extend_from_slice(record);
        input.push(b'\n');
    }
    let mut report = f64::INFINITY;
    for _ in 0..100 {
        let start = Instant::now();
        peer::report::recast_report(&mut black_box(&input[..]), &mut io::sink()).expect("memory does not fail");
        report = report.min(start.elapsed().as_nanos() as f64 / all.len() as f64);
    }
    println!("report to 4 over all of them: {report:.1} ns a record");
}

fn main() -> ExitCode {
    let arguments: Vec<String> = std::env::args().skip(1).collect();
    let mut input = io::stdin().lock();
    let mut output = io::stdout().lock();
    let outcome = match arguments.first().map(String::as_str) {
        Some("check-report") => peer::report::check_report(&mut input, &mut output).map(|()| DONE),
        Some("readings") => peer::report::readings_report(&mut input, &mut output).map(|()| DONE),
        Some("report") => peer::report::recast_report(&mut input, &mut output).map(|()| DONE),
        Some("calls") => peer::calls::serve(&mut in_pieces(input), &mut output).map(|()| DONE),
        Some("judge") => judge(&arguments[1..], input, &mut output),
        Some("generate") => generate(&arguments[1..], &mut output),
        Some("bench") => {
            drop(output);
            bench();
            Ok(DONE)
        }
        _ => Ok(WRONG_USAGE),
    };
    match outcome {
        Ok(status) => {
            if status == WRONG_USAGE {
                eprintln!("peer check-report | readings | report | calls | judge REQUESTS | generate SEED COUNT KIND [FORM] | bench");
            }
            ExitCode::from(status)
        }
        Err(error) => {
            eprintln!("peer: {error}");
            ExitCode::FAILURE
        }
    }
}
