//! Times ours and the peer's on the same records, in turn, and prints nanoseconds a record and their ratio.
//!
//!     bench calls                                     check, read and recast, as calls
//!     bench input RECORDS DAMAGED                     an input of the programs; one in DAMAGED records has a wrong column (0: none)
//!     bench memory PROGRAM RECORDS DAMAGED            what a program says of such an input, in memory, as a call
//!     bench program PROGRAM RECORDS DAMAGED INPUT ROUNDS PEER OURS ..     the peer and the command OURS over that input, processor time
//!     bench run PROGRAM < input                       ours, as the archive has it: a command for the line above
//!
//! PROGRAM is check_report, readings or recast_report.

use std::fs::File;
use std::hash::{DefaultHasher, Hasher};
use std::hint::black_box;
use std::io::{self, BufWriter, Read, Seek, SeekFrom, Write};
use std::process::{Command, ExitCode, Stdio};
use std::rc::Rc;
use std::time::Instant;

use peer::layout::Edition;
use peer::plain::last_day;
use peer::trial::{self, Chance, Limits};
use peer::{Kind, Place, Reading, Readings, ELEMENTS};

extern "C" {
    fn immt_check(record: *const u8, length: usize, place: *mut u64) -> u64;
    fn immt_recast(
        record: *const u8,
        length: usize,
        edition: u64,
        buffer: *mut u8,
        room: usize,
        place: *mut u64,
        lost_low: *mut u64,
        lost_high: *mut u64,
    ) -> u64;
    fn trial_read(
        record: *const u8,
        length: usize,
        numbers: *mut u64,
        number_count: usize,
        amounts: *mut i64,
        amount_count: usize,
        edition: *mut u64,
        place: *mut u64,
    ) -> u64;
    fn trial_report(
        job: u64,
        input: *const u8,
        length: usize,
        out: *mut u8,
        room: usize,
        last: *mut u8,
        last_room: usize,
        closing: *mut u64,
    ) -> u64;
    fn trial_program(job: u64) -> u64;
}

/// What a call answers: number, place, and the two words of the losses, or the edition in the first of them.
type Numbers = (u64, u64, u64, u64);

/// What is lent to a call: the buffer of a recast, and four numbers and an amount for each element to a read.
#[derive(PartialEq)]
struct Lent {
    buffer: [u8; 160],
    numbers: [[u64; 4]; ELEMENTS],
    amounts: [i64; ELEMENTS],
}

impl Lent {
    /// Filled with what no record and no reading holds, so that what is not written shows.
    fn new() -> Lent {
        Lent { buffer: [255; 160], numbers: [[u64::MAX; 4]; ELEMENTS], amounts: [i64::MIN; ELEMENTS] }
    }
}

fn our_check(record: &[u8]) -> Numbers {
    let mut place = 0;
    // The slice is readable for its length, and the place is a number of our own.
    let number = unsafe { immt_check(record.as_ptr(), record.len(), &mut place) };
    (number, place, 0, 0)
}

fn our_read(record: &[u8], lent: &mut Lent) -> Numbers {
    let (mut edition, mut place) = (0, 0);
    let numbers = lent.numbers.as_flattened_mut();
    // The slices do not overlap, and the edition and the place are numbers of our own.
    let number = unsafe {
        trial_read(
            record.as_ptr(),
            record.len(),
            numbers.as_mut_ptr(),
            numbers.len(),
            lent.amounts.as_mut_ptr(),
            lent.amounts.len(),
            &mut edition,
            &mut place,
        )
    };
    (number, place, edition, 0)
}

fn our_recast(record: &[u8], edition: u64, buffer: &mut [u8]) -> Numbers {
    let (mut place, mut low, mut high) = (0, 0, 0);
    // The slices do not overlap: one is shared and the other is not.
    let number = unsafe {
        immt_recast(
            record.as_ptr(),
            record.len(),
            edition,
            buffer.as_mut_ptr(),
            buffer.len(),
            &mut place,
            &mut low,
            &mut high,
        )
    };
    (number, place, low, high)
}

fn their_check(record: &[u8]) -> Numbers {
    let answer = peer::check(record);
    (answer.number, answer.place, 0, 0)
}

/// A reading as ours leaves it: the case, the code or text, the kind or longitude, the digit; and the amount or latitude.
fn packed(reading: Reading) -> ([u64; 4], i64) {
    match reading {
        Reading::Missing => ([0; 4], 0),
        Reading::Code(value) => ([1, value, 0, 0], 0),
        Reading::Text(value) => ([2, value, 0, 0], 0),
        Reading::Amount(value, kind) => {
            let kind = match kind {
                Kind::Measured => 0,
                Kind::Computed => 1,
                Kind::IcedMeasured => 2,
                Kind::IcedComputed => 3,
            };
            ([3, 0, kind, 0], value)
        }
        Reading::Place(Place { latitude, longitude, digit }) => ([4, 0, longitude, digit], latitude),
    }
}

/// Writes every number and amount that is lent, as ours does.
fn their_read(record: &[u8], lent: &mut Lent) -> Numbers {
    match &peer::read(record) {
        Ok(Readings { edition, all }) => {
            for ((&reading, numbers), amount) in all.iter().zip(&mut lent.numbers).zip(&mut lent.amounts) {
                (*numbers, *amount) = packed(reading);
            }
            (0, 0, edition.number(), 0)
        }
        Err(refusal) => {
            lent.numbers.fill([0; 4]);
            lent.amounts.fill(0);
            (refusal.number, refusal.place, 0, 0)
        }
    }
}

fn their_recast(record: &[u8], edition: u64, buffer: &mut [u8]) -> Numbers {
    let answer = peer::recast(record, edition, buffer);
    (answer.number, answer.place, answer.lost[0], answer.lost[1])
}

/// Dates the record, every day of a century as often as another: trial records favour the ends of months, and a ship does not.
fn date(chance: &mut Chance, record: &mut [u8]) {
    loop {
        let [year, month, day] =
            [(1925, 100), (1, 12), (1, 31)].map(|(first, count)| first + chance.below(count) as u64);
        if day <= last_day(Some(year), Some(month)) {
            record[1..9].copy_from_slice(format!("{year}{month:02}{day:02}").as_bytes());
            return;
        }
    }
}

/// Records of an edition as a ship fills them; one in `damaged` has a wrong column.
fn records(chance: &mut Chance, limits: &Limits, edition: Edition, count: usize, damaged: usize) -> Vec<Vec<u8>> {
    (0..count)
        .map(|_| {
            let mut record = trial::typical(chance, limits, edition, 6);
            date(chance, &mut record);
            if damaged != 0 && chance.one_in(damaged) {
                let column = chance.below(record.len());
                record[column] = b'?';
            }
            record
        })
        .collect()
}

/// The best of many rounds over the records, in nanoseconds for one of them.
fn round(records: &[Vec<u8>], run: &mut dyn FnMut(&[u8]) -> Numbers) -> f64 {
    let start = Instant::now();
    for record in records {
        black_box(run(black_box(record)));
    }
    start.elapsed().as_nanos() as f64 / records.len() as f64
}

/// The calls that are timed; a recast goes to the edition of this number.
#[derive(Clone, Copy)]
enum Call {
    Check,
    Read,
    Recast(u64),
}

/// A call on some records, and the best of its rounds so far, ours and the peer's.
struct Case {
    name: String,
    records: Rc<Vec<Vec<u8>>>,
    call: Call,
    ours: f64,
    theirs: f64,
}

impl Case {
    fn new(name: String, records: &Rc<Vec<Vec<u8>>>, call: Call) -> Case {
        Case { name, records: Rc::clone(records), call, ours: f64::INFINITY, theirs: f64::INFINITY }
    }

    fn ours(&self, record: &[u8], lent: &mut Lent) -> Numbers {
        match self.call {
            Call::Check => our_check(record),
            Call::Read => our_read(record, lent),
            Call::Recast(to) => our_recast(record, to, &mut lent.buffer),
        }
    }

    fn theirs(&self, record: &[u8], lent: &mut Lent) -> Numbers {
        match self.call {
            Call::Check => their_check(record),
            Call::Read => their_read(record, lent),
            Call::Recast(to) => their_recast(record, to, &mut lent.buffer),
        }
    }

    /// Both answer the same, and leave the same in what is lent.
    fn agree(&self) {
        for record in self.records.iter() {
            let (mut a, mut b) = (Lent::new(), Lent::new());
            assert_eq!(self.ours(record, &mut a), self.theirs(record, &mut b), "the two differ");
            assert!(a == b, "the two leave another buffer or other readings");
        }
    }

    /// Rounds over the records, in turn, so that what else the machine does falls on both.
    fn time(&mut self, rounds: usize) {
        let mut lent = Lent::new();
        for _ in 0..rounds {
            let ours = round(&self.records, &mut |record| self.ours(record, &mut lent));
            let theirs = round(&self.records, &mut |record| self.theirs(record, &mut lent));
            self.ours = self.ours.min(ours);
            self.theirs = self.theirs.min(theirs);
        }
    }
}

/// The calls go round ten times, thirty rounds each, so that a slow while of the machine does not fall on one call alone.
fn calls() {
    const COUNT: usize = 1000;
    let limits = Limits::new();
    let mut cases = Vec::new();
    for (word, damaged) in [("accepted", 0), ("one in ten damaged", 10)] {
        let mut chance = Chance::new(1);
        for edition in Edition::ALL {
            let records = Rc::new(records(&mut chance, &limits, edition, COUNT, damaged));
            let from = edition.number();
            cases.push(Case::new(format!("check, edition {from}, {word}"), &records, Call::Check));
            cases.push(Case::new(format!("read all, edition {from}, {word}"), &records, Call::Read));
            cases.extend(
                [1, 3, 4].map(|to| Case::new(format!("recast {from} to {to}, {word}"), &records, Call::Recast(to))),
            );
        }
    }
    cases.iter().for_each(Case::agree);
    for _ in 0..10 {
        cases.iter_mut().for_each(|case| case.time(30));
    }
    for Case { name, ours, theirs, .. } in &cases {
        println!("{name}: ours {ours:.1} ns, peer {theirs:.1} ns, ratio {:.2}", ours / theirs);
    }
}

/// The programs, in the order in which ours numbers them.
#[derive(Clone, Copy)]
enum Program {
    CheckReport,
    Readings,
    RecastReport,
}

impl Program {
    fn of_name(name: &str) -> Option<Program> {
        [Program::CheckReport, Program::Readings, Program::RecastReport]
            .into_iter()
            .find(|program| program.name() == name)
    }

    fn name(self) -> &'static str {
        match self {
            Program::CheckReport => "check_report",
            Program::Readings => "readings",
            Program::RecastReport => "recast_report",
        }
    }

    /// The number that ours takes.
    fn job(self) -> u64 {
        self as u64
    }

    /// The sub-command of the peer.
    fn peer_command(self) -> &'static str {
        match self {
            Program::CheckReport => "check-report",
            Program::Readings => "readings",
            Program::RecastReport => "report",
        }
    }

    fn peer(self, mut input: &[u8], output: &mut Vec<u8>) -> io::Result<()> {
        match self {
            Program::CheckReport => peer::report::check_report(&mut input, output),
            Program::Readings => peer::report::readings_report(&mut input, output),
            Program::RecastReport => peer::report::recast_report(&mut input, output),
        }
    }

    /// Where an input begins: its first line, the edition, is for the recast report alone.
    fn start(self) -> usize {
        match self {
            Program::CheckReport | Program::Readings => FIRST_LINE.len(),
            Program::RecastReport => 0,
        }
    }

    /// More than is said of a record as they are here.
    fn room(self) -> usize {
        match self {
            Program::CheckReport | Program::RecastReport => 256,
            Program::Readings => 4096,
        }
    }
}

const FIRST_LINE: &[u8] = b"4\n";

/// Writes an input of the programs, records of all editions in turn behind the edition that they are recast to.
fn put_input(sink: &mut impl Write, count: usize, damaged: usize) -> io::Result<()> {
    let limits = Limits::new();
    let mut chance = Chance::new(2);
    sink.write_all(FIRST_LINE)?;
    for index in 0..count {
        let edition = Edition::ALL[index % 3];
        for record in records(&mut chance, &limits, edition, 1, damaged) {
            sink.write_all(&record)?;
            sink.write_all(b"\n")?;
        }
    }
    Ok(())
}

fn input(count: usize, damaged: usize) -> io::Result<()> {
    let mut sink = BufWriter::with_capacity(1 << 16, io::stdout().lock());
    put_input(&mut sink, count, damaged)?;
    sink.flush()
}

/// One line about a program: how it was run, on how many records, and nanoseconds a record.
fn show(program: Program, how: &str, count: usize, damaged: usize, ours: f64, theirs: f64) {
    let word = if damaged == 0 { "accepted" } else { "one in ten damaged" };
    println!(
        "{} {how}, {count} records, {word}: ours {ours:.0} ns, peer {theirs:.0} ns a record, ratio {:.2}",
        program.name(),
        ours / theirs
    );
}

/// What a program says of an input in memory, ours as the library says it and the peer's as its program does, the best of
/// some rounds. The memory that both write to is the same in all rounds, so that neither waits for new pages.
fn memory(program: Program, count: usize, damaged: usize) -> io::Result<bool> {
    let mut input = Vec::new();
    put_input(&mut input, count, damaged)?;
    let input = &input[program.start()..];
    // Ours stops where little room is left, and needs some for the end.
    let mut room = vec![0u8; program.room() * count + (1 << 16)];
    let mut last = [0u8; 20_480];
    let mut theirs = Vec::with_capacity(room.len());
    let (mut our_best, mut their_best) = (f64::INFINITY, f64::INFINITY);
    for _ in 0..20 {
        let mut closing = 0;
        let start = Instant::now();
        // The input is readable for its length, what is written to is ours, and none overlaps another.
        let written = unsafe {
            trial_report(
                program.job(),
                input.as_ptr(),
                input.len(),
                room.as_mut_ptr(),
                room.len(),
                last.as_mut_ptr(),
                last.len(),
                &mut closing,
            )
        };
        our_best = our_best.min(start.elapsed().as_nanos() as f64 / count as f64);
        let (written, closing) = (written as usize, closing as usize);
        theirs.clear();
        let start = Instant::now();
        program.peer(input, &mut theirs)?;
        their_best = their_best.min(start.elapsed().as_nanos() as f64 / count as f64);
        if theirs.len() != written + closing
            || theirs[..written] != room[..written]
            || theirs[written..] != last[..closing]
        {
            println!("{}: the two do not say the same in memory", program.name());
            return Ok(false);
        }
    }
    show(program, "in memory", count, damaged, our_best, their_best);
    Ok(true)
}

#[repr(C)]
struct Usage {
    user: [i64; 2],
    system: [i64; 2],
    rest: [i64; 14],
}

extern "C" {
    fn getrusage(who: i32, usage: *mut Usage) -> i32;
}

/// The processor time of all children so far, in nanoseconds.
fn children() -> f64 {
    const CHILDREN: i32 = -1;
    let mut usage = Usage { user: [0; 2], system: [0; 2], rest: [0; 14] };
    // The structure is as large as the one that the C library fills.
    unsafe { getrusage(CHILDREN, &mut usage) };
    let seconds = |time: [i64; 2]| time[0] as f64 * 1e9 + time[1] as f64 * 1e3;
    seconds(usage.user) + seconds(usage.system)
}

/// What a command printed: how much, and a number that is another for another text. It may be gigabytes, and is not kept.
type Printed = (u64, u64);

fn printed(output: impl Read) -> io::Result<Printed> {
    const BLOCK: u64 = 1 << 20;
    let mut output = output;
    let mut block = Vec::with_capacity(BLOCK as usize);
    let (mut length, mut hasher) = (0, DefaultHasher::new());
    loop {
        // Always a whole block, until the last: the number is of blocks, however the output comes.
        block.clear();
        let count = output.by_ref().take(BLOCK).read_to_end(&mut block)?;
        if count == 0 {
            return Ok((length, hasher.finish()));
        }
        length += count as u64;
        hasher.write(&block);
    }
}

/// What the command prints for the input from some byte on, and its processor time.
fn timed(command: &mut Command, input: &str, start: usize) -> io::Result<(Printed, f64)> {
    let before = children();
    let mut input = File::open(input)?;
    input.seek(SeekFrom::Start(start as u64))?;
    let mut child = command.stdin(input).stdout(Stdio::piped()).spawn()?;
    let printed = child.stdout.take().map_or(Ok((0, 0)), printed)?;
    let status = child.wait()?;
    // 1 says that a record was refused.
    match status.code() {
        Some(0 | 1) => Ok((printed, children() - before)),
        _ => Err(io::Error::other(format!("{command:?} ended with {status}"))),
    }
}

/// The peer and ours over the input, in turn, the best of some rounds.
fn program(program: Program, count: usize, damaged: usize, rest: &[String]) -> io::Result<bool> {
    let [input, rounds, their_program, our_program, our_words @ ..] = rest else {
        return Ok(false);
    };
    let Ok(rounds) = rounds.parse::<usize>() else {
        return Ok(false);
    };
    let (mut our_best, mut their_best) = (f64::INFINITY, f64::INFINITY);
    for _ in 0..rounds {
        let (ours, time) = timed(Command::new(our_program).args(our_words), input, program.start())?;
        our_best = our_best.min(time / count as f64);
        let (theirs, time) = timed(Command::new(their_program).arg(program.peer_command()), input, program.start())?;
        their_best = their_best.min(time / count as f64);
        if ours != theirs {
            println!("{}: the two do not print the same", program.name());
            return Ok(false);
        }
    }
    show(program, "as a program", count, damaged, our_best, their_best);
    Ok(true)
}

fn main() -> ExitCode {
    let arguments: Vec<String> = std::env::args().skip(1).collect();
    let words: Vec<&str> = arguments.iter().map(String::as_str).collect();
    let named = |index: usize| words.get(index).and_then(|word| Program::of_name(word));
    let number = |index: usize| words.get(index).and_then(|word| word.parse().ok());
    let outcome = match words.first().copied() {
        Some("calls") => {
            calls();
            Ok(true)
        }
        Some("input") => match (number(1), number(2)) {
            (Some(count), Some(damaged)) => input(count, damaged).map(|()| true),
            _ => Ok(false),
        },
        Some("memory") => match (named(1), number(2), number(3)) {
            (Some(named), Some(count), Some(damaged)) => memory(named, count, damaged),
            _ => Ok(false),
        },
        Some("program") => match (named(1), number(2), number(3)) {
            (Some(named), Some(count), Some(damaged)) => program(named, count, damaged, &arguments[4..]),
            _ => Ok(false),
        },
        Some("run") => match named(1) {
            // It reads descriptor 0 and writes descriptor 1, which nothing else here has touched. The answer is 0, 1 or 2.
            Some(named) => return ExitCode::from(unsafe { trial_program(named.job()) } as u8),
            None => Ok(false),
        },
        _ => Ok(false),
    };
    match outcome {
        Ok(true) => ExitCode::SUCCESS,
        Ok(false) => ExitCode::FAILURE,
        Err(error) => {
            eprintln!("bench: {error}");
            ExitCode::FAILURE
        }
    }
}
