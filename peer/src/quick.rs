//! Whether a record is accepted, in one pass without branches over its columns. The pass does not say what is wrong:
//! where it fails, the plain rules find the refusal.

use crate::layout::{Edition, LONGEST};

/// Sixteen columns are judged together: so many bytes a vector register holds at the least.
const LANES: usize = 16;

/// What each column may hold besides a blank: a byte of one of two ranges, each given by its lowest byte and the
/// distance to its highest. Two ranges are enough for all columns but 12 and 83, which are judged on their own.
/// `joined` is 255 where this column and the next are both blank or both filled, `falling` where a blank may not be
/// followed by a filled column.
struct Columns {
    low: [u8; LONGEST],
    distance: [u8; LONGEST],
    other_low: [u8; LONGEST],
    other_distance: [u8; LONGEST],
    joined: [u8; LONGEST],
    falling: [u8; LONGEST],
}

/// First and last column of a run, then the two ranges as their lowest and highest bytes.
type Run = (usize, usize, &'static [u8; 2], &'static [u8; 2]);

/// The columns that are not plain digits, where the editions agree.
const COMMON: &[Run] = &[
    (1, 1, b"35", b"35"),
    (12, 12, b"17", b"17"),
    (20, 20, b"03", b"03"),
    // The stroke stands just below the digits, so one range takes both.
    (21, 21, b"/9", b"/9"),
    (24, 24, b"/9", b"/9"),
    (27, 27, b"01", b"34"),
    (30, 30, b"01", b"01"),
    (34, 34, b"02", b"57"),
    (38, 38, b"00", b"89"),
    (46, 49, b"/9", b"/9"),
    (50, 50, b"01", b"01"),
    (54, 54, b"07", b"07"),
    (66, 66, b"15", b"15"),
    (69, 69, b"04", b"04"),
    (70, 70, b"06", b"06"),
    (72, 78, b"09", b"AZ"),
    (79, 80, b"AZ", b"AZ"),
    (81, 81, b"!~", b"!~"),
    (82, 82, b"06", b"99"),
    (83, 83, b"17", b"17"),
    (84, 84, b"04", b"04"),
    (89, 89, b"02", b"57"),
    (93, 93, b"08", b"08"),
    (97, 98, b"/9", b"/9"),
    (105, 109, b"/9", b"/9"),
    (110, 110, b"08", b"08"),
    (112, 131, b"05", b"99"),
    (132, 132, b"15", b"15"),
    (143, 143, b"01", b"01"),
    (152, 159, b"05", b"99"),
];

const ONLY_ONE: &[Run] = &[(12, 12, b"03", b"58"), (79, 80, b"09", b"09")];

const ONLY_FOUR: &[Run] = &[
    (71, 71, b"06", b"99"),
    (110, 110, b"09", b"AA"),
    (112, 131, b"07", b"99"),
    (132, 132, b"16", b"16"),
    (152, 159, b"07", b"99"),
];

/// First and last column of the runs that are blank or filled together. The place and each sign with its temperature
/// are runs here: a record that breaks them breaks a tie, if not an element.
const TOGETHER: &[(usize, usize)] = &[
    (2, 5),
    (6, 7),
    (8, 9),
    (10, 11),
    (12, 19),
    (22, 23),
    (25, 26),
    (28, 29),
    (30, 33),
    (34, 37),
    (38, 41),
    (42, 43),
    (50, 53),
    (56, 57),
    (58, 59),
    (60, 61),
    (62, 63),
    (64, 65),
    (67, 68),
    (72, 74),
    (79, 80),
    (85, 87),
    (89, 92),
    (94, 96),
    (99, 100),
    (101, 102),
    (103, 104),
    (133, 135),
    (136, 138),
    (139, 140),
    (141, 142),
    (143, 145),
    (146, 148),
    (149, 151),
];

const fn lay(columns: &mut Columns, runs: &[Run]) {
    let mut index = 0;
    while index < runs.len() {
        let (first, last, range, other) = runs[index];
        let mut column = first;
        while column <= last {
            columns.low[column - 1] = range[0];
            columns.distance[column - 1] = range[1] - range[0];
            columns.other_low[column - 1] = other[0];
            columns.other_distance[column - 1] = other[1] - other[0];
            column += 1;
        }
        index += 1;
    }
}

const fn columns(own: &[Run]) -> Columns {
    let mut columns = Columns {
        low: [0; LONGEST],
        distance: [0; LONGEST],
        other_low: [0; LONGEST],
        other_distance: [0; LONGEST],
        joined: [0; LONGEST],
        falling: [0; LONGEST],
    };
    lay(&mut columns, &[(1, LONGEST, b"09", b"09")]);
    lay(&mut columns, COMMON);
    lay(&mut columns, own);
    let mut index = 0;
    while index < TOGETHER.len() {
        let mut column = TOGETHER[index].0;
        while column < TOGETHER[index].1 {
            columns.joined[column - 1] = 255;
            column += 1;
        }
        index += 1;
    }
    // A call sign has three characters at least, then may end in any column.
    let mut column = 74;
    while column < 78 {
        columns.falling[column - 1] = 255;
        column += 1;
    }
    columns
}

static ONE: Columns = columns(ONLY_ONE);
static THREE: Columns = columns(&[]);
static FOUR: Columns = columns(ONLY_FOUR);

/// 255 for true: the form in which a comparison of bytes leaves a vector register.
#[inline(always)]
const fn mask(condition: bool) -> u8 {
    0u8.wrapping_sub(condition as u8)
}

#[inline(always)]
fn lanes(bytes: &[u8], start: usize) -> &[u8; LANES] {
    bytes[start..start + LANES].try_into().unwrap()
}

#[inline(always)]
fn judge<const LENGTH: usize>(record: &[u8; LENGTH], columns: &Columns, start: usize, broken: &mut [u8; LANES]) {
    let here = lanes(record, start);
    let next = lanes(record, start + 1);
    let low = lanes(&columns.low, start);
    let distance = lanes(&columns.distance, start);
    let other_low = lanes(&columns.other_low, start);
    let other_distance = lanes(&columns.other_distance, start);
    let joined = lanes(&columns.joined, start);
    let falling = lanes(&columns.falling, start);
    for lane in 0..LANES {
        let blank = mask(here[lane] == b' ');
        let next_blank = mask(next[lane] == b' ');
        let allowed = blank
            | mask(here[lane].wrapping_sub(low[lane]) <= distance[lane])
            | mask(here[lane].wrapping_sub(other_low[lane]) <= other_distance[lane]);
        let bound = joined[lane] | (falling[lane] & blank);
        broken[lane] |= !allowed | ((blank ^ next_blank) & bound);
    }
}

/// Every column but the last, each with the one that follows it; the last chunk overlaps the one before.
#[inline(always)]
fn columns_broken<const LENGTH: usize>(record: &[u8; LENGTH], columns: &Columns) -> bool {
    let mut broken = [0; LANES];
    let mut start = 0;
    while start + LANES < LENGTH {
        judge(record, columns, start, &mut broken);
        start += LANES;
    }
    judge(record, columns, LENGTH - LANES - 1, &mut broken);
    u128::from_ne_bytes(broken) != 0
}

/// The bytes of some columns, the first highest. Digits of one length stand in the order of the numbers that they
/// spell, and blanks below all of them, so that limits are set on the bytes themselves.
#[inline(always)]
fn two<const LENGTH: usize>(record: &[u8; LENGTH], column: usize) -> u16 {
    u16::from_be_bytes([record[column - 1], record[column]])
}

#[inline(always)]
fn four<const LENGTH: usize>(record: &[u8; LENGTH], column: usize) -> u32 {
    u32::from_be_bytes([record[column - 1], record[column], record[column + 1], record[column + 2]])
}

/// Three columns are loaded as the last of four, which spares a load: no element of three stands at column 1.
#[inline(always)]
fn three<const LENGTH: usize>(record: &[u8; LENGTH], column: usize) -> u32 {
    four(record, column - 1) & 0x00ff_ffff
}

const fn spelled(digits: &[u8]) -> u32 {
    let mut value = 0;
    let mut index = 0;
    while index < digits.len() {
        value = value << 8 | digits[index] as u32;
        index += 1;
    }
    value
}

#[inline(always)]
fn direction_broken<const LENGTH: usize>(record: &[u8; LENGTH], column: usize) -> bool {
    let direction = two(record, column);
    (direction > spelled(b"36") as u16) & (direction != spelled(b"99") as u16)
}

/// A set of digits as bits; a blank counts as bit 0, so a set without the digit 0 that may be blank has it too where
/// the range of the column keeps the digit 0 out.
#[inline(always)]
fn outside(set: u32, byte: u8) -> bool {
    (set >> (byte & 15)) & 1 == 0
}

/// The last day of each month, 29 for February, by the lowest bit of the month's first digit and the lowest four of its
/// second. A blank month is looked up where 00 would be, and may have 31 days.
static LAST_DAYS: [u16; 32] = {
    let mut days = [spelled(b"31") as u16; 32];
    days[0x02] = spelled(b"29") as u16;
    days[0x04] = spelled(b"30") as u16;
    days[0x06] = spelled(b"30") as u16;
    days[0x09] = spelled(b"30") as u16;
    days[0x11] = spelled(b"30") as u16;
    days
};

/// The last day that the month may have in its year, as bytes.
#[inline(always)]
fn last_day<const LENGTH: usize>(record: &[u8; LENGTH]) -> u16 {
    let month = two(record, 6);
    let last = LAST_DAYS[usize::from((month >> 4 & 16) | (month & 15))];
    // A year is a leap year where its last two digits are a multiple of four, or the first two where the last are 00. Both
    // are loaded, which spares a branch.
    let (century, ending) = (two(record, 2), two(record, 4));
    let pair = if ending == spelled(b"00") as u16 { century } else { ending };
    // Ten times the first digit and twice it are the same to four. The bytes of 0 and of a blank are multiples of four
    // themselves, so the bytes do for the digits, and a blank year passes as a leap year.
    let common = (pair >> 7).wrapping_add(pair) & 3 != 0;
    last - u16::from(common & (month == spelled(b"02") as u16))
}

/// The limits of numbers and the ties, for columns that hold what they may.
#[inline(always)]
fn numbers_broken<const LENGTH: usize>(record: &[u8; LENGTH], edition: Edition) -> bool {
    let mut broken = false;

    let month = two(record, 6);
    broken |= (month > spelled(b"12") as u16) | (month == spelled(b"00") as u16);
    let day = two(record, 8);
    broken |= (day > last_day(record)) | (day == spelled(b"00") as u16);
    broken |= two(record, 10) > spelled(b"23") as u16;

    let longitude = four(record, 16);
    broken |= three(record, 13) > spelled(b"900");
    broken |= longitude > spelled(b"1800");
    if matches!(edition, Edition::One) {
        // A blank place passes as octant 0, for its blanks stand below every longitude.
        let far = outside(1 << 0 | 1 << 3 | 1 << 5 | 1 << 8, record[11]);
        let limit = spelled(b"0900");
        broken |= (far & (longitude < limit)) | (!far & (longitude > limit));
    } else {
        broken |= outside(1 << 0 | 1 << 1 | 1 << 3 | 1 << 5 | 1 << 7, record[11]);
    }

    broken |= two(record, 22).wrapping_sub(spelled(b"51") as u16) <= 4;
    broken |= direction_broken(record, 25) | direction_broken(record, 60) | direction_broken(record, 99);
    broken |= outside(1 << 0 | 1 << 1 | 1 << 4 | 1 << 7, record[82]);
    broken |= three(record, 85) == spelled(b"000");

    // A minus that is not iced, before 000.
    let air = four(record, 30);
    let dew_point = four(record, 34);
    let sea = four(record, 50);
    let wet_bulb = four(record, 89);
    broken |= (air == spelled(b"1000")) | (sea == spelled(b"1000"));
    broken |= (dew_point == spelled(b"1000")) | (dew_point == spelled(b"6000"));
    broken |= (wet_bulb == spelled(b"1000")) | (wet_bulb == spelled(b"6000"));

    // The last digits that column 1 allows; column 1 is the one column that the pass lets be blank and that may not.
    let last: u32 = match record[0] {
        b'3' => 0xffff,
        b'4' => 1 << 0 | 1 << 5,
        b'5' => 1 << 0,
        _ => 0,
    };
    broken |= outside(last, air as u8) | outside(last, sea as u8);
    // With the signs 5, 6 and 7, the highest that may stand there, dew point and wet bulb were computed and are free.
    broken |= (record[33] < b'5') & outside(last, dew_point as u8);
    broken |= (record[88] < b'5') & outside(last, wet_bulb as u8);

    let unit_blank = record[26] == b' ';
    broken |= unit_blank & (record[27] != b' ');

    if !matches!(edition, Edition::One) {
        let limit = spelled(b"360");
        broken |= (three(record, 133) > limit) | (three(record, 136) > limit) | (three(record, 146) > limit);
        broken |= three(record, 143) == spelled(b"100");
        broken |= unit_blank & (record[148] != b' ');
    }

    let flag = record[LENGTH - 1];
    let highest = if matches!(edition, Edition::Four) { b'7' } else { b'5' };
    broken |= !((flag == b' ') | (flag == b'9') | (flag.wrapping_sub(b'0') <= highest - b'0'));
    broken
}

/// The edition of an accepted record; nothing where check refuses it.
#[inline]
pub fn accepted(record: &[u8]) -> Option<Edition> {
    if let Ok(record) = <&[u8; 159]>::try_from(record) {
        match record[110] {
            b'3' => {
                let broken = columns_broken(record, &THREE) | numbers_broken(record, Edition::Three);
                (!broken).then_some(Edition::Three)
            }
            b'4' => {
                let broken = columns_broken(record, &FOUR) | numbers_broken(record, Edition::Four);
                (!broken).then_some(Edition::Four)
            }
            _ => None,
        }
    } else if let Ok(record) = <&[u8; 131]>::try_from(record) {
        let broken = (record[110] != b'1') | columns_broken(record, &ONE) | numbers_broken(record, Edition::One);
        (!broken).then_some(Edition::One)
    } else {
        None
    }
}
