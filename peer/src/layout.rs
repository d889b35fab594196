//! The editions and the columns of their elements.

/// The three editions that are read and written; all others are refused.
#[derive(Clone, Copy, PartialEq, Eq, Debug)]
pub enum Edition {
    One,
    Three,
    Four,
}

impl Edition {
    pub const ALL: [Edition; 3] = [Edition::One, Edition::Three, Edition::Four];

    /// The edition asked for is a whole number: 260 is not 4, nor is the character `4`.
    #[inline]
    pub const fn from_number(number: u64) -> Option<Edition> {
        match number {
            1 => Some(Edition::One),
            3 => Some(Edition::Three),
            4 => Some(Edition::Four),
            _ => None,
        }
    }

    /// The edition that column 111 names.
    #[inline]
    pub const fn from_digit(digit: u8) -> Option<Edition> {
        match digit {
            b'1' => Some(Edition::One),
            b'3' => Some(Edition::Three),
            b'4' => Some(Edition::Four),
            _ => None,
        }
    }

    #[inline]
    pub const fn number(self) -> u64 {
        match self {
            Edition::One => 1,
            Edition::Three => 3,
            Edition::Four => 4,
        }
    }

    #[inline]
    pub const fn digit(self) -> u8 {
        b'0' + self.number() as u8
    }

    #[inline]
    pub const fn length(self) -> usize {
        match self {
            Edition::One => 131,
            Edition::Three | Edition::Four => 159,
        }
    }

    #[inline]
    pub const fn last_element(self) -> usize {
        match self {
            Edition::One => 85,
            Edition::Three | Edition::Four => 101,
        }
    }
}

pub const ELEMENTS: usize = 101;
pub const LONGEST: usize = 159;

/// Columns of each element in order; the elements follow one another without gaps, so the widths are the whole layout.
const WIDTHS: [usize; ELEMENTS] = [
    1, 4, 2, 2, 2, 1, 3, 4, 1, 1, // 1 to 10
    2, 1, 2, 1, 2, 1, 3, 1, 3, 4, // 11 to 20
    2, 1, 1, 1, 1, 1, 1, 1, 3, 1, // 21 to 30
    1, 2, 2, 2, 2, 2, 1, 2, 1, 1, // 31 to 40
    1, 7, 2, 1, 1, 1, 1, 3, 1, 1, // 41 to 50
    3, 1, 3, 1, 1, 2, 2, 2, 1, 1, // 51 to 60
    1, 1, 1, 1, 1, 1, 1, 1, 1, 1, // 61 to 70
    1, 1, 1, 1, 1, 1, 1, 1, 1, 1, // 71 to 80
    1, 1, 1, 1, 1, 1, 3, 3, 2, 2, // 81 to 90
    3, 3, 3, 1, 1, 1, 1, 1, 1, 1, // 91 to 100
    1, // 101
];

const STARTS: [usize; ELEMENTS + 1] = {
    let mut starts = [0; ELEMENTS + 1];
    let mut index = 0;
    while index < ELEMENTS {
        starts[index + 1] = starts[index] + WIDTHS[index];
        index += 1;
    }
    starts
};

// A slip in the widths would move every later element: the places that the documents name are held here.
const _: () = {
    assert!(STARTS[42 - 1] + 1 == 72);
    assert!(STARTS[65 - 1] + 1 == 111);
    assert!(STARTS[86 - 1] + 1 == 132);
    assert!(STARTS[91 - 1] + 1 == 143);
    assert!(STARTS[94 - 1] + 1 == 152);
    assert!(STARTS[ELEMENTS] == LONGEST);
};

/// The bytes of an element in a record, as positions counted from 0.
#[inline]
pub const fn span(element: usize) -> std::ops::Range<usize> {
    STARTS[element - 1]..STARTS[element]
}

#[inline]
pub const fn width(element: usize) -> usize {
    WIDTHS[element - 1]
}

/// The bytes of an element of a record that is long enough to hold it.
#[inline]
pub fn text(record: &[u8], element: usize) -> &[u8] {
    &record[span(element)]
}

pub fn blank(text: &[u8]) -> bool {
    text.iter().all(|&byte| byte == b' ')
}
