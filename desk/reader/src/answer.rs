//! Numbers given back, and their places.

/// "file over 16,777,216 bytes" is refused by 1; a form over it by 21.
pub const LIMIT: usize = 16_777_216;

/// The documents' numbers by the names the code uses.
pub mod number {
    pub const SOUND: u8 = 0;
    pub const FILE_TOO_LONG: u8 = 1;
    pub const HEADER: u8 = 2;
    pub const TRAILER: u8 = 3;
    pub const BYTE: u8 = 4;
    pub const COMMAND: u8 = 5;
    pub const ORDER: u8 = 6;
    pub const UNKNOWN_TABLE: u8 = 7;
    pub const ATR: u8 = 8;
    pub const FRM: u8 = 9;
    pub const FIELD_COUNT: u8 = 10;
    pub const NOT_A_TEXT: u8 = 11;
    pub const NOT_A_NUMBER: u8 = 12;
    pub const RANGE: u8 = 13;
    pub const SAME_POINTS: u8 = 14;
    pub const MARK: u8 = 15;
    pub const END_COUNT: u8 = 16;
    pub const TABLE_TWICE: u8 = 17;
    pub const PRIMARY_KEY: u8 = 18;
    pub const SECOND_KEY: u8 = 19;
    pub const REFERENCE: u8 = 20;
    pub const NO_ROOM: u8 = 21;
    pub const NOT_EMPTY: u8 = 22;
    pub const MAY_NOT_FILL: u8 = 23;
    pub const NO_SUCH: u8 = 24;
    pub const COMBINATION: u8 = 25;
    pub const NO_SUCH_DAY: u8 = 26;
}

/// What a file, or a request on it, gives back.
#[derive(Clone, Copy, Debug, PartialEq, Eq)]
pub struct Answer {
    pub number: u8,
    pub section: usize,
    pub line: usize,
}

impl Answer {
    pub const SOUND: Answer = Answer::placeless(number::SOUND);

    pub const fn new(number: u8, section: usize, line: usize) -> Answer {
        Answer {
            number,
            section,
            line,
        }
    }

    /// "1, 21 to 24 and a fill's 11, 4 and 13 have 0 and 0."
    pub const fn placeless(number: u8) -> Answer {
        Answer::new(number, 0, 0)
    }

    pub const fn is_sound(self) -> bool {
        self.number == number::SOUND
    }
}

/// What one section, the header or the trailer gives by itself.
#[derive(Clone, Copy, Debug, PartialEq, Eq)]
pub struct Verdict {
    pub number: u8,
    pub line: usize,
}

impl Verdict {
    pub const SOUND: Verdict = Verdict::new(number::SOUND, 0);

    pub const fn new(number: u8, line: usize) -> Verdict {
        Verdict { number, line }
    }

    pub const fn is_sound(self) -> bool {
        self.number == number::SOUND
    }

    pub const fn in_section(self, section: usize) -> Answer {
        Answer::new(self.number, section, self.line)
    }
}
