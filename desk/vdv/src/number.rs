//! The numbers of documents 01 and 02 by the names the code uses, and in words.
//! `include/vdv.h` has the same.

macro_rules! numbers {
    ($($number:literal $name:ident $words:literal,)*) => {
        $(
            #[doc = $words]
            pub const $name: u32 = $number;
        )*

        /// The rule a number stands for, in few words.
        pub fn in_words(number: u32) -> &'static str {
            match number {
                $($name => $words,)*
                _ => "a number that is not given back",
            }
        }

        #[cfg(test)]
        const NAMES: &[(u32, &str)] = &[$(($number, stringify!($name)),)*];
    };
}

numbers! {
    0 SOUND "sound",
    1 FILE_TOO_LONG "file over 16,777,216 bytes",
    2 HEADER "header breaks a rule",
    3 TRAILER "trailer breaks a rule",
    4 BYTE "byte not allowed in this line",
    5 COMMAND "no `;`, or unknown command",
    6 ORDER "command out of its order, or section without `end`",
    7 UNKNOWN_TABLE "unknown table",
    8 ATR "`atr` does not name each of the table's columns once",
    9 FRM "`frm` differs from the columns' kinds",
    10 FIELD_COUNT "wrong number of fields",
    11 NOT_A_TEXT "not a text",
    12 NOT_A_NUMBER "not a number",
    13 RANGE "number out of range, or text over its size",
    14 SAME_POINTS "the two points are the same",
    15 MARK "mark misplaced, unreadable, not allowed, not rising, on an empty text, or with no record",
    16 END_COUNT "`end` count wrong",
    17 TABLE_TWICE "table a second time",
    18 PRIMARY_KEY "primary key met before",
    19 SECOND_KEY "second key met before",
    20 REFERENCE "a reference finds no record",
    21 NO_ROOM "no room",
    22 NOT_EMPTY "field to fill is not empty",
    23 MAY_NOT_FILL "field may not be filled",
    24 NO_SUCH "no such section, record or field",
    25 COMBINATION "wrong combination",
    26 NO_SUCH_DAY "no such day",
}

/// The highest number given back.
pub const LAST: u32 = NO_SUCH_DAY;

#[cfg(test)]
mod tests {
    use super::*;

    #[test]
    fn every_number_has_words_of_its_own() {
        let mut words: Vec<_> = (0..=LAST + 1).map(in_words).collect();
        words.sort_unstable();
        words.dedup();
        assert_eq!(words.len(), LAST as usize + 2);
    }

    #[test]
    fn the_c_header_says_the_same() {
        let header = include_str!("../include/vdv.h");
        assert!(NAMES.iter().map(|(number, _)| *number).eq(0..=LAST));
        for (number, name) in NAMES {
            let words = in_words(*number);
            let line = format!("    VDV_{name} = {number}, /* {words} */\n");
            assert!(header.contains(&line), "{line}");
        }
    }
}
