//! Comments that look like a mark and are none. Document 01 calls them
//! ordinary comments, so no verdict speaks of them, and a sentence of ours that
//! stands below a damaged mark counts as the operator's. What the line meant is
//! not guessed; that it is there is said.

use vdv::tables::{self, Table};
use vdv::{all_rows, Row};

use crate::input::Source;
use crate::json::Json;
use crate::lines::{command, each_line, rest, LineCount, Shown};
use crate::outlets::Outlets;
use crate::picture::Picture;
use crate::pointing::is_text;
use crate::trouble::Trouble;

const WORD: &[u8] = b"SUGGESTED";

/// Lines told of at most; JSON has all of them.
const TOLD: usize = 10;

/// A line of a sound section that looks like a mark and is none.
#[derive(Debug, PartialEq, Eq)]
pub struct Advice<'f> {
    pub section: usize,
    /// Counted in the section, as refusals count.
    pub line: usize,
    pub shown: Shown<'f>,
    pub at_stake: Option<AtStake>,
}

/// The text that a mark here would speak of. It is called by its column's name,
/// for a mark counts the columns in the file's own order.
#[derive(Debug, PartialEq, Eq)]
pub struct AtStake {
    /// From 1.
    pub record: usize,
    pub column: &'static str,
}

/// What becomes of the line itself.
#[derive(Clone, Copy, Debug, PartialEq, Eq)]
pub enum Fate {
    Stays,
    /// "Ordinary comments and blank lines go."
    Goes,
}

impl Advice<'_> {
    /// The line as an editor counts, and as it is shown below.
    fn sentence(&self, fate: Fate) -> String {
        let line = self.shown.number;
        let goes = match fate {
            Fate::Stays => "",
            Fate::Goes => " and is not put out",
        };
        let text = match &self.at_stake {
            Some(AtStake { column, .. }) => {
                format!("the text after it, {column}, counts as the operator's")
            }
            None => "no text that may be marked stands after it".to_owned(),
        };
        format!("line {line} looks like a mark but is none{goes}; {text}")
    }

    /// The place as refusals give it.
    fn place(&self) -> String {
        let (section, line) = (self.section, self.line);
        match &self.at_stake {
            Some(AtStake { record, .. }) => {
                format!("section {section}, line {line}, before record {record}")
            }
            None => format!("section {section}, line {line}"),
        }
    }
}

/// Every such line of a file's sound sections, in file order. Of a refused
/// section no text is handed out, so that none is mistaken for another's.
pub fn of(file: &[u8]) -> Vec<Advice<'_>> {
    if !each_line(file).any(is_look_alike) {
        return Vec::new();
    }
    let Ok(listing) = all_rows(file) else {
        return Vec::new();
    };
    let mut lines = LineCount::new(file);
    let rows = listing.rows.iter().enumerate();
    rows.filter(|(_, row)| row.is_sound())
        .flat_map(|(index, row)| in_section(file, index + 1, *row, lines.at(row.place)))
        .collect()
}

fn in_section(file: &[u8], section: usize, row: Row, first: usize) -> Vec<Advice<'_>> {
    let column = tables::numbered(row.table).and_then(markable);
    let mut records = 0;
    let mut found = Vec::new();
    for (index, content) in each_line(row.span().of(file)).enumerate() {
        records += usize::from(command(content) == Some(b"rec"));
        if is_look_alike(content) {
            let record = records + 1;
            let column = column.filter(|_| record <= row.records);
            found.push(Advice {
                section,
                line: index + 1,
                shown: Shown {
                    number: first + index,
                    content,
                },
                at_stake: column.map(|column| AtStake { record, column }),
            });
        }
    }
    found
}

fn markable(table: &Table) -> Option<&'static str> {
    table.markable.map(|field| table.columns[field - 1].name)
}

fn is_look_alike(content: &[u8]) -> bool {
    command(content) == Some(b"com")
        && rest(content).is_some_and(|rest| !is_mark(rest) && looks_like_mark(rest))
}

/// "A `com` line whose trimmed rest is one closed text beginning `SUGGESTED `
/// is a mark."
fn is_mark(rest: &[u8]) -> bool {
    is_text(rest) && rest.starts_with(b"\"SUGGESTED ")
}

/// Without quotes and spaces and in capitals the rest begins with the word; or
/// has the word with a digit behind it anywhere, as when two lines have become
/// one; or begins with one byte lost, changed or too many in the word, and a
/// digit behind it. So no single byte turns a mark into a comment unnoticed.
fn looks_like_mark(rest: &[u8]) -> bool {
    let bare: Vec<u8> = rest
        .iter()
        .filter(|byte| !matches!(byte, b'"' | b' '))
        .map(u8::to_ascii_uppercase)
        .collect();
    let has_digit_at = |place: usize| bare.get(place).is_some_and(u8::is_ascii_digit);
    let mut words = bare.windows(WORD.len()).enumerate();
    let begins_near = |length: usize| {
        let word = bare.get(..length);
        word.is_some_and(is_one_off) && has_digit_at(length)
    };
    bare.starts_with(WORD)
        || words.any(|(place, word)| word == WORD && has_digit_at(place + WORD.len()))
        || (WORD.len() - 1..=WORD.len() + 1).any(begins_near)
}

/// Whether all but one byte of the longer stand alike from both ends.
fn is_one_off(word: &[u8]) -> bool {
    let head = word.iter().zip(WORD).take_while(|(a, b)| a == b).count();
    let ends = word.iter().rev().zip(WORD.iter().rev());
    let tail = ends.take_while(|(a, b)| a == b).count();
    head + tail + 1 >= word.len().max(WORD.len())
}

/// On standard error, each with its line.
pub fn tell(
    outlets: &mut Outlets<'_>,
    source: &Source,
    advice: &[Advice<'_>],
    fate: Fate,
) -> Result<(), Trouble> {
    if advice.is_empty() {
        return Ok(());
    }
    outlets.flush()?;
    let paint = outlets.paint_err;
    for one in advice.iter().take(TOLD) {
        let sentence = one.sentence(fate);
        let picture = Picture::of_line(one.shown, one.place()).painted(paint);
        outlets.note(&format_args!("{source}: {sentence}\n{picture}"));
    }
    if advice.len() > TOLD {
        let more = count_in_words(advice.len() - TOLD, " more");
        outlets.note(&format_args!("{source}: {more}\n"));
    }
    Ok(())
}

/// `2 lines look like a mark but are none`.
pub fn count_in_words(count: usize, more: &str) -> String {
    match count {
        1 => format!("1{more} line looks like a mark but is none"),
        _ => format!("{count}{more} lines look like a mark but are none"),
    }
}

/// The member of an answer for machines.
pub fn member(advice: &[Advice<'_>], fate: Fate) -> (&'static str, Json) {
    (
        "advice",
        Json::list(advice.iter().map(|one| as_json(one, fate))),
    )
}

fn as_json(advice: &Advice<'_>, fate: Fate) -> Json {
    let at_stake = advice.at_stake.as_ref();
    let record = at_stake.map(|text| Json::size(text.record));
    let column = at_stake.map(|text| Json::text(text.column));
    Json::Object(vec![
        ("section", Json::size(advice.section)),
        ("line", Json::size(advice.line)),
        ("file_line", Json::size(advice.shown.number)),
        ("record", record.unwrap_or(Json::Null)),
        ("column", column.unwrap_or(Json::Null)),
        ("words", Json::Text(advice.sentence(fate))),
    ])
}

#[cfg(test)]
mod tests {
    use super::*;
    use vdv::{At, Owner, Value};

    const BEFORE: &[u8] = b"mod; DD.MM.YYYY; HH:MM:SS; free\n\
        src; \"Desk\"; \"01.02.2024\"; \"06:00:00\"\n\
        chs; \"ISO8859-1\"\nver; \"1\"\nifv; \"1.0\"\n\
        tbl; MENGE_BASIS_VERSIONEN\n\
        atr; BASIS_VERSION; BASIS_VERSION_TEXT\n\
        frm; num[9.0]; char[40]\n\
        com; from the assistant";
    const MARK: &[u8] = b"\ncom; \"SUGGESTED 2\"\n";
    const AFTER: &[u8] = b"rec; 7; \"Winter\"\nend; 1\neof; 1\n";

    /// The mark with one byte changed, lost, or too many.
    fn damaged() -> impl Iterator<Item = Vec<u8>> {
        let places = 0..MARK.len();
        places.flat_map(|place| {
            let (head, tail) = MARK.split_at(place);
            let changed = (0..=255).map(move |byte| [head, &[byte], &tail[1..]].concat());
            let added = (0..=255).map(move |byte| [head, &[byte], tail].concat());
            changed.chain(added).chain([[head, &tail[1..]].concat()])
        })
    }

    fn is_operators(file: &[u8]) -> bool {
        let value = vdv::value(file, At::new(1, 1, 2)).unwrap();
        matches!(
            value,
            Value::Text {
                owner: Owner::Operator,
                ..
            }
        )
    }

    /// "one byte of damage to a mark line can turn our sentence into the
    /// operator's", but not unnoticed.
    #[test]
    fn no_single_byte_hides_a_mark() {
        let mut hidden = 0;
        for mark in damaged() {
            let file = [BEFORE, &mark, AFTER].concat();
            if vdv::check(&file).is_err() {
                continue;
            }
            let advice = of(&file);
            let is_hidden = is_operators(&file);
            assert_eq!(
                advice.len(),
                usize::from(is_hidden),
                "{}",
                mark.escape_ascii()
            );
            hidden += usize::from(is_hidden);
        }
        assert!(hidden > 1000, "{hidden}");
    }

    #[test]
    fn what_looks_like_a_mark() {
        for rest in [
            "\"SUGGESTED 3",
            "SUGGESTED 3",
            "suggested 3",
            "\" SUGGESTED 3\"",
            "\"SUGGESTED3\"",
            "\"SUGGESTED\"",
            "\"SUGGESTED 3\" by the desk",
            "'SUGGESTED 3'",
            "\"SUGESTED 3\"",
            "see below com; \"SUGGESTED 3\"",
        ] {
            let content = format!("com; {rest}");
            assert!(is_look_alike(content.as_bytes()), "{rest}");
        }
    }

    #[test]
    fn what_does_not() {
        for content in [
            "com; \"SUGGESTED 3\"",
            " com ;\"SUGGESTED 3\" ",
            "com; \"SUGGESTED x\"",
            "com; suggest day types",
            "com; suggestions: 3",
            "com; we suggested none",
            "com;",
            "rec; \"SUGGESTED 3",
            "SUGGESTED 3",
        ] {
            assert!(!is_look_alike(content.as_bytes()), "{content}");
        }
    }
}
