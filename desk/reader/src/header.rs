//! The header: every line before the first `tbl` or `eof` line.

use std::ops::Range;

use crate::calendar::Date;
use crate::fields::{Fields, Text};
use crate::lines::{is_plain, Command, Head, Lines, Part};

#[derive(Clone, Copy, Debug, PartialEq, Eq)]
pub enum Charset {
    Ascii,
    Latin1,
}

#[derive(Clone, Copy, Debug, PartialEq, Eq)]
pub struct Time {
    pub hour: u8,
    pub minute: u8,
    pub second: u8,
}

/// "Header values are the texts, date, time and character set, not the mode
/// or the date's form." The optional lines are kept with whether they stand.
#[derive(Clone, Copy, Debug, PartialEq, Eq)]
pub struct Header<'a> {
    pub source: Text<'a>,
    pub date: Date,
    pub time: Time,
    pub charset: Charset,
    pub version: Text<'a>,
    pub interface: Text<'a>,
    pub data: Option<Text<'a>>,
    pub format: Option<Text<'a>>,
}

#[derive(Clone, Copy)]
enum DateForm {
    Dotted,
    Slashed,
}

/// What has been read so far; the first other line is `mod`.
#[derive(Default)]
struct Draft<'a> {
    form: Option<DateForm>,
    source: Option<(Text<'a>, Date, Time)>,
    charset: Option<Charset>,
    version: Option<Text<'a>>,
    interface: Option<Text<'a>>,
    data: Option<Text<'a>>,
    format: Option<Text<'a>>,
}

/// The header's values, or the line at fault: the first that breaks a rule,
/// "else the header's line count if something is missing".
pub fn read(file: &[u8], region: Range<usize>) -> Result<Header<'_>, usize> {
    let mut draft = Draft::default();
    let mut count = 0;
    for line in Lines::of(file, region) {
        count += 1;
        draft.take(line).ok_or(count)?;
    }
    draft.finish().ok_or(count)
}

impl<'a> Draft<'a> {
    /// None if the line breaks a rule.
    fn take(&mut self, line: Part<'a>) -> Option<()> {
        if !is_plain(line.bytes) {
            return None;
        }
        let (command, rest) = match Head::of(line) {
            Head::Blank => return Some(()),
            Head::Bare | Head::Unknown => return None,
            Head::Known(Command::Com, _) => return Some(()),
            Head::Known(command, rest) => (command, rest),
        };
        let Some(form) = self.form else {
            if command == Command::Mod {
                self.form = Some(read_mode(rest)?);
                return Some(());
            }
            return None;
        };
        match command {
            Command::Src => set(&mut self.source, read_source(rest, form)?),
            Command::Chs => set(&mut self.charset, read_charset(rest)?),
            Command::Ver => set(&mut self.version, one_text(rest)?),
            Command::Ifv => set(&mut self.interface, one_text(rest)?),
            Command::Dve => set(&mut self.data, one_text(rest)?),
            Command::Fft => set(&mut self.format, one_text(rest)?),
            _ => None,
        }
    }

    fn finish(self) -> Option<Header<'a>> {
        let (source, date, time) = self.source?;
        Some(Header {
            source,
            date,
            time,
            charset: self.charset?,
            version: self.version?,
            interface: self.interface?,
            data: self.data,
            format: self.format,
        })
    }
}

/// "once each", "at most once": a second one is at fault.
fn set<T>(slot: &mut Option<T>, value: T) -> Option<()> {
    slot.replace(value).is_none().then_some(())
}

fn one_text(rest: Part<'_>) -> Option<Text<'_>> {
    Text::read(Fields::only(rest)?)
}

fn read_mode(rest: Part<'_>) -> Option<DateForm> {
    let [date, time, mode] = Fields::exactly(rest)?;
    if time.bytes != b"HH:MM:SS" || !matches!(mode.bytes, b"free" | b"aligned") {
        return None;
    }
    match date.bytes {
        b"DD.MM.YYYY" => Some(DateForm::Dotted),
        b"YYYY/MM/DD" => Some(DateForm::Slashed),
        _ => None,
    }
}

fn read_source(rest: Part<'_>, form: DateForm) -> Option<(Text<'_>, Date, Time)> {
    let [source, date, time] = Fields::exactly(rest)?;
    Some((
        Text::read(source)?,
        read_date(Text::read(date)?.stored(), form)?,
        read_time(Text::read(time)?.stored())?,
    ))
}

fn read_charset(rest: Part<'_>) -> Option<Charset> {
    match one_text(rest)?.stored() {
        b"ASCII" => Some(Charset::Ascii),
        b"ISO8859-1" | b"ISO-8859-1" => Some(Charset::Latin1),
        _ => None,
    }
}

fn digits(bytes: &[u8]) -> Option<u16> {
    bytes.iter().try_fold(0, |value, &b| {
        b.is_ascii_digit().then(|| value * 10 + u16::from(b - b'0'))
    })
}

/// Three runs of digits between two separators, of just these lengths.
fn triple(bytes: &[u8], separator: u8, lengths: [usize; 3]) -> Option<[u16; 3]> {
    let mut parts = bytes.split(|&b| b == separator);
    let mut found = [0; 3];
    for (slot, length) in found.iter_mut().zip(lengths) {
        let part = parts.next().filter(|part| part.len() == length)?;
        *slot = digits(part)?;
    }
    parts.next().is_none().then_some(found)
}

/// "a quoted real Gregorian date from year 0001 in the stated form".
fn read_date(bytes: &[u8], form: DateForm) -> Option<Date> {
    let [year, month, day] = match form {
        DateForm::Dotted => {
            let [day, month, year] = triple(bytes, b'.', [2, 2, 4])?;
            [year, month, day]
        }
        DateForm::Slashed => triple(bytes, b'/', [4, 2, 2])?,
    };
    Date::real(year, month, day)
}

fn read_time(bytes: &[u8]) -> Option<Time> {
    let [hour, minute, second] = triple(bytes, b':', [2, 2, 2])?;
    (hour < 24 && minute < 60 && second < 60).then_some(Time {
        hour: hour as u8,
        minute: minute as u8,
        second: second as u8,
    })
}

#[cfg(test)]
mod tests {
    use super::*;

    #[test]
    fn real_days_only() {
        let dotted = |b: &[u8]| read_date(b, DateForm::Dotted).is_some();
        for day in ["29.02.2024", "29.02.2000", "31.12.9999", "01.01.0001"] {
            assert!(dotted(day.as_bytes()), "{day}");
        }
        for day in [
            "29.02.2023",
            "29.02.1900",
            "31.04.2024",
            "00.01.2024",
            "01.00.2024",
            "01.13.2024",
            "01.01.0000",
            "1.1.2024",
            "01.01.24",
            "01.01.2024 ",
            "2024/01/01",
            "01.01.2024.",
            "",
        ] {
            assert!(!dotted(day.as_bytes()), "{day}");
        }
        assert!(read_date(b"2024/02/29", DateForm::Slashed).is_some());
        assert!(read_date(b"29.02.2024", DateForm::Slashed).is_none());
    }

    #[test]
    fn times_of_one_day() {
        assert!(read_time(b"00:00:00").is_some() && read_time(b"23:59:59").is_some());
        for time in [
            "24:00:00", "00:60:00", "00:00:60", "6:00:00", "06:00", "-1:00:00",
        ] {
            assert!(read_time(time.as_bytes()).is_none(), "{time}");
        }
    }
}
