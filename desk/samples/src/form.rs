//! The written form of what a file says, printed line by line from document
//! 01's section "The written file".

use vdv::{Date, Owner, Time};

use crate::model::{Content, Datum, Heading, Model, Record};

pub fn form(model: &Model) -> Vec<u8> {
    let mut out = Form::default();
    out.header(&model.header);
    for content in &model.tables {
        out.section(content);
    }
    out.line("eof", [plain(model.tables.len())]);
    out.bytes
}

#[derive(Default)]
struct Form {
    bytes: Vec<u8>,
}

impl Form {
    /// "One space after each separating `;`, none elsewhere outside texts";
    /// "Each line ends in LF."
    fn line(&mut self, command: &str, fields: impl IntoIterator<Item = Vec<u8>>) {
        self.bytes.extend_from_slice(command.as_bytes());
        for field in fields {
            self.bytes.extend_from_slice(b"; ");
            self.bytes.extend(field);
        }
        self.bytes.push(b'\n');
    }

    fn header(&mut self, header: &Heading) {
        self.line("mod", ["DD.MM.YYYY", "HH:MM:SS", "free"].map(plain));
        let date = quoted(dotted(header.date).as_bytes());
        let time = quoted(clock(header.time).as_bytes());
        self.line("src", [quoted(&header.source), date, time]);
        let charset = if header.latin { "ISO8859-1" } else { "ASCII" };
        self.line("chs", [quoted(charset.as_bytes())]);
        self.line("ver", [quoted(&header.ver)]);
        self.line("ifv", [quoted(&header.ifv)]);
        for (command, text) in [("dve", &header.dve), ("fft", &header.fft)] {
            if let Some(text) = text {
                self.line(command, [quoted(text)]);
            }
        }
    }

    fn section(&mut self, content: &Content) {
        let columns = content.table.columns;
        self.line("tbl", [plain(content.table.name)]);
        self.line("atr", columns.iter().map(|column| plain(column.name)));
        self.line("frm", columns.iter().map(|column| plain(column.format())));
        for record in &content.records {
            self.record(record);
        }
        self.line("end", [plain(content.records.len())]);
    }

    /// "marks stand directly before their record".
    fn record(&mut self, record: &Record) {
        for (column, datum) in record.iter().enumerate() {
            if let Datum::Text(_, Owner::Suggestion) = datum {
                let mark = format!("SUGGESTED {}", column + 1);
                self.line("com", [quoted(mark.as_bytes())]);
            }
        }
        let field = |datum: &Datum| match datum {
            Datum::Number(number) => plain(number),
            Datum::Missing => Vec::new(),
            Datum::Text(bytes, _) => quoted(bytes),
        };
        self.line("rec", record.iter().map(field));
    }
}

fn plain(what: impl ToString) -> Vec<u8> {
    what.to_string().into_bytes()
}

/// A text in quotes, each of its own quotes doubled.
pub fn quoted(text: &[u8]) -> Vec<u8> {
    let mut field = vec![b'"'];
    for &byte in text {
        field.push(byte);
        if byte == b'"' {
            field.push(byte);
        }
    }
    field.push(b'"');
    field
}

pub fn dotted(date: Date) -> String {
    format!("{:02}.{:02}.{:04}", date.day, date.month, date.year)
}

pub fn slashed(date: Date) -> String {
    format!("{:04}/{:02}/{:02}", date.year, date.month, date.day)
}

pub fn clock(time: Time) -> String {
    format!("{:02}:{:02}:{:02}", time.hour, time.minute, time.second)
}
