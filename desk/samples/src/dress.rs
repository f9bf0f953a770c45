//! A model put into lines, in one of the many dresses document 01 allows:
//! spaces, blank lines, comments, line ends, zeros, forms of the date,
//! arrangements of the columns, and texts padded inside their quotes.

use vdv::tables::Table;
use vdv::Owner;

use crate::arrangement::Arrangement;
use crate::form::{clock, dotted, quoted, slashed};
use crate::model::{Content, Datum, Heading, Model, Record};
use crate::page::{End, Line, Page};
use crate::random::Random;
use crate::texts;

/// Comments that look like something else, and are ordinary ones.
const COMMENTS: [&[u8]; 16] = [
    b"com;",
    b"com; \"Stand vom 8. Januar\"",
    b"com; ohne Anf}hrung; \"halb",
    b"com; \"SUGGESTED 3",
    b"com; SUGGESTED 3\"",
    b"com; SUGGESTED 3",
    b"com; \"SUGGESTED\"",
    b"com; \"suggested 3\"",
    b"com; \" SUGGESTED 3\"",
    b"com; \"SUGGESTED3\"",
    b"com; \"SUGGESTED 3\" x",
    b"com; \"SUGGESTED 3\"; \"4\"",
    b"com; \"\"SUGGESTED 3\"\"",
    b"com ; tbl; REC_UEB",
    b"  com;eof; 7",
    b"com; rec; 7; 1; \"x\"",
];

/// "Outside a section a mark is an ordinary comment."
const HEADER_COMMENTS: [&[u8]; 3] = [
    b"com; \"SUGGESTED 3\"",
    b"com; \"SUGGESTED x\"",
    b"com;\"SUGGESTED 2\" ",
];

/// YYYYMMDD, as days before the year 1000 are mostly written too.
const DIGITS_OF_A_DAY: usize = 8;

#[derive(Clone, Copy, PartialEq, Eq)]
enum Ends {
    Feeds,
    ReturnFeeds,
    Mixed,
}

/// Shares of a hundred.
struct Style {
    ends: Ends,
    spaces: usize,
    blanks: usize,
    comments: usize,
    zeros: usize,
    sizes: usize,
    arranged: usize,
    padded: usize,
}

impl Style {
    fn draw(random: &mut Random) -> Style {
        Style {
            ends: random.pick(&[
                Ends::Feeds,
                Ends::Feeds,
                Ends::Feeds,
                Ends::ReturnFeeds,
                Ends::Mixed,
            ]),
            spaces: random.pick(&[0, 0, 10, 60]),
            blanks: random.pick(&[0, 0, 4, 30]),
            comments: random.pick(&[0, 0, 4, 30]),
            zeros: random.pick(&[0, 0, 10, 60]),
            sizes: random.pick(&[0, 0, 100]),
            arranged: random.pick(&[0, 0, 50, 100]),
            padded: random.pick(&[0, 0, 30, 100]),
        }
    }
}

pub fn dress(random: &mut Random, model: &Model) -> Page {
    let style = Style::draw(random);
    let mut dresser = Dresser {
        random,
        style,
        page: Page::default(),
    };
    dresser.header(&model.header);
    for content in &model.tables {
        dresser.section(content);
    }
    dresser.trailer(model.tables.len());
    dresser.page
}

struct Dresser<'r> {
    random: &'r mut Random,
    style: Style,
    page: Page,
}

impl Dresser<'_> {
    /// "Blank and `com` lines may stand anywhere in it. The first other line
    /// is `mod`".
    fn header(&mut self, header: &Heading) {
        self.aside_in_header();
        let is_slashed = self.random.percent(40);
        let form = if is_slashed {
            "YYYY/MM/DD"
        } else {
            "DD.MM.YYYY"
        };
        let mode = self.random.pick(&["free", "aligned"]);
        self.line("mod", [form, "HH:MM:SS", mode].map(bytes));
        let date = if is_slashed {
            slashed(header.date)
        } else {
            dotted(header.date)
        };
        let mut lines = self.header_lines(header, &date);
        self.random.shuffle(&mut lines);
        for (command, fields) in lines {
            self.aside_in_header();
            self.line(command, fields);
        }
        self.aside_in_header();
    }

    fn header_lines(&mut self, header: &Heading, date: &str) -> Vec<(&'static str, Vec<Vec<u8>>)> {
        let charset: &[u8] = match (header.latin, self.random.percent(50)) {
            (false, _) => b"ASCII",
            (true, false) => b"ISO8859-1",
            (true, true) => b"ISO-8859-1",
        };
        let stamp = [date.to_owned(), clock(header.time)].map(|part| quoted(part.as_bytes()));
        let [date, time] = stamp;
        let mut lines = vec![
            ("src", vec![quoted(&header.source), date, time]),
            ("chs", vec![quoted(charset)]),
            ("ver", vec![quoted(&header.ver)]),
            ("ifv", vec![quoted(&header.ifv)]),
        ];
        for (command, text) in [("dve", &header.dve), ("fft", &header.fft)] {
            lines.extend(text.as_ref().map(|text| (command, vec![quoted(text)])));
        }
        lines
    }

    fn section(&mut self, content: &Content) {
        let columns = content.table.columns;
        let arrangement = self.arrange(content.table);
        self.line("tbl", [bytes(content.table.name)]);
        self.aside();
        let names: Vec<_> = columns.iter().map(|column| bytes(column.name)).collect();
        self.line("atr", arrangement.arrange(&names));
        self.aside();
        let formats: Vec<_> = columns
            .iter()
            .map(|column| bytes(&column.format_of_size(self.draw_size(column.written))))
            .collect();
        self.line("frm", arrangement.arrange(&formats));
        for record in &content.records {
            self.aside();
            self.record(&arrangement.arrange(record));
        }
        self.aside();
        let count = self.number(content.records.len() as u64);
        self.line("end", [count]);
        self.aside();
    }

    fn arrange(&mut self, table: &Table) -> Arrangement {
        if self.random.percent(self.style.arranged) {
            Arrangement::draw(self.random, table)
        } else {
            Arrangement::plain(table)
        }
    }

    /// "n from 1 to 255 without leading zeros; it limits no value".
    fn draw_size(&mut self, written: usize) -> usize {
        if self.random.percent(self.style.sizes) {
            self.random.pick(&[1, 2, 9, 10, 99, 100, 199, 249, 255])
        } else {
            written
        }
    }

    /// A record whose values stand as the file has them: "A mark's number counts
    /// in the file's own order".
    fn record(&mut self, record: &Record) {
        for (place, datum) in record.iter().enumerate() {
            if datum.is_suggestion() {
                let mark = format!("SUGGESTED {}", place + 1);
                self.line("com", [quoted(mark.as_bytes())]);
                self.aside();
            }
        }
        let fields: Vec<_> = record.iter().map(|datum| self.datum(datum)).collect();
        self.line("rec", fields);
    }

    fn datum(&mut self, datum: &Datum) -> Vec<u8> {
        match datum {
            Datum::Number(number) => self.number(*number),
            Datum::Missing => Vec::new(),
            Datum::Text(text, Owner::Operator | Owner::Suggestion) => self.text(text),
        }
    }

    /// "Senders pad inside the quotes to line up columns".
    fn text(&mut self, text: &[u8]) -> Vec<u8> {
        let padding = if self.random.percent(self.style.padded) {
            1 + self.random.pick(&[0, 1, 5, 45])
        } else {
            0
        };
        quoted(&[text, &vec![b' '; padding]].concat())
    }

    /// "1 to 18 digits, leading zeros allowed, `-0` being 0".
    fn number(&mut self, number: u64) -> Vec<u8> {
        if !self.random.percent(self.style.zeros) {
            return bytes(&number.to_string());
        }
        let width = match self.random.below(2) {
            0 => DIGITS_OF_A_DAY,
            _ => 1 + self.random.below(18),
        };
        let sign = if number == 0 && self.random.percent(60) {
            "-"
        } else {
            ""
        };
        bytes(&format!("{sign}{number:0width$}"))
    }

    /// "only blank lines after it"; only the file's last line may lack LF.
    fn trailer(&mut self, tables: usize) {
        let count = self.number(tables as u64);
        self.line("eof", [count]);
        while self.random.percent(self.style.blanks) {
            self.blank();
        }
        if self.random.percent(30) {
            if let Some(last) = self.page.lines.last_mut() {
                last.end = End::Nothing;
            }
        }
    }

    /// Blank lines and ordinary comments, which say nothing.
    fn aside(&mut self) {
        while self.random.percent(self.style.blanks) {
            self.blank();
        }
        while self.random.percent(self.style.comments) {
            let comment = self.comment();
            self.push(comment);
        }
    }

    fn aside_in_header(&mut self) {
        self.aside();
        if self.random.percent(self.style.comments) {
            let comment = self.random.pick(&HEADER_COMMENTS).to_vec();
            self.push(comment);
        }
    }

    fn blank(&mut self) {
        let blank = self.spaces();
        self.push(blank);
    }

    fn comment(&mut self) -> Vec<u8> {
        if self.random.percent(70) {
            return self.random.pick(&COMMENTS).to_vec();
        }
        let length = self.random.below(60);
        let rest = texts::any(self.random, false, length);
        [b"com;", &rest[..]].concat()
    }

    /// "The command is what stands before the first `;`, spaces trimmed";
    /// "Spaces around a field are trimmed."
    fn line(&mut self, command: &str, fields: impl IntoIterator<Item = Vec<u8>>) {
        let mut content = self.spaces();
        content.extend_from_slice(command.as_bytes());
        content.extend(self.spaces());
        for field in fields {
            content.push(b';');
            if self.style.spaces == 0 {
                content.push(b' ');
            }
            content.extend(self.spaces());
            content.extend(field);
            content.extend(self.spaces());
        }
        self.push(content);
    }

    fn spaces(&mut self) -> Vec<u8> {
        let count = if self.random.percent(self.style.spaces) {
            1 + self.random.below(3)
        } else {
            0
        };
        vec![b' '; count]
    }

    fn push(&mut self, content: Vec<u8>) {
        let end = match self.style.ends {
            Ends::Feeds => End::Feed,
            Ends::ReturnFeeds => End::ReturnFeed,
            Ends::Mixed => self.random.pick(&[End::Feed, End::ReturnFeed]),
        };
        self.page.lines.push(Line { content, end });
    }
}

fn bytes(text: &str) -> Vec<u8> {
    text.as_bytes().to_vec()
}
