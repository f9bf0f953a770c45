//! Damage to the lines of a section: `tbl`, `atr`, `frm`, `rec`, `end`.

use crate::page::{Line, Page};
use crate::random::Random;

const ODD_FIELDS: [&[u8]; 30] = [
    b"",
    b" ",
    b"x",
    b"\"",
    b"\"\"",
    b"\"x\"",
    b"\"\"\"",
    b"\"x",
    b"x\"",
    b"\"a\"b\"",
    b"\"a\" \"b\"",
    b"\"abcdefg\"",
    b"\"0123456789012345678901234567890123456789X\"",
    b"\"01234567890123456789012345678901234567\"\"9\"",
    b"\"\xa1\xff\"",
    b"\"\xa0\"",
    b"\xe4",
    b"-1",
    b"-0",
    b"+1",
    b"- 1",
    b"1.0",
    b"0",
    b"253",
    b"81891",
    b"000000000000000001",
    b"0000000000000000001",
    b"999999999999999999",
    b"9999999999999999999",
    b"18446744073709551617",
];

const ODD_COUNTS: [&[u8]; 10] = [
    b"",
    b" x",
    b" -1",
    b" -0",
    b" 0",
    b" \"1\"",
    b" 999999999999999999",
    b" 9999999999999999999",
    b" 18446744073709551616",
    b" 1 2",
];

const ODD_NAMES: [&[u8]; 8] = [
    b" REC_ORT",
    b" menge_tagesart",
    b" MENGE_TAGESART2",
    b"",
    b" \"REC_UEB\"",
    b" REC_UEB; UEB_FZT",
    b" MENGE_FAHRTAR",
    b" REC UEB",
];

const ODD_FORMATS: [&[u8]; 14] = [
    b"num[9]",
    b"num[0.0]",
    b"num[09.0]",
    b"num[256.0]",
    b"num[255.0]",
    b"num[1.0]",
    b"num[ 9.0 ]",
    b"NUM[9.0]",
    b"num[9.1]",
    b"char[0]",
    b"char[256]",
    b"char[040]",
    b"char[40",
    b"",
];

/// Some line of this command.
pub(super) fn pick_line<'p>(
    random: &mut Random,
    page: &'p mut Page,
    command: &str,
) -> Option<&'p mut Line> {
    let places = page.places_of(command);
    let place = random.choose(&places)?;
    Some(&mut page.lines[*place])
}

pub fn drop_field(random: &mut Random, page: &mut Page) {
    let command = random.pick(&["rec", "rec", "rec", "atr", "frm"]);
    if let Some(line) = pick_line(random, page, command) {
        let mut fields = line.fields();
        fields.remove(random.below(fields.len()));
        line.set_fields(&fields);
    }
}

pub fn add_field(random: &mut Random, page: &mut Page) {
    let command = random.pick(&["rec", "rec", "rec", "atr", "frm", "end", "tbl"]);
    if let Some(line) = pick_line(random, page, command) {
        let mut fields = line.fields();
        let added = random.pick(&[&b" 1"[..], b"", b" \"x\""]).to_vec();
        fields.insert(random.below(fields.len() + 1), added);
        line.set_fields(&fields);
    }
}

pub fn change_field(random: &mut Random, page: &mut Page) {
    change_fields(random, page, 1);
}

/// Several fields of one record, of which the first from the left counts.
pub fn change_several_fields(random: &mut Random, page: &mut Page) {
    let count = 2 + random.below(3);
    change_fields(random, page, count);
}

fn change_fields(random: &mut Random, page: &mut Page, count: usize) {
    if let Some(line) = pick_line(random, page, "rec") {
        let mut fields = line.fields();
        for _ in 0..count {
            let place = random.below(fields.len());
            fields[place] = random.pick(&ODD_FIELDS).to_vec();
        }
        line.set_fields(&fields);
    }
}

pub fn change_end(random: &mut Random, page: &mut Page) {
    let odd = odd_count(random);
    if let Some(line) = pick_line(random, page, "end") {
        line.set_fields(&[odd]);
    }
}

pub(super) fn odd_count(random: &mut Random) -> Vec<u8> {
    if random.percent(50) {
        random.pick(&ODD_COUNTS).to_vec()
    } else {
        random.below(5).to_string().into_bytes()
    }
}

pub fn drop_end(random: &mut Random, page: &mut Page) {
    let places = page.places_of("end");
    if let Some(place) = random.choose(&places) {
        page.lines.remove(*place);
    }
}

pub fn put_record_behind_end(random: &mut Random, page: &mut Page) {
    let ends = page.places_of("end");
    let Some(end) = random.choose(&ends) else {
        return;
    };
    let behind = end + 1;
    let record = match pick_line(random, page, "rec") {
        Some(line) => line.content.clone(),
        None => b"rec; 1; \"x\"".to_vec(),
    };
    page.insert(behind, &record);
}

pub fn change_table_name(random: &mut Random, page: &mut Page) {
    let odd = random.pick(&ODD_NAMES).to_vec();
    if let Some(line) = pick_line(random, page, "tbl") {
        line.set_fields(&[odd]);
    }
}

pub fn exchange_formats(random: &mut Random, page: &mut Page) {
    if let Some(line) = pick_line(random, page, "frm") {
        let mut fields = line.fields();
        let [one, other] = [(); 2].map(|()| random.below(fields.len()));
        fields.swap(one, other);
        line.set_fields(&fields);
    }
}

pub fn change_format(random: &mut Random, page: &mut Page) {
    let odd = random.pick(&ODD_FORMATS).to_vec();
    if let Some(line) = pick_line(random, page, "frm") {
        let mut fields = line.fields();
        let place = random.below(fields.len());
        fields[place] = odd;
        line.set_fields(&fields);
    }
}
