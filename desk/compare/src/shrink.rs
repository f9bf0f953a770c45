//! A smaller file that still shows a difference.

/// Lines are taken out as long as the file goes on failing: first whole tables,
/// then halves, then smaller and smaller runs.
pub fn shrink(file: &[u8], fails: &mut dyn FnMut(&[u8]) -> bool) -> Vec<u8> {
    let lines = file.split_inclusive(|byte| *byte == b'\n');
    let lines = drop_tables(lines.map(<[u8]>::to_vec).collect(), fails);
    drop_runs(lines, fails).concat()
}

/// From the last table to the first, so that those before keep their places.
fn drop_tables(mut lines: Vec<Vec<u8>>, fails: &mut dyn FnMut(&[u8]) -> bool) -> Vec<Vec<u8>> {
    let mut end = lines.len();
    for place in (0..lines.len()).rev() {
        match command_of(&lines[place]) {
            b"tbl" => {
                let rest = [&lines[..place], &lines[end..]].concat();
                lines = still_failing(rest, fails).unwrap_or(lines);
                end = place;
            }
            b"eof" => end = place,
            _ => {}
        }
    }
    lines
}

fn drop_runs(mut lines: Vec<Vec<u8>>, fails: &mut dyn FnMut(&[u8]) -> bool) -> Vec<Vec<u8>> {
    let mut run = lines.len() / 2;
    while run > 0 {
        let mut place = 0;
        while place < lines.len() {
            let end = lines.len().min(place + run);
            let rest = [&lines[..place], &lines[end..]].concat();
            match still_failing(rest, fails) {
                Some(rest) => lines = rest,
                None => place = end,
            }
        }
        run /= 2;
    }
    lines
}

/// The lines as they are or with their counts made anew, for a wrong count
/// would hide the rest.
fn still_failing(
    lines: Vec<Vec<u8>>,
    fails: &mut dyn FnMut(&[u8]) -> bool,
) -> Option<Vec<Vec<u8>>> {
    if fails(&lines.concat()) {
        return Some(lines);
    }
    let counted = counted_anew(&lines);
    (counted != lines && fails(&counted.concat())).then_some(counted)
}

fn counted_anew(lines: &[Vec<u8>]) -> Vec<Vec<u8>> {
    let (mut tables, mut records) = (0, 0);
    let count_line = |line: &Vec<u8>| {
        match command_of(line) {
            b"tbl" => (tables, records) = (tables + 1, 0),
            b"rec" => records += 1,
            b"end" => return format!("end; {records}\n").into_bytes(),
            b"eof" => return format!("eof; {tables}\n").into_bytes(),
            _ => {}
        }
        line.clone()
    };
    lines.iter().map(count_line).collect()
}

fn command_of(line: &[u8]) -> &[u8] {
    let stop = line.iter().position(|byte| *byte == b';').unwrap_or(0);
    line[..stop].trim_ascii()
}

#[cfg(test)]
mod tests {
    use super::*;

    /// A table's lines belong together, though no run that is tried is just
    /// as long.
    #[test]
    fn whole_tables_are_taken_out() {
        let table = |name: char| format!("tbl; {name}\natr; V\nfrm; num[9.0]\nend; 0\n");
        let tables: String = ('A'..='E').map(table).collect();
        let file = format!("ver; \"1\"\n{tables}eof; 5\n");
        let whole = |file: &[u8]| {
            let count = |part: &[u8]| file.windows(part.len()).filter(|w| *w == part).count();
            let tables = count(b"tbl;");
            count(b"tbl; C") == 1
                && [&b"atr;"[..], b"frm;", b"end;"]
                    .iter()
                    .all(|c| count(c) == tables)
        };
        let small = shrink(file.as_bytes(), &mut { whole });
        assert_eq!(small, table('C').into_bytes());
    }

    #[test]
    fn only_lines_that_matter_are_left() {
        let file = b"a\nb\nc\nd\ne\nf\ng";
        let mut tries = 0;
        let small = shrink(file, &mut |file| {
            tries += 1;
            file.contains(&b'b') && file.contains(&b'f')
        });
        assert_eq!(small, b"b\nf\n");
        assert!(tries < 40);
    }

    #[test]
    fn counts_follow() {
        let file = b"tbl; A\nrec; 1\nrec; 2\nend; 2\ntbl; B\nend; 0\neof; 2\n";
        let sound = |file: &[u8]| {
            let has = |part: &[u8]| file.windows(part.len()).any(|w| w == part);
            has(b"rec; 2\nend; 1\n") || has(b"rec; 2\nend; 2\n") && has(b"eof; 2\n")
        };
        assert_eq!(shrink(file, &mut { sound }), b"rec; 2\nend; 1\n");
    }
}
