//! What the tool says about itself.

use std::ops::RangeInclusive;

#[derive(Clone, Copy, Debug, PartialEq, Eq)]
pub enum Topic {
    Tool,
    Check,
    List,
    Show,
    Marks,
    Write,
    Fill,
    Strip,
}

const COMMANDS: [Topic; 7] = [
    Topic::Check,
    Topic::List,
    Topic::Show,
    Topic::Marks,
    Topic::Write,
    Topic::Fill,
    Topic::Strip,
];

impl Topic {
    pub fn named(name: &str) -> Option<Topic> {
        COMMANDS.into_iter().find(|topic| topic.name() == name)
    }

    pub fn name(self) -> &'static str {
        match self {
            Topic::Tool => "nhachudep",
            Topic::Check => "check",
            Topic::List => "list",
            Topic::Show => "show",
            Topic::Marks => "marks",
            Topic::Write => "write",
            Topic::Fill => "fill",
            Topic::Strip => "strip",
        }
    }

    pub fn usage(self) -> &'static str {
        match self {
            Topic::Tool => "nhachudep COMMAND FILE ..",
            Topic::Check => "nhachudep check [--json] [--strict] FILE ..",
            Topic::List => "nhachudep list [--json] FILE",
            Topic::Show => "nhachudep show [--json] [--strict] FILE [TABLE]",
            Topic::Marks => "nhachudep marks [--json] [--strict] FILE",
            Topic::Write => "nhachudep write FILE [-o OUT | --in-place] [--json] [--strict]",
            Topic::Fill => {
                "nhachudep fill FILE SECTION RECORD FIELD TEXT\n       \
                 [-o OUT | --in-place] [--json] [--strict]"
            }
            Topic::Strip => "nhachudep strip FILE [-o OUT | --in-place] [--json] [--strict]",
        }
    }

    /// How many words follow the command.
    pub fn word_counts(self) -> RangeInclusive<usize> {
        match self {
            Topic::Check => 1..=usize::MAX,
            Topic::Show => 1..=2,
            Topic::Fill => 5..=5,
            _ => 1..=1,
        }
    }

    fn body(self) -> &'static str {
        match self {
            Topic::Tool => TOOL,
            Topic::Check => CHECK,
            Topic::List => LIST,
            Topic::Show => SHOW,
            Topic::Marks => MARKS,
            Topic::Write => WRITE,
            Topic::Fill => FILL,
            Topic::Strip => STRIP,
        }
    }
}

pub fn of(topic: Topic) -> String {
    format!("usage: {}\n\n{}", topic.usage(), topic.body())
}

pub fn version() -> String {
    format!("nhachudep {}\n", env!("CARGO_PKG_VERSION"))
}

const TOOL: &str = "\
Reads VDV 451 planning files with the tables of VDV 452, says whether they are
sound, and tells the operator's texts from suggestions.

commands:
  check   say of each file whether it is sound
  list    list a file's header and sections
  show    show a file's tables
  marks   show which sentences of a file are ours
  write   put out a file's written form
  fill    fill an empty text with a suggestion
  strip   put out a file without suggestions

A FILE may be `-` for standard input; `--` ends the options. With --json the
answers are for machines. `nhachudep COMMAND --help` says more of a command,
`nhachudep --version` which version this is.

Refusals go to standard error: file, place, number, rule, and the line itself.
So does advice: a comment in a sound section that looks like a mark and is none
leaves the file sound, but the text after it counts as the operator's.

Ends with 0 if all is well, 1 if a file or a request was refused, or if there is
advice and --strict is given, 2 if the tool was misused or the system would not
let it. If whoever reads its output has gone, it ends by SIGPIPE.

Colours are used on a terminal only, and not with NO_COLOR set.
";

const CHECK: &str = "\
Says of each file whether it is sound. A refused file is told of on standard
error with the first rule it breaks and the place. A comment that looks like a
mark and is none is told of too.

  --strict  end with 1 if there is such a comment
  --json    one object a file, {file, number, part, section, line, rule,
            advice}; of each advice {section, line, file_line, record, column,
            words}
";

const LIST: &str = "\
Lists the header's values and each section: table, records, first byte, length,
and its verdict. A section is listed whatever stands in the others.

With --json: one object with header, sections, and the file's answer.
";

const SHOW: &str = "\
Shows the records of every table, or of one, given by number or name, in
aligned columns; these stand in VDV 452's order, whatever the file's. Columns
that the terminal has no room for, or 120 characters where there is none, stand
below, behind the records' numbers again. A missing number is left blank, and a
suggestion has a `*` before it. Of a refused section no records are shown; those
of the others are. A comment that looks like a mark and is none is told of on
standard error.

  --strict  end with 1 if there is such a comment
  --json    one object with the tables, each text with its owner, a missing
            number as null, and the advice
";

const MARKS: &str = "\
Shows every sentence of ours, the texts that stand under a mark, table by table
with key, record, and line in the file; then how many of the texts that may be
marked are ours. What is not shown is the operator's. Of a refused section
nothing can be said: it is named before the count. A comment that looks like a
mark and is none is told of on standard error, and counted.

  --strict  end with 1 if there is such a comment
  --json    one object with the marks, the counts, `complete`, whether it can be
            said of every text, all refused sections, and the advice; a `field`
            is counted as `nhachudep fill` counts it, not as the mark does
";

const WRITE: &str = "\
Puts out the written form: header lines in their order, columns in VDV 452's,
one space after each separating `;`, numbers without leading zeros, a missing
one as an empty field, texts without spaces at their end, no comments but marks,
renumbered as the columns stand, LF. A comment that looks like a mark and is
none is warned of before it goes.

  -o OUT      into this file instead of standard output
  --in-place  into the file itself
  --strict    put out nothing if there is such a comment, and end with 1
  --json      tell the answer on standard output; needs -o or --in-place

A file is written anew beside its name and renamed when it is whole; it keeps
owner, group, mode and access list, or it is left alone. The input is never
written over unless --in-place is given. Then it is locked before it is read:
another run waits, and if another program has changed it meanwhile, nothing is
written. A read-only file is not replaced.
";

const FILL: &str = "\
Puts out the written form with TEXT in an empty field, marked as a suggestion.
Section, record and field count from 1; `nhachudep show` counts them. FIELD is
the column's number in VDV 452's table, wherever the file has the column, and
whatever number a mark in the file gives it. TEXT is given in UTF-8 and put out
in ISO 8859-1, without spaces at its end. One that begins with `-` stands after
`--`.

  -o OUT      into this file instead of standard output
  --in-place  into the file itself; many fills at once wait for each other
  --strict    put out nothing if a comment looks like a mark and is none
  --json      tell the answer on standard output; needs -o or --in-place

These may be filled: field 2 of MENGE_BASIS_VERSIONEN, BASIS_VERSION_TEXT;
field 3 of FIRMENKALENDER, BETRIEBSTAG_TEXT; field 3 of MENGE_TAGESART,
TAGESART_TEXT; field 4 of MENGE_ONR_TYP, ONR_TYP_TEXT; field 3 of
EINZELANSCHLUSS, ANSCHLUSS_NAME. A missing number may not be.
`nhachudep write --help` says how a file is replaced.
";

const STRIP: &str = "\
Puts out the written form with every suggestion taken out, text and mark. A text
below a comment that looks like a mark and is none counts as the operator's, and
stays; the comment is warned of before it goes.

  -o OUT      into this file instead of standard output
  --in-place  into the file itself
  --strict    put out nothing if there is such a comment, and end with 1
  --json      tell the answer on standard output; needs -o or --in-place

`nhachudep write --help` says how a file is replaced.
";

#[cfg(test)]
mod tests {
    use super::*;

    #[test]
    fn every_command_is_named_and_explained() {
        for topic in COMMANDS {
            assert_eq!(Topic::named(topic.name()), Some(topic));
            assert!(TOOL.contains(&format!("\n  {} ", topic.name())));
            assert!(of(topic).starts_with("usage: nhachudep "));
        }
        assert_eq!(Topic::named("nhachudep"), None);
    }

    /// The numbers by which `fill` names a column are VDV 452's.
    #[test]
    fn what_may_be_filled_is_said() {
        for table in vdv::tables::ALL {
            let Some(field) = table.markable else {
                continue;
            };
            let column = table.columns[field - 1].name;
            let said = format!("field {field} of {}, {column}", table.name);
            assert!(FILL.replace('\n', " ").contains(&said), "{said}");
        }
    }

    #[test]
    fn help_fits_a_terminal() {
        for topic in COMMANDS.into_iter().chain([Topic::Tool]) {
            let widest = of(topic).lines().map(|line| line.chars().count()).max();
            assert!(widest <= Some(80), "{topic:?}");
        }
    }
}
