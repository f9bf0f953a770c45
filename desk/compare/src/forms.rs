//! Writing, stripping and filling one file. A form must be the other
//! implementation's to the byte, and the one that is printed from what the
//! file says by the subject's own calls.

use samples::form::form;
use samples::{texts, Model, Random};
use vdv::{At, Refusal};

use crate::calls::Call;
use crate::difference::{law, Difference};
use crate::lent::{lend, lend_all_ways};
use crate::meaning::model_of;
use crate::tally::Tally;
use crate::{Library, Pair};

/// Beside every place that can be filled: texts that are not empty, and fields
/// that may not be filled or do not stand.
const TAKEN: usize = 3;
const OTHERS: usize = 4;

/// Bytes never allowed, allowed under ISO8859-1 only, at the edges, and padded.
const TEXTS: [&[u8]; 13] = [
    b"",
    b"   ",
    b"x  ",
    b" x\"  ",
    b"0123456789012345678901234567890123456789  ",
    b"\x1b  ",
    b"\x1b[1m",
    b"\xa0",
    b"\xa1",
    b"0123456789012345678901234567890123456789",
    b"01234567890123456789012345678901234567890",
    b"01234567890123456789012345678901234567890\x7f",
    b"\"\"\"\"\"\"\"\"\"\"\"\"\"\"\"\"\"\"\"\"\"\"\"\"\"\"\"\"\"\"\"\"\"\"\"\"\"\"\"\"",
];

pub fn compare_forms(
    pair: Pair<'_>,
    tally: &mut Tally,
    random: &mut Random,
    file: &[u8],
    answer: Refusal,
) -> Result<(), Difference> {
    let mut forms = Forms {
        pair,
        tally,
        random,
        file,
        answer,
        ample: file.len() * 2 + 1024,
    };
    if answer.is_sound() {
        forms.sound_file()
    } else {
        forms.refused_file()
    }
}

struct Forms<'a> {
    pair: Pair<'a>,
    tally: &'a mut Tally,
    random: &'a mut Random,
    file: &'a [u8],
    answer: Refusal,
    ample: usize,
}

impl Forms<'_> {
    /// "Only a file with verdict 0 is written; else its verdict is given."
    fn refused_file(&mut self) -> Result<(), Difference> {
        let refused = [
            self.write()?.err(),
            self.strip()?.err(),
            self.fill(At::new(1, 1, 2), b"neu")?.err(),
            self.fill(At::new(0, 0, 0), b"")?.err(),
        ];
        law(
            refused == [Some(self.answer); 4],
            &"write, strip, fill: a refused file's verdict is given",
        )
    }

    fn sound_file(&mut self) -> Result<(), Difference> {
        let model = model_of(self.pair.subject, self.file);
        law(model.is_some(), &"a sound file hands out every value")?;
        let Some(model) = model else {
            return Ok(());
        };
        let written = self.write()?;
        self.is_form_of("write", &written, &model)?;
        let stripped = self.strip()?;
        self.is_form_of("strip", &stripped, &model.stripped())?;
        self.fill_places(&model)
    }

    fn write(&mut self) -> Result<Result<Vec<u8>, Refusal>, Difference> {
        let file = self.file;
        let run = move |library: &dyn Library, out: &mut [u8]| library.write(file, out);
        lend_all_ways(self.pair, self.tally, &"write", self.ample, &run)
    }

    fn strip(&mut self) -> Result<Result<Vec<u8>, Refusal>, Difference> {
        let file = self.file;
        let run = move |library: &dyn Library, out: &mut [u8]| library.strip(file, out);
        lend_all_ways(self.pair, self.tally, &"strip", self.ample, &run)
    }

    fn fill(&mut self, at: At, text: &[u8]) -> Result<Result<Vec<u8>, Refusal>, Difference> {
        let file = self.file;
        let run = move |library: &dyn Library, out: &mut [u8]| library.fill(file, at, text, out);
        let call = format!("{} with {}", Call("fill", at), text.escape_ascii());
        lend(self.pair, self.tally, &call, self.ample, &run)
    }

    /// A form is the printed one, is accepted, says what it was printed from,
    /// and is written again unchanged.
    fn is_form_of(
        &mut self,
        call: &str,
        put: &Result<Vec<u8>, Refusal>,
        model: &Model,
    ) -> Result<(), Difference> {
        let subject = self.pair.subject;
        let printed = form(model);
        law(
            put.as_ref() == Ok(&printed),
            &format_args!("{call}: the form printed from what the file says"),
        )?;
        law(
            subject.check(&printed).is_sound(),
            &format_args!("{call}: the form is accepted"),
        )?;
        law(
            model_of(subject, &printed).as_ref() == Some(model),
            &format_args!("{call}: the form says what it is printed from"),
        )?;
        let file = &printed;
        let run = move |library: &dyn Library, out: &mut [u8]| library.write(file, out);
        let call = &format_args!("{call}, written again");
        let again = lend(self.pair, self.tally, call, printed.len(), &run)?;
        law(
            again.as_ref() == Ok(&printed),
            &format_args!("{call}: unchanged"),
        )
    }

    fn fill_places(&mut self, model: &Model) -> Result<(), Difference> {
        let mut first = true;
        for at in self.places(model) {
            let text = self.draw_text();
            let own = texts::unpadded(text.clone());
            let filled = self.fill(at, &text)?;
            law(
                filled.is_ok() == (model.fillable().contains(&at) && !own.is_empty()),
                &format_args!("{}: just the empty texts can be filled", Call("fill", at)),
            )?;
            if filled.is_ok() {
                let model = model.filled(at, &own);
                self.is_form_of(&Call("fill", at).to_string(), &filled, &model)?;
                if first {
                    self.fill_odd(at)?;
                    first = false;
                }
            }
        }
        Ok(())
    }

    /// "a fill's text is trimmed likewise": some are padded.
    fn draw_text(&mut self) -> Vec<u8> {
        let mut text = texts::any(self.random, false, 12);
        if self.random.percent(40) {
            text.resize(12 + self.random.below(40), b' ');
        }
        text
    }

    /// Every text that can be filled, a draw of the other fields, and places
    /// beside them.
    fn places(&mut self, model: &Model) -> Vec<At> {
        let mut places = model.fillable();
        let (mut taken, mut others) = (Vec::new(), Vec::new());
        for (index, content) in model.tables.iter().enumerate() {
            let (records, width) = (content.records.len(), content.table.columns.len());
            for place in 0..records * width {
                let at = At::new(index + 1, place / width + 1, place % width + 1);
                let may_fill = content.table.markable == Some(at.field);
                let list = if may_fill { &mut taken } else { &mut others };
                list.push(at);
            }
            others.push(At::new(index + 1, records + 1, 1));
            others.push(At::new(index + 1, 1, width + 1));
        }
        taken.retain(|at| !places.contains(at));
        self.random.shuffle(&mut taken);
        self.random.shuffle(&mut others);
        places.extend(taken.into_iter().take(TAKEN));
        places.extend(others.into_iter().take(OTHERS));
        places.extend([
            At::new(0, 1, 2),
            At::new(1, 0, 2),
            At::new(1, 1, 0),
            At::new(usize::MAX, usize::MAX, usize::MAX),
        ]);
        places
    }

    /// Texts that are refused or only just pass, and room that only just does.
    fn fill_odd(&mut self, at: At) -> Result<(), Difference> {
        for text in TEXTS {
            self.fill(at, text)?.ok();
        }
        let (file, text) = (self.file, b"neu; \"x\"");
        let run = move |library: &dyn Library, out: &mut [u8]| library.fill(file, at, text, out);
        let call = Call("fill", at);
        let filled = lend_all_ways(self.pair, self.tally, &call, self.ample, &run)?;
        law(
            filled.is_ok(),
            &format_args!("{call}: another text fits too"),
        )
    }
}
