//! `write`, `fill`, `strip`: forms put out.

use std::path::Path;

use vdv::{form_of, number, tables, At, Refusal};

use super::Work;
use crate::advice::{self, Advice, Fate};
use crate::arguments::Change;
use crate::input::Source;
use crate::json::Json;
use crate::latin::Argument;
use crate::names::{is_printed, Name};
use crate::output::{target, Destination};
use crate::place::Place;
use crate::refusals;
use crate::trouble::{Outcome, Trouble};

pub fn put_out(
    work: &mut Work<'_, '_>,
    source: &Source,
    change: &Change,
    destination: &Destination,
) -> Result<Outcome, Trouble> {
    let target = target(source, destination)?;
    let (file, held) = read(source, destination)?;
    let advice = advice::of(&file);
    let form = match form(&file, change) {
        Ok(form) => form,
        Err(refusal) => {
            refuse(work, source, &file, change, refusal, &advice)?;
            return Ok(Outcome::Refused);
        }
    };
    if work.outcome(true, &advice) == Outcome::Advised {
        hold_back(work, source, &advice)?;
        return Ok(Outcome::Advised);
    }
    if !work.json {
        advice::tell(work.outlets, source, &advice, Fate::Goes)?;
    }
    let Some(target) = target else {
        work.outlets.put(&form)?;
        return Ok(Outcome::Fine);
    };
    let place = held.map_or_else(|| Place::find(&target), Ok);
    let put = place.and_then(|place| place.put(&form));
    put.map_err(|error| Trouble::with(Name::of(&target), &error))?;
    if work.json {
        answer_put(work, source, &target, form.len(), &advice)?;
    }
    Ok(Outcome::Fine)
}

fn answer_put(
    work: &mut Work<'_, '_>,
    source: &Source,
    target: &Path,
    length: usize,
    advice: &[Advice<'_>],
) -> Result<(), Trouble> {
    let mut members = refusals::members(source, Refusal::SOUND);
    members.push(("out", Json::text(target.display().to_string())));
    members.push(("bytes", Json::size(length)));
    members.push(advice::member(advice, Fate::Goes));
    let object = Json::Object(members);
    work.outlets.print(&format_args!("{object}\n"))
}

/// The file, and its place, held from before it is read if it is the one to be
/// replaced.
fn read(source: &Source, destination: &Destination) -> Result<(Vec<u8>, Option<Place>), Trouble> {
    match (source, destination) {
        (Source::Path(path), Destination::InPlace) => {
            let held = Place::find(path).and_then(|mut place| Ok((place.read()?, Some(place))));
            held.map_err(|error| Trouble::with(source, &error))
        }
        _ => Ok((source.read()?, None)),
    }
}

/// With --strict nothing is put out where there is advice.
fn hold_back(
    work: &mut Work<'_, '_>,
    source: &Source,
    advice: &[Advice<'_>],
) -> Result<(), Trouble> {
    if work.json {
        let mut members = refusals::members(source, Refusal::SOUND);
        members.push(("out", Json::Null));
        members.push(advice::member(advice, Fate::Stays));
        let object = Json::Object(members);
        return work.outlets.print(&format_args!("{object}\n"));
    }
    advice::tell(work.outlets, source, advice, Fate::Stays)?;
    work.outlets.note(&format_args!(
        "{source}: nothing is put out, for --strict is given\n"
    ));
    Ok(())
}

fn form(file: &[u8], change: &Change) -> Result<Vec<u8>, Refusal> {
    form_of(|out| match change {
        Change::None => vdv::write(file, out),
        Change::Strip => vdv::strip(file, out),
        Change::Fill(at, text) => {
            let filled = vdv::fill(file, *at, &text.bytes, out);
            // The byte in a foreign character's stead is allowed nowhere.
            match text.foreign {
                Some(_) => filled.and(Err(Refusal::placeless(number::BYTE))),
                None => filled,
            }
        }
    })
}

fn refuse(
    work: &mut Work<'_, '_>,
    source: &Source,
    file: &[u8],
    change: &Change,
    refusal: Refusal,
    advice: &[Advice<'_>],
) -> Result<(), Trouble> {
    if work.json {
        let mut members = refusals::members(source, refusal);
        members.push(advice::member(advice, Fate::Stays));
        let object = Json::Object(members);
        return work.outlets.print(&format_args!("{object}\n"));
    }
    refusals::tell(work.outlets, source, file, refusal);
    if let Change::Fill(at, text) = change {
        if let Some(note) = explain_fill(file, *at, text, refusal) {
            work.outlets.note(&format_args!("       = {note}\n"));
        }
    }
    Ok(())
}

fn explain_fill(file: &[u8], at: At, text: &Argument, refusal: Refusal) -> Option<String> {
    if refusal == Refusal::placeless(number::BYTE) {
        let latin = vdv::header(file).is_ok_and(|header| header.latin);
        return Some(what_is_not_allowed(text, latin));
    }
    match refusal.number {
        number::MAY_NOT_FILL => what_may_be_filled(file, at),
        _ => None,
    }
}

/// "A fill goes on naming the column by its number in document 01's table",
/// which need not be the one that its mark has in the file.
fn what_may_be_filled(file: &[u8], at: At) -> Option<String> {
    let table = tables::numbered(vdv::section(file, at.section).ok()?.table)?;
    let name = |field: usize| Some(table.columns.get(field.checked_sub(1)?)?.name);
    let (asked, field) = (name(at.field)?, at.field);
    let may = match table.markable {
        Some(field) => format!("only {field} may be filled, {}", name(field)?),
        None => "none may be filled".to_owned(),
    };
    Some(format!("field {field} of {} is {asked}; {may}", table.name))
}

/// Which character of a text made it be refused by 4.
fn what_is_not_allowed(text: &Argument, latin: bool) -> String {
    let is_allowed = |byte: &u8| matches!(byte, 32..=126) || latin && *byte >= 161;
    let first = text.bytes.iter().find(|byte| !is_allowed(byte));
    let name = |character: char| {
        let code = u32::from(character);
        match is_printed(character) {
            true => format!("`{character}` (U+{code:04X})"),
            false => format!("U+{code:04X}"),
        }
    };
    match (first.map(|byte| char::from(*byte)), text.foreign) {
        (Some(character @ '\u{a1}'..), _) => {
            format!(
                "{} is not in the file's character set, ASCII",
                name(character)
            )
        }
        (_, Some(foreign)) => format!("{} is no character of ISO 8859-1", name(foreign)),
        (Some(character), None) => format!("{} may stand in no text", name(character)),
        (None, None) => "a byte may stand in no text".to_owned(),
    }
}

#[cfg(test)]
mod tests {
    use super::*;

    #[test]
    fn the_first_character_at_fault_is_named() {
        let note = |text, latin| what_is_not_allowed(&Argument::read(text), latin);
        assert_eq!(
            note("5 €", true),
            "`€` (U+20AC) is no character of ISO 8859-1"
        );
        assert_eq!(note("a\tb", true), "U+0009 may stand in no text");
        let ascii = "`ü` (U+00FC) is not in the file's character set, ASCII";
        assert_eq!(note("für 5 €", false), ascii);
    }
}
