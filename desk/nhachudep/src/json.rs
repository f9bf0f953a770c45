//! Answers for machines.

use std::fmt::{self, Display, Formatter, Write};

#[derive(Clone, Debug, PartialEq, Eq)]
pub enum Json {
    Null,
    Bool(bool),
    Number(u64),
    Text(String),
    List(Vec<Json>),
    Object(Vec<(&'static str, Json)>),
}

impl Json {
    pub fn text(text: impl Into<String>) -> Json {
        Json::Text(text.into())
    }

    pub fn size(number: usize) -> Json {
        Json::Number(number as u64)
    }

    pub fn list(items: impl IntoIterator<Item = Json>) -> Json {
        Json::List(items.into_iter().collect())
    }
}

impl Display for Json {
    fn fmt(&self, out: &mut Formatter<'_>) -> fmt::Result {
        match self {
            Json::Null => out.write_str("null"),
            Json::Bool(value) => write!(out, "{value}"),
            Json::Number(number) => write!(out, "{number}"),
            Json::Text(text) => put_text(out, text),
            Json::List(items) => put_list(out, items),
            Json::Object(members) => put_object(out, members),
        }
    }
}

fn put_text(out: &mut Formatter<'_>, text: &str) -> fmt::Result {
    out.write_char('"')?;
    for character in text.chars() {
        match character {
            '"' | '\\' => write!(out, "\\{character}")?,
            '\0'..='\x1f' | '\x7f'..='\u{a0}' => write!(out, "\\u{:04x}", u32::from(character))?,
            _ => out.write_char(character)?,
        }
    }
    out.write_char('"')
}

fn put_list(out: &mut Formatter<'_>, items: &[Json]) -> fmt::Result {
    out.write_char('[')?;
    for (index, item) in items.iter().enumerate() {
        write!(out, "{}{item}", if index > 0 { "," } else { "" })?;
    }
    out.write_char(']')
}

fn put_object(out: &mut Formatter<'_>, members: &[(&str, Json)]) -> fmt::Result {
    out.write_char('{')?;
    for (index, (name, value)) in members.iter().enumerate() {
        write!(
            out,
            "{}\"{name}\":{value}",
            if index > 0 { "," } else { "" }
        )?;
    }
    out.write_char('}')
}

#[cfg(test)]
mod tests {
    use super::*;

    #[test]
    fn values() {
        let json = Json::Object(vec![
            (
                "a",
                Json::list([Json::Number(1), Json::Null, Json::Bool(true)]),
            ),
            ("b", Json::Object(Vec::new())),
        ]);
        assert_eq!(json.to_string(), r#"{"a":[1,null,true],"b":{}}"#);
    }

    #[test]
    fn texts_are_escaped() {
        let text = Json::text("\"ruhig\" \\ \u{1b}\n\u{9b} für");
        assert_eq!(text.to_string(), r#""\"ruhig\" \\ \u001b\u000a\u009b für""#);
    }
}
