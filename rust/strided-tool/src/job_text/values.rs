//! The values of a job's text: numbers and lists of them.

use std::str::FromStr;

/// A list with commas, in brackets or without.
pub fn list<T: FromStr>(value: &str, entry: &str) -> Result<Vec<T>, String> {
    let inside = unbracketed(value)?;
    if inside.is_empty() {
        return Ok(Vec::new());
    }
    inside
        .split(',')
        .map(|text| number(text.trim(), entry))
        .collect()
}

fn unbracketed(value: &str) -> Result<&str, String> {
    match (value.strip_prefix('['), value.ends_with(']')) {
        (None, false) => Ok(value),
        (Some(rest), true) => Ok(rest.strip_suffix(']').unwrap_or(rest).trim()),
        _ => Err(format!("`{value}` has one bracket of two")),
    }
}

/// A number; `what` says which numbers are meant.
pub fn number<T: FromStr>(text: &str, what: &str) -> Result<T, String> {
    if text.is_empty() {
        return Err(format!("an entry is empty; give {what}"));
    }
    let hint = if text.contains(char::is_whitespace) {
        "; entries are separated by commas"
    } else {
        ""
    };
    text.parse()
        .map_err(|_| format!("`{text}` is not {what}{hint}"))
}
