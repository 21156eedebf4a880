//! Cells as people write them: `0, Str 2, f/2, Var 3, Fixnum -1, a, [], '.'/2, Lis 5`. The word 0
//! is `0`; any other word may be given as `0x` and sixteen digits.

use crate::case::Call;
use crate::word::{self, Kind, NIL, kind_of};

pub fn parse_cells(text: &str) -> Result<Vec<u64>, String> {
    text.split(',')
        .map(|part| parse_cell(part.trim()))
        .collect()
}

fn parse_cell(text: &str) -> Result<u64, String> {
    let wrong = || format!("not a cell: {text}");
    if text == "0" {
        return Ok(0);
    }
    if let Some(digits) = text.strip_prefix("0x") {
        return u64::from_str_radix(digits, 16).map_err(|_| wrong());
    }
    if let Some((kind, number)) = text.split_once(' ') {
        let number: i64 = number.trim().parse().map_err(|_| wrong())?;
        return match kind {
            "Var" => Ok(word::var(number as usize)),
            "Str" => Ok(word::str(number as usize)),
            "Lis" => Ok(word::lis(number as usize)),
            "Fixnum" => Ok(word::fixnum(number)),
            _ => Err(wrong()),
        };
    }
    match text.rsplit_once('/') {
        Some((name, arity)) if !name.is_empty() => {
            let arity: u8 = arity.parse().map_err(|_| wrong())?;
            Ok(word::functor(
                parse_name(name).ok_or_else(wrong)?,
                arity.into(),
            ))
        }
        _ => Ok(word::atom(parse_name(text).ok_or_else(wrong)?)),
    }
}

/// `[]`, one character, one character in quotes, or `c` and a number.
fn parse_name(text: &str) -> Option<u32> {
    if text == "[]" {
        return Some(NIL);
    }
    let quoted = text.strip_prefix('\'').and_then(|t| t.strip_suffix('\''));
    let inner = quoted.unwrap_or(text);
    let mut characters = inner.chars();
    match (characters.next(), characters.next()) {
        (Some(c), None) => Some(c as u32),
        (Some('c'), Some(_)) if quoted.is_none() => inner[1..].parse().ok(),
        _ => None,
    }
}

pub fn show_cells(cells: &[u64]) -> String {
    let shown: Vec<String> = cells.iter().map(|&w| show_cell(w)).collect();
    shown.join(", ")
}

fn show_cell(word: u64) -> String {
    match kind_of(word) {
        None if word == 0 => "0".into(),
        None => format!("{word:#018x}"),
        Some(Kind::Var(at)) => format!("Var {at}"),
        Some(Kind::Str(at)) => format!("Str {at}"),
        Some(Kind::Lis(at)) => format!("Lis {at}"),
        Some(Kind::Fixnum(n)) => format!("Fixnum {n}"),
        Some(Kind::Atom { name, arity }) => {
            let shown = match u8::try_from(name) {
                Ok(c) if c.is_ascii_lowercase() => char::from(c).to_string(),
                _ => crate::canon::name_text(name),
            };
            match arity {
                0 => shown,
                _ => format!("{shown}/{arity}"),
            }
        }
    }
}

/// `plain A B`, `checked A B`, `copy ROOT` or `cyclic ROOT`.
pub fn parse_call(words: &[&str]) -> Option<Call> {
    let roots: Option<Vec<usize>> = words.get(1..)?.iter().map(|w| w.parse().ok()).collect();
    match (words[0], roots?.as_slice()) {
        ("plain", &[a, b]) => Some(Call::Plain(a, b)),
        ("checked", &[a, b]) => Some(Call::Checked(a, b)),
        ("copy", &[root]) => Some(Call::Copy(root)),
        ("cyclic", &[root]) => Some(Call::Cyclic(root)),
        _ => None,
    }
}

pub fn show_call(call: Call) -> String {
    match call {
        Call::Plain(a, b) => format!("plain {a} {b}"),
        Call::Checked(a, b) => format!("checked {a} {b}"),
        Call::Copy(root) => format!("copy {root}"),
        Call::Cyclic(root) => format!("cyclic {root}"),
    }
}
