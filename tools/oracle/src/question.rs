//! A line of docs/REPLAY.md taken apart: a word and numbers, parted by tabs.

const LONGEST_LINE: usize = 128;
const MOST_DIGITS: usize = 10;

pub struct Question<'a> {
    pub word: &'a str,
    pub numbers: Vec<i64>,
}

impl<'a> Question<'a> {
    /// None of a line that is no word and numbers: what a bad line is, is not for the Rust to say.
    pub fn parse(line: &'a [u8]) -> Option<Self> {
        if line.len() > LONGEST_LINE {
            return None;
        }
        let mut fields = std::str::from_utf8(line).ok()?.split('\t');
        let word = fields.next()?;
        let numbers = fields.map(number).collect::<Option<_>>()?;
        Some(Question { word, numbers })
    }
}

/// Digits after an optional minus. A minus before 0 is left out too: it stands or not by the field's type.
fn number(field: &str) -> Option<i64> {
    let digits = field.strip_prefix('-').unwrap_or(field);
    if digits.len() > MOST_DIGITS || !digits.bytes().all(|byte| byte.is_ascii_digit()) {
        return None;
    }
    let value = field.parse().ok()?;
    (value != 0 || digits == field).then_some(value)
}
