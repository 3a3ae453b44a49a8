//! What a word, a sheet, a score and a title may be: the same in a table's column and in an argument.

/// The scope's limits, which the core keeps too. They are named here to tell a fault in the table's own terms, with its line.
pub const MAX_SHEET: u32 = 16_777_215;
pub const MAX_SHEETS_OF_A_WORD: usize = 6_400;
pub const MAX_WORDS: usize = 1_024;
pub const MAX_SHELF: usize = 1_048_576;
pub const MAX_K: u8 = 100;
pub const MAX_QUERY_WORDS: usize = 8;

pub fn sheet(text: &str) -> Result<u32, String> {
    let number = decimal(text).and_then(|number| u32::try_from(number).ok());
    match number {
        Some(number @ 1..=MAX_SHEET) => Ok(number),
        _ => Err(format!("sheet {} is not 1 to {MAX_SHEET}", shown(text))),
    }
}

pub fn score(text: &str) -> Result<u16, String> {
    let number = decimal(text).and_then(|number| u16::try_from(number).ok());
    match number {
        Some(number @ 1..) => Ok(number),
        _ => Err(format!("score {} is not 1 to {}", shown(text), u16::MAX)),
    }
}

/// How many hits are wanted.
pub fn k(text: &str) -> Result<u8, String> {
    let number = decimal(text).and_then(|number| u8::try_from(number).ok());
    match number {
        Some(number @ 1..=MAX_K) => Ok(number),
        _ => Err(format!("{} is not 1 to {MAX_K}", shown(text))),
    }
}

/// `WORD=N`. The last `=` parts them, since a word may hold one.
pub fn weight(text: &str) -> Result<(String, u8), String> {
    let (word, number) = text.rsplit_once('=').ok_or("a weight is written WORD=N")?;
    let weight = decimal(number).and_then(|number| u8::try_from(number).ok());
    match weight {
        Some(weight @ 1..) => Ok((word.to_string(), weight)),
        _ => Err(format!("weight {} is not 1 to {}", shown(number), u8::MAX)),
    }
}

/// A word is compared byte for byte. Blanks and control characters, which a reader does not see, and a leading `#`, which begins a comment in a table,
/// are kept out, so that every table that `dump` writes can be read again.
pub fn word(text: &str) -> Result<String, String> {
    match text {
        "" => Err("the word is empty".to_string()),
        _ if text.starts_with('#') => Err(format!("the word {text:?} begins with #")),
        _ if text.chars().any(|c| c.is_whitespace() || c.is_control()) => {
            Err(format!("the word {text:?} has a blank or a control character"))
        }
        _ => Ok(text.to_string()),
    }
}

/// A title is one line without tabs; an empty one is none.
pub fn title(text: &str) -> Result<String, String> {
    if text.chars().any(char::is_control) {
        return Err(format!("the title {text:?} has a control character"));
    }
    Ok(text.to_string())
}

/// Digits only: no sign, no blank.
fn decimal(text: &str) -> Option<u64> {
    is_digits(text).then(|| text.parse().ok()).flatten()
}

fn is_digits(text: &str) -> bool {
    !text.is_empty() && text.bytes().all(|byte| byte.is_ascii_digit())
}

/// What is no number is quoted, so that it can be seen in a message.
fn shown(text: &str) -> String {
    if is_digits(text) {
        text.to_string()
    } else {
        format!("{text:?}")
    }
}

/// `1 word`, `2 words`.
pub fn counted(count: usize, thing: &str) -> String {
    let plural = if count == 1 { "" } else { "s" };
    format!("{count} {thing}{plural}")
}
