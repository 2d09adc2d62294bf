//! Bytes and words in the lines of records and queries: upper-case hex, `-` for none.

pub fn bytes(bytes: &[u8]) -> String {
    words(bytes, 2)
}

/// Words of so many digits each.
pub fn words<T: Copy + Into<u32>>(words: &[T], digits: usize) -> String {
    if words.is_empty() {
        return "-".to_string();
    }
    let digits = |&word: &T| format!("{:0digits$X}", word.into());
    words.iter().map(digits).collect()
}

/// The words of a text, nothing where it is none of so many digits each.
pub fn read<T: TryFrom<u32>>(text: &str, digits: usize) -> Option<Vec<T>> {
    if text == "-" {
        return Some(Vec::new());
    }
    if !text.is_ascii() || !text.len().is_multiple_of(digits) {
        return None;
    }
    let word = |at: usize| {
        let word = u32::from_str_radix(&text[at..at + digits], 16).ok()?;
        T::try_from(word).ok()
    };
    (0..text.len()).step_by(digits).map(word).collect()
}
