//! Text as JSON.

/// A text in quotes. What would control a terminal is escaped already.
pub fn string(text: &str) -> String {
    let mut out = String::from('"');
    for letter in text.chars() {
        match letter {
            '"' | '\\' => out.extend(['\\', letter]),
            '\0'..='\x1f' => out.push_str(&format!("\\u{:04x}", letter as u32)),
            _ => out.push(letter),
        }
    }
    out.push('"');
    out
}

#[cfg(test)]
mod tests {
    use super::string;

    #[test]
    fn quotes_and_controls_are_escaped() {
        assert_eq!(string("a"), r#""a""#);
        assert_eq!(string("a\"b\\c\nd"), r#""a\"b\\c\u000ad""#);
        assert_eq!(string("caf\u{e9}"), "\"caf\u{e9}\"");
    }
}
