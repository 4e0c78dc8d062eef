//! The words of a line: splitting, numbers, hex digits, quoted text, namespaces.

use varpolicy::{MAX_PIECE, Namespace};

/// The words of a line, without the blanks around them and without a comment. A note is all of its line.
pub fn statement(line: &str) -> &str {
    let line = line.trim();
    if is_note(line) { line } else { without_comment(line).trim_end() }
}

/// Whether a line's first word is `note`.
pub fn is_note(line: &str) -> bool {
    line.split_whitespace().next() == Some("note")
}

/// The line up to a comment that begins with `;` or `//` outside of quotes.
fn without_comment(line: &str) -> &str {
    let mut quoted = false;
    let mut escaped = false;
    for (place, character) in line.char_indices() {
        match character {
            _ if escaped => escaped = false,
            '\\' if quoted => escaped = true,
            '"' => quoted = !quoted,
            ';' if !quoted => return &line[..place],
            '/' if !quoted && line[place..].starts_with("//") => return &line[..place],
            _ => {}
        }
    }
    line
}

/// The words of a line, split at blanks outside of quotes.
pub fn words(line: &str) -> Vec<&str> {
    let mut words = Vec::new();
    let mut start = None;
    let mut quoted = false;
    let mut escaped = false;
    for (place, character) in line.char_indices() {
        if character.is_whitespace() && !quoted {
            words.extend(start.take().map(|start| &line[start..place]));
            continue;
        }
        start.get_or_insert(place);
        match character {
            _ if escaped => escaped = false,
            '\\' if quoted => escaped = true,
            '"' => quoted = !quoted,
            _ => {}
        }
    }
    words.extend(start.map(|start| &line[start..]));
    words
}

/// A number, decimal or after 0x hexadecimal.
pub fn number(word: &str) -> Option<u32> {
    match word.strip_prefix("0x") {
        Some(digits) => u32::from_str_radix(digits, 16).ok(),
        None => word.parse().ok(),
    }
}

/// How many bytes a piece of a dump is to have.
pub fn piece(word: &str) -> Option<usize> {
    number(word).map(|number| number as usize).filter(|number| (1..=MAX_PIECE).contains(number))
}

/// The bytes of an even number of hex digits.
pub fn hex(digits: &str) -> Option<Vec<u8>> {
    if !digits.len().is_multiple_of(2) || !digits.bytes().all(|digit| digit.is_ascii_hexdigit()) {
        return None;
    }
    (0..digits.len()).step_by(2).map(|at| u8::from_str_radix(&digits[at..at + 2], 16).ok()).collect()
}

/// The units of a text in quotes, with `\"`, `\\` and `\uXXXX`.
pub fn quoted(word: &str) -> Option<Vec<u16>> {
    let inner = word.strip_prefix('"')?.strip_suffix('"')?;
    let mut units = Vec::new();
    let mut characters = inner.chars();
    while let Some(character) = characters.next() {
        match character {
            '\\' => match characters.next()? {
                'u' => {
                    let digits: String = characters.by_ref().take(4).collect();
                    let unit = hex(&digits).filter(|bytes| bytes.len() == 2)?;
                    units.push(u16::from_be_bytes([unit[0], unit[1]]));
                }
                plain @ ('"' | '\\') => units.push(plain as u16),
                _ => return None,
            },
            '"' => return None,
            _ => units.extend(character.encode_utf16(&mut [0; 2]).iter()),
        }
    }
    Some(units)
}

/// A namespace as a GUID (its first three groups are little-endian numbers) or as 32 hex digits in order.
pub fn namespace(word: &str) -> Option<Namespace> {
    let groups: Vec<&str> = word.split('-').collect();
    if let [digits] = groups.as_slice() {
        return hex(digits)?.try_into().ok();
    }
    if groups.iter().map(|group| group.len()).ne([8, 4, 4, 4, 12]) {
        return None;
    }
    let mut bytes = Vec::new();
    for (place, group) in groups.iter().enumerate() {
        let mut group = hex(group)?;
        if place < 3 {
            group.reverse();
        }
        bytes.extend(group);
    }
    bytes.try_into().ok()
}

/// Bytes as hex digits with blanks between them.
pub fn spaced_hex(bytes: &[u8]) -> String {
    let bytes: Vec<String> = bytes.iter().map(|byte| format!("{byte:02X}")).collect();
    bytes.join(" ")
}

#[cfg(test)]
mod tests {
    use super::*;

    #[test]
    fn words_keep_quoted_blanks() {
        assert_eq!(words(r#" set G "a b" NV|BS  01 "#), ["set", "G", r#""a b""#, "NV|BS", "01"]);
        assert_eq!(words(r#"trigger=G:"x \" y" z"#), [r#"trigger=G:"x \" y""#, "z"]);
    }

    #[test]
    fn comments_begin_outside_of_quotes() {
        assert_eq!(without_comment(r#"read G "a;b//c" ; d"#), r#"read G "a;b//c" "#);
        assert_eq!(without_comment("lock // d"), "lock ");
        assert_eq!((statement(" lock // d"), statement("; note d")), ("lock", ""));
    }

    #[test]
    fn notes_have_no_comment() {
        let note = "note see https://uefi.org; \"quoted // text";
        assert_eq!(statement(&format!("  {note} ")), note);
        assert_eq!((statement("note"), statement("notes ; d")), ("note", "notes"));
    }

    #[test]
    fn names_and_namespaces() {
        assert_eq!(quoted(r#""A\u0000\"""#), Some(vec![0x41, 0, 0x22]));
        assert_eq!(quoted(r#""A"#), None);
        let guid = namespace("81D1675C-86F6-48DF-BD95-9A6E4F0925C3");
        assert_eq!(guid, namespace("5C67D181F686DF48BD959A6E4F0925C3"));
        assert!(guid.is_some());
        assert_eq!(namespace("81D1675C-86F6-48DF-BD95"), None);
    }

    #[test]
    fn numbers() {
        assert_eq!((number("12"), number("0x1f"), number("x")), (Some(12), Some(31), None));
        assert_eq!(["0", "1", "4096", "4097", "x"].map(piece), [None, Some(1), Some(4096), None, None]);
        assert_eq!((hex("00fF"), hex("0"), hex("+1")), (Some(vec![0, 255]), None, None));
    }
}
