//! Words that the lines of calls and of listings share: numbers, hexadecimal and lists.

use crate::env::EVENTS;
use std::fmt::{Display, Write};

/// An event number: decimal without leading zeros, below 1,024.
pub fn event(word: &[u8]) -> Option<u16> {
    let digits = word.iter().all(u8::is_ascii_digit);
    if !digits || word.len() > 4 || word.len() > 1 && word[0] == b'0' {
        return None;
    }
    let number: u16 = std::str::from_utf8(word).ok()?.parse().ok()?;
    (usize::from(number) < EVENTS).then_some(number)
}

/// The numbers joined by commas, `-` for none.
pub fn list<T: Display>(numbers: impl IntoIterator<Item = T>) -> String {
    let words: Vec<String> = numbers.into_iter().map(|number| number.to_string()).collect();
    if words.is_empty() {
        "-".to_string()
    } else {
        words.join(",")
    }
}

/// Lowercase hexadecimal, two digits a byte, read into bytes; `-` for none.
pub fn read_hex(word: &[u8]) -> Option<Vec<u8>> {
    if word == b"-" {
        return Some(vec![]);
    }
    if word.is_empty() || word.len() % 2 == 1 {
        return None;
    }
    word.chunks(2).map(|pair| Some(16 * hex_digit(pair[0])? + hex_digit(pair[1])?)).collect()
}

fn hex_digit(digit: u8) -> Option<u8> {
    match digit {
        b'0'..=b'9' => Some(digit - b'0'),
        b'a'..=b'f' => Some(digit - b'a' + 10),
        _ => None,
    }
}

/// Bytes as lowercase hexadecimal, `-` for none.
pub fn hex(bytes: &[u8]) -> String {
    if bytes.is_empty() {
        return "-".to_string();
    }
    bytes.iter().fold(String::with_capacity(2 * bytes.len()), |mut text, byte| {
        write!(text, "{byte:02x}").expect("a string takes all");
        text
    })
}

/// 16-bit numbers as the bytes of a row.
pub fn row_bytes(row: &[u16]) -> Vec<u8> {
    row.iter().flat_map(|number| number.to_be_bytes()).collect()
}

/// The lines of a text: each ends in a newline; a last one without it counts if it has a byte.
pub fn each_line(
    mut input: impl std::io::BufRead,
    mut take: impl FnMut(&[u8]) -> std::io::Result<()>,
) -> std::io::Result<()> {
    let mut line = Vec::new();
    while input.read_until(b'\n', &mut line)? > 0 {
        take(line.strip_suffix(b"\n").unwrap_or(&line))?;
        line.clear();
    }
    Ok(())
}

#[cfg(test)]
mod tests {
    use super::*;

    #[test]
    fn event_numbers() {
        for (word, number) in [("0", Some(0)), ("7", Some(7)), ("256", Some(256)), ("1023", Some(1023)), ("1024", None)]
        {
            assert_eq!(event(word.as_bytes()), number, "{word}");
        }
        for word in
            ["", "00", "01", "0256", "+1", "-", "1\r", "\t1", " ", "0x1", "1030", "9999", "10000", "65536", "\0"]
        {
            assert_eq!(event(word.as_bytes()), None, "{word:?}");
        }
    }

    #[test]
    fn hexadecimal() {
        assert_eq!(read_hex(b"-"), Some(vec![]));
        assert_eq!(read_hex(b"00ff1a"), Some(vec![0, 255, 26]));
        for word in ["", "0", "0F", "g0", "--", "00 "] {
            assert_eq!(read_hex(word.as_bytes()), None, "{word:?}");
        }
        assert_eq!(hex(&[]), "-");
        assert_eq!(hex(&[0, 255, 26]), "00ff1a");
    }

    #[test]
    fn lines_of_a_text() {
        let lines = |text: &str| {
            let mut found = vec![];
            each_line(text.as_bytes(), |line| {
                found.push(String::from_utf8_lossy(line).into_owned());
                Ok(())
            })
            .unwrap();
            found
        };
        assert_eq!(lines(""), Vec::<String>::new());
        assert_eq!(lines("0\n"), ["0"]);
        assert_eq!(lines("\n"), [""]);
        assert_eq!(lines("0\n\n"), ["0", ""]);
        assert_eq!(lines("0\n1"), ["0", "1"]);
    }
}
