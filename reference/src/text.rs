//! A block as text, for those who write blocks by hand: a line for each field of the file, in the
//! file's order and document 01's words, with lists as pairs `word*coefficient`.
//!
//! ```text
//! word 0 100 40 0 0         # lower upper key start slope
//! tempo 1 70 0*1            # weight target list
//! anchor 45 0*1             # value list
//! span 300 8000 0*-1 1*1    # lower upper list
//! cap 10
//! ```
//!
//! What follows `#` is a comment. The numbers only have to fit the field's bytes, and the fields
//! may stand in any order, so that a block that is refused can be written too. For a file that
//! isn't made of such fields there is `bytes`, with each byte as two hexadecimal digits.

use crate::block::{ANCHOR, CAP, Field, SPAN, TEMPO, WORD, fixed_bytes, has_list};
use std::fmt;
use std::str::FromStr;

/// A number of a body before its list.
#[derive(Clone, Copy)]
enum Width {
    /// 16 bits, without a sign.
    Short,
    /// 32 bits, signed.
    Long,
}

use Width::{Long, Short};

/// A field's tag, its word, and its numbers in the file's order.
type Kind = (u8, &'static str, &'static [(&'static str, Width)]);

const KINDS: [Kind; 5] = [
    (
        WORD,
        "word",
        &[
            ("lower", Long),
            ("upper", Long),
            ("key", Long),
            ("start", Long),
            ("slope", Long),
        ],
    ),
    (TEMPO, "tempo", &[("weight", Short), ("target", Long)]),
    (ANCHOR, "anchor", &[("value", Long)]),
    (SPAN, "span", &[("lower", Long), ("upper", Long)]),
    (CAP, "cap", &[("cap", Long)]),
];

/// The word of a line that has the bytes themselves.
const BYTES: &str = "bytes";

/// Why a text is no block's, and in which line, counted from 1.
#[derive(Debug, PartialEq, Eq)]
pub struct Mistake {
    pub line: usize,
    pub reason: String,
}

impl fmt::Display for Mistake {
    fn fmt(&self, f: &mut fmt::Formatter) -> fmt::Result {
        write!(f, "line {}: {}", self.line, self.reason)
    }
}

/// The file that a text describes.
pub fn make(text: &[u8]) -> Result<Vec<u8>, Mistake> {
    let mut bytes = Vec::new();
    for (number, line) in text.split(|&byte| byte == b'\n').enumerate() {
        append_line(line, &mut bytes).map_err(|reason| Mistake {
            line: number + 1,
            reason,
        })?;
    }
    Ok(bytes)
}

fn append_line(line: &[u8], bytes: &mut Vec<u8>) -> Result<(), String> {
    let code = line.split(|&byte| byte == b'#').next().unwrap_or(&[]);
    let code = str::from_utf8(code).map_err(|_| "not text".to_string())?;
    let mut items = code.split_whitespace();
    let Some(name) = items.next() else {
        return Ok(());
    };
    let items: Vec<&str> = items.collect();
    if name == BYTES {
        for item in items {
            bytes.push(byte(item)?);
        }
        return Ok(());
    }
    let Some(kind) = KINDS.iter().find(|kind| kind.1 == name) else {
        let names = KINDS.map(|kind| kind.1).join(", ");
        return Err(format!("'{name}' is none of {names} and {BYTES}"));
    };
    Field::new(kind.0, body(kind, &items)?).append_to(bytes);
    Ok(())
}

fn body((tag, name, numbers): &Kind, items: &[&str]) -> Result<Vec<u8>, String> {
    let list = has_list(*tag);
    let (found, wanted) = (items.len(), numbers.len());
    if found < wanted || (found > wanted && !list) {
        let names: Vec<&str> = numbers.iter().map(|number| number.0).collect();
        let (names, list) = (names.join(" "), if list { " list" } else { "" });
        return Err(format!(
            "'{name}' takes {names}{list}, and {found} are given"
        ));
    }
    let mut body = Vec::new();
    for ((name, width), item) in numbers.iter().zip(items) {
        match width {
            Short => body.extend(number::<u16>(name, item)?.to_le_bytes()),
            Long => body.extend(number::<i32>(name, item)?.to_le_bytes()),
        }
    }
    if list {
        let pairs = &items[wanted..];
        let count = u8::try_from(pairs.len()).map_err(|_| "a list of more than 255 pairs")?;
        body.push(count);
        for pair in pairs {
            let Some((word, coefficient)) = pair.split_once('*') else {
                return Err(format!("'{pair}' is no pair such as 0*-1"));
            };
            body.push(number::<u8>("word number", word)?);
            body.extend(number::<i8>("coefficient", coefficient)?.to_le_bytes());
        }
    }
    Ok(body)
}

/// A whole number that its bytes can hold.
fn number<N: FromStr>(name: &str, item: &str) -> Result<N, String> {
    let bits = 8 * size_of::<N>();
    item.parse()
        .map_err(|_| format!("{name}: '{item}' is no whole number, or has more than {bits} bits"))
}

fn byte(item: &str) -> Result<u8, String> {
    let digits = item.len() == 2 && item.bytes().all(|digit| digit.is_ascii_hexdigit());
    match u8::from_str_radix(item, 16) {
        Ok(byte) if digits => Ok(byte),
        _ => Err(format!("'{item}' is not two hexadecimal digits")),
    }
}

/// The text of a file, good or not. [`make`] gives the same file back.
pub fn show(file: &[u8]) -> String {
    let mut text = String::new();
    let mut words = 0;
    let mut rest = file;
    while let Some((line, tag, after)) = field_line(rest) {
        text += &line;
        if tag == WORD {
            text += &format!("  # {words}");
            words += 1;
        }
        text.push('\n');
        rest = after;
    }
    for row in rest.chunks(20) {
        let digits: Vec<String> = row.iter().map(|byte| format!("{byte:02x}")).collect();
        text += &format!("{BYTES} {}\n", digits.join(" "));
    }
    text
}

/// The line of the field at the front, its tag and what follows it, or nothing where no line but
/// that of its bytes describes it.
fn field_line(file: &[u8]) -> Option<(String, u8, &[u8])> {
    let [tag, low, high, after @ ..] = file else {
        return None;
    };
    let (tag, name, numbers) = KINDS.iter().find(|kind| kind.0 == *tag)?;
    let length = usize::from(u16::from_le_bytes([*low, *high]));
    let (body, rest) = after.split_at_checked(length)?;
    let (fixed, list) = body.split_at_checked(fixed_bytes(*tag))?;
    let pairs = match has_list(*tag) {
        true => usize::from(*fixed.last()?),
        false => 0,
    };
    if list.len() != 2 * pairs {
        return None;
    }
    let mut line = name.to_string();
    let mut fixed = fixed;
    for (_, width) in *numbers {
        let (number, after) = number_at_front(*width, fixed)?;
        line += &format!(" {number}");
        fixed = after;
    }
    for pair in list.chunks_exact(2) {
        line += &format!(" {}*{}", pair[0], pair[1] as i8);
    }
    Some((line, *tag, rest))
}

fn number_at_front(width: Width, body: &[u8]) -> Option<(i32, &[u8])> {
    match width {
        Short => {
            let (number, after) = body.split_first_chunk()?;
            Some((u16::from_le_bytes(*number).into(), after))
        }
        Long => {
            let (number, after) = body.split_first_chunk()?;
            Some((i32::from_le_bytes(*number), after))
        }
    }
}

#[cfg(test)]
mod tests {
    use super::*;
    use crate::block::{self, write};
    use crate::cases::known::{anchored, listed};

    #[test]
    fn known_blocks() {
        let text = "word 0 100 40 0 0  # 0\ntempo 1 70 0*1\ncap 10\n";
        assert_eq!(show(&write(&listed())), text);
        assert_eq!(make(text.as_bytes()), Ok(write(&listed())));
        let text = "# P3\n\n  word\t0 100 40 0 0\r\ntempo 1 70 0*1#\nanchor 45 0*1\ncap 100";
        assert_eq!(make(text.as_bytes()), Ok(write(&anchored())));
        assert_eq!(make(b""), Ok(Vec::new()));
    }

    /// The refusal of a text's block.
    fn refused(text: &str) -> u32 {
        block::read(&make(text.as_bytes()).unwrap()).unwrap_err()
    }

    #[test]
    fn refused_blocks_can_be_written() {
        let word = "word 0 100 40 0 0\n";
        for (text, refusal) in [
            ("bytes 01 14\n".to_string(), 1),
            (format!("{word}tempo 1 70\ncap 10\n"), 1),
            (format!("{word}tempo 1 70 0*1 0*1 0*1 0*1 0*1\ncap 10\n"), 1),
            ("bytes 06 00 00\n".to_string(), 2),
            (word.to_string(), 3),
            (format!("cap 10\n{word}"), 3),
            (format!("{}cap 10\n", word.repeat(33)), 4),
            ("word -1 100 40 0 0\ncap 10\n".to_string(), 5),
            (format!("{word}tempo 65 70 0*1\ncap 10\n"), 5),
            (format!("{word}tempo 1 70 0*-128\ncap 10\n"), 5),
            ("word 100 0 40 0 0\ncap 10\n".to_string(), 6),
            (format!("{word}anchor 45 255*1\ncap 10\n"), 7),
            (format!("{word}span 0 0 0*1 0*1\ncap 10\n"), 7),
        ] {
            assert_eq!(refused(&text), refusal, "{text}");
        }
    }

    #[test]
    fn mistakes_are_told() {
        let reason = |text: &[u8]| make(text).unwrap_err().to_string();
        assert_eq!(
            reason(b"word 0 100 40 0 0\n\ntempo 1 0*1\n"),
            "line 3: target: '0*1' is no whole number, or has more than 32 bits"
        );
        assert_eq!(
            reason(b"words 0 100 40 0 0"),
            "line 1: 'words' is none of word, tempo, anchor, span, cap and bytes"
        );
        assert_eq!(
            reason(b"word 0 100 40 0"),
            "line 1: 'word' takes lower upper key start slope, and 4 are given"
        );
        assert_eq!(
            reason(b"cap 10 20"),
            "line 1: 'cap' takes cap, and 2 are given"
        );
        assert_eq!(
            reason(b"tempo 65536 0 0*1"),
            "line 1: weight: '65536' is no whole number, or has more than 16 bits"
        );
        assert_eq!(
            reason(b"anchor 5 0*1 1x2"),
            "line 1: '1x2' is no pair such as 0*-1"
        );
        assert_eq!(
            reason(b"anchor 5 256*1"),
            "line 1: word number: '256' is no whole number, or has more than 8 bits"
        );
        assert_eq!(
            reason(b"anchor 5 0*128"),
            "line 1: coefficient: '128' is no whole number, or has more than 8 bits"
        );
        assert_eq!(
            reason(b"bytes 1 02"),
            "line 1: '1' is not two hexadecimal digits"
        );
        assert_eq!(
            reason(b"bytes +1"),
            "line 1: '+1' is not two hexadecimal digits"
        );
        assert_eq!(reason(b"\xff"), "line 1: not text");
        let long = format!("anchor 5{}", " 0*1".repeat(256));
        assert_eq!(
            reason(long.as_bytes()),
            "line 1: a list of more than 255 pairs"
        );
    }
}
