//! Document 01, 'The block file': its reader, with refusals 1 to 7 in their order of judging,
//! and a writer for the generators.
//!
//! A [`Block`] holds the file's numbers at their width in the file, so that a block with a
//! number out of range can be written too. What [`read`] gives back is in range.

use crate::refusal::*;
use std::ops::RangeInclusive;

/// The tags of the block file.
pub const WORD: u8 = 1;
pub const TEMPO: u8 = 2;
pub const ANCHOR: u8 = 3;
pub const SPAN: u8 = 4;
pub const CAP: u8 = 5;

/// The bytes of a field's header: its tag and its body's length.
pub const HEADER: usize = 3;

/// The latest time, in samples.
pub const LATEST: i32 = 262_144;
/// The largest slope.
pub const STEEPEST: i32 = 65_535;
/// The largest weight.
pub const HEAVIEST: u16 = 64;
/// The largest target, value, span end and cap.
pub const FARTHEST: i32 = 8_388_608;
/// The largest coefficient.
pub const STRONGEST: i8 = 8;
/// The most pairs of a list.
pub const MOST_PAIRS: usize = 4;

/// 'lower, upper, key time, start, slope'.
#[derive(Debug, Clone, Copy, PartialEq, Eq)]
pub struct Word {
    pub lower: i32,
    pub upper: i32,
    pub key: i32,
    pub start: i32,
    pub slope: i32,
}

/// 'word number (byte, from 0, rising), coefficient (signed byte, −8 to 8, not 0)'.
#[derive(Debug, Clone, Copy, PartialEq, Eq)]
pub struct Pair {
    pub word: u8,
    pub coefficient: i8,
}

/// 'weight (16-bit, 1 to 64), target, list'.
#[derive(Debug, Clone, PartialEq, Eq)]
pub struct Tempo {
    pub weight: u16,
    pub target: i32,
    pub list: Vec<Pair>,
}

/// 'value, list'.
#[derive(Debug, Clone, PartialEq, Eq)]
pub struct Anchor {
    pub value: i32,
    pub list: Vec<Pair>,
}

/// 'lower, upper, list'.
#[derive(Debug, Clone, PartialEq, Eq)]
pub struct Span {
    pub lower: i32,
    pub upper: i32,
    pub list: Vec<Pair>,
}

/// A whole block.
#[derive(Debug, Clone, Default, PartialEq, Eq)]
pub struct Block {
    pub words: Vec<Word>,
    pub tempos: Vec<Tempo>,
    pub anchors: Vec<Anchor>,
    pub spans: Vec<Span>,
    pub cap: i32,
}

impl Block {
    /// How many prices the block has: anchors, spans, cap.
    pub fn prices(&self) -> usize {
        self.anchors.len() + self.spans.len() + 1
    }
}

/// The most fields of a tag: 32 words, 64 tempos, 8 anchors, 16 spans, one cap.
pub fn most_fields(tag: u8) -> usize {
    match tag {
        WORD => 32,
        TEMPO => 64,
        ANCHOR => 8,
        SPAN => 16,
        _ => 1,
    }
}

/// The bytes of a tag's body before its list's pairs, the count byte included.
pub fn fixed_bytes(tag: u8) -> usize {
    match tag {
        WORD => 20,
        TEMPO => 7,
        ANCHOR => 5,
        SPAN => 9,
        _ => 4,
    }
}

/// Whether a tag's body ends in a list.
pub fn has_list(tag: u8) -> bool {
    matches!(tag, TEMPO | ANCHOR | SPAN)
}

/// The pairs that a body's length gives (0 where the tag has no list), or nothing where the tag
/// doesn't have that length.
fn pairs_given(tag: u8, length: usize) -> Option<usize> {
    if !has_list(tag) {
        return (length == fixed_bytes(tag)).then_some(0);
    }
    (1..=MOST_PAIRS).find(|count| length == fixed_bytes(tag) + 2 * count)
}

/// The block that the bytes hold, or a refusal from 1 to 7.
///
/// 'Fields are judged left to right: a cut header 1, then 2, 3, 4, then a wrong length or a cut
/// body 1, its numbers and list 5 or 7 in file order, then 6; at the end 3'.
pub fn read(bytes: &[u8]) -> Result<Block, u32> {
    let mut block = Block::default();
    let mut last = WORD;
    let mut capped = false;
    let mut rest = bytes;
    while !rest.is_empty() {
        let [tag, low, high, after @ ..] = rest else {
            return Err(CUT_SHORT);
        };
        let tag = *tag;
        if !(WORD..=CAP).contains(&tag) {
            return Err(UNKNOWN_TAG);
        }
        if tag < last || capped {
            return Err(OUT_OF_TURN);
        }
        if fields_so_far(&block, tag) == most_fields(tag) {
            return Err(TOO_MANY);
        }
        let length = usize::from(u16::from_le_bytes([*low, *high]));
        let Some(pairs) = pairs_given(tag, length) else {
            return Err(CUT_SHORT);
        };
        if after.len() < length {
            return Err(CUT_SHORT);
        }
        let (body, next) = after.split_at(length);
        let words = block.words.len();
        let mut body = Body { rest: body };
        match tag {
            WORD => block.words.push(body.word()?),
            TEMPO => block.tempos.push(body.tempo(pairs, words)?),
            ANCHOR => block.anchors.push(body.anchor(pairs, words)?),
            SPAN => block.spans.push(body.span(pairs, words)?),
            _ => {
                block.cap = body.number(0..=FARTHEST)?;
                capped = true;
            }
        }
        last = tag;
        rest = next;
    }
    if block.words.is_empty() || !capped {
        return Err(OUT_OF_TURN);
    }
    Ok(block)
}

/// The fields of a tag read so far. A second cap is out of turn before it is one too many.
fn fields_so_far(block: &Block, tag: u8) -> usize {
    match tag {
        WORD => block.words.len(),
        TEMPO => block.tempos.len(),
        ANCHOR => block.anchors.len(),
        SPAN => block.spans.len(),
        _ => 0,
    }
}

/// What is left of a field's body, read from the front. Its length was judged before.
struct Body<'a> {
    rest: &'a [u8],
}

impl Body<'_> {
    fn take<const N: usize>(&mut self) -> [u8; N] {
        let (taken, rest) = self.rest.split_at(N);
        self.rest = rest;
        taken.try_into().expect("N bytes were taken")
    }

    /// A signed 32-bit number in its range, or 5.
    fn number(&mut self, range: RangeInclusive<i32>) -> Result<i32, u32> {
        let number = i32::from_le_bytes(self.take());
        if !range.contains(&number) {
            return Err(OUT_OF_RANGE);
        }
        Ok(number)
    }

    fn word(&mut self) -> Result<Word, u32> {
        let word = Word {
            lower: self.number(0..=LATEST)?,
            upper: self.number(0..=LATEST)?,
            key: self.number(0..=LATEST)?,
            start: self.number(0..=LATEST)?,
            slope: self.number(0..=STEEPEST)?,
        };
        if word.lower > word.upper {
            return Err(CROSSED);
        }
        Ok(word)
    }

    fn tempo(&mut self, pairs: usize, words: usize) -> Result<Tempo, u32> {
        let weight = u16::from_le_bytes(self.take());
        if !(1..=HEAVIEST).contains(&weight) {
            return Err(OUT_OF_RANGE);
        }
        Ok(Tempo {
            weight,
            target: self.number(-FARTHEST..=FARTHEST)?,
            list: self.list(pairs, words)?,
        })
    }

    fn anchor(&mut self, pairs: usize, words: usize) -> Result<Anchor, u32> {
        Ok(Anchor {
            value: self.number(-FARTHEST..=FARTHEST)?,
            list: self.list(pairs, words)?,
        })
    }

    fn span(&mut self, pairs: usize, words: usize) -> Result<Span, u32> {
        let span = Span {
            lower: self.number(-FARTHEST..=FARTHEST)?,
            upper: self.number(-FARTHEST..=FARTHEST)?,
            list: self.list(pairs, words)?,
        };
        if span.lower > span.upper {
            return Err(CROSSED);
        }
        Ok(span)
    }

    /// A list of as many pairs as the body's length gives: 'a count that disagrees with a
    /// fitting length is 7'. A word number that the block hasn't, or that doesn't rise, is 7; a
    /// coefficient outside its range is 5.
    fn list(&mut self, pairs: usize, words: usize) -> Result<Vec<Pair>, u32> {
        let [count] = self.take();
        if usize::from(count) != pairs {
            return Err(BAD_LIST);
        }
        let mut list: Vec<Pair> = Vec::new();
        for _ in 0..pairs {
            let [word, coefficient] = self.take();
            let rises = list.last().is_none_or(|before| before.word < word);
            if usize::from(word) >= words || !rises {
                return Err(BAD_LIST);
            }
            let coefficient = coefficient as i8;
            if coefficient == 0 || !(-STRONGEST..=STRONGEST).contains(&coefficient) {
                return Err(OUT_OF_RANGE);
            }
            list.push(Pair { word, coefficient });
        }
        Ok(list)
    }
}

/// A field of either file: a tag, a length and a body. The length is the body's, unless a
/// generator made it another.
#[derive(Debug, Clone, PartialEq, Eq)]
pub struct Field {
    pub tag: u8,
    pub length: u16,
    pub body: Vec<u8>,
}

impl Field {
    pub fn new(tag: u8, body: Vec<u8>) -> Self {
        Field {
            tag,
            length: body.len() as u16,
            body,
        }
    }

    pub fn append_to(&self, bytes: &mut Vec<u8>) {
        bytes.push(self.tag);
        bytes.extend(self.length.to_le_bytes());
        bytes.extend(&self.body);
    }
}

/// The bytes of fields, one after another.
pub fn joined(fields: &[Field]) -> Vec<u8> {
    let mut bytes = Vec::new();
    for field in fields {
        field.append_to(&mut bytes);
    }
    bytes
}

/// A block's fields, in the file's order.
pub fn fields(block: &Block) -> Vec<Field> {
    let words = block.words.iter().map(word_field);
    let tempos = block.tempos.iter().map(tempo_field);
    let anchors = block.anchors.iter().map(anchor_field);
    let spans = block.spans.iter().map(span_field);
    let cap = Field::new(CAP, block.cap.to_le_bytes().to_vec());
    let lists = tempos.chain(anchors).chain(spans);
    words.chain(lists).chain([cap]).collect()
}

/// A block's file.
pub fn write(block: &Block) -> Vec<u8> {
    joined(&fields(block))
}

fn numbers(numbers: &[i32]) -> Vec<u8> {
    numbers.iter().flat_map(|n| n.to_le_bytes()).collect()
}

fn word_field(word: &Word) -> Field {
    let Word {
        lower,
        upper,
        key,
        start,
        slope,
    } = *word;
    Field::new(WORD, numbers(&[lower, upper, key, start, slope]))
}

fn tempo_field(tempo: &Tempo) -> Field {
    let mut body = tempo.weight.to_le_bytes().to_vec();
    body.extend(numbers(&[tempo.target]));
    append_list(&tempo.list, &mut body);
    Field::new(TEMPO, body)
}

fn anchor_field(anchor: &Anchor) -> Field {
    let mut body = numbers(&[anchor.value]);
    append_list(&anchor.list, &mut body);
    Field::new(ANCHOR, body)
}

fn span_field(span: &Span) -> Field {
    let mut body = numbers(&[span.lower, span.upper]);
    append_list(&span.list, &mut body);
    Field::new(SPAN, body)
}

fn append_list(list: &[Pair], body: &mut Vec<u8>) {
    body.push(list.len() as u8);
    for pair in list {
        body.extend([pair.word, pair.coefficient as u8]);
    }
}
