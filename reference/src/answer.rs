//! Document 01, the answer file: 'tag 17, times (4 bytes each); 18, prices (8 bytes each, signed:
//! anchors, spans, cap); 19, gap (8, signed); 20, passes of the accepted solve (2)'.

use crate::block::{Block, Field, HEADER, joined};
use crate::refusal::SHORT_SLICE;

/// The tags of the answer file.
pub const TIMES: u8 = 17;
pub const PRICES: u8 = 18;
pub const GAP: u8 = 19;
pub const PASSES: u8 = 20;

/// What an answer file says.
#[derive(Debug, Clone, PartialEq, Eq)]
pub struct Answer {
    pub times: Vec<i32>,
    pub prices: Vec<i64>,
    pub gap: i64,
    pub passes: u16,
}

/// The bytes of an answer to this block.
pub fn length(block: &Block) -> usize {
    let times = HEADER + 4 * block.words.len();
    let prices = HEADER + 8 * block.prices();
    times + prices + (HEADER + 8) + (HEADER + 2)
}

/// The answer's file.
pub fn bytes(answer: &Answer) -> Vec<u8> {
    let times = answer.times.iter().flat_map(|t| t.to_le_bytes());
    let prices = answer.prices.iter().flat_map(|p| p.to_le_bytes());
    joined(&[
        Field::new(TIMES, times.collect()),
        Field::new(PRICES, prices.collect()),
        Field::new(GAP, answer.gap.to_le_bytes().to_vec()),
        Field::new(PASSES, answer.passes.to_le_bytes().to_vec()),
    ])
}

/// Writes the answer's file to the front of the slice and gives its length, or 8. 'Bytes of the
/// slice past it keep their values.'
pub fn write(answer: &Answer, slice: &mut [u8]) -> Result<usize, u32> {
    let file = bytes(answer);
    let front = slice.get_mut(..file.len()).ok_or(SHORT_SLICE)?;
    front.copy_from_slice(&file);
    Ok(file.len())
}

/// The answer that a file holds, or nothing where it isn't one.
pub fn read(file: &[u8]) -> Option<Answer> {
    let (times, rest) = field(file, TIMES)?;
    let (prices, rest) = field(rest, PRICES)?;
    let (gap, rest) = field(rest, GAP)?;
    let (passes, rest) = field(rest, PASSES)?;
    if times.len() % 4 != 0 || prices.len() % 8 != 0 || !rest.is_empty() {
        return None;
    }
    let times = times.chunks_exact(4).map(|t| t.try_into().unwrap());
    let prices = prices.chunks_exact(8).map(|p| p.try_into().unwrap());
    Some(Answer {
        times: times.map(i32::from_le_bytes).collect(),
        prices: prices.map(i64::from_le_bytes).collect(),
        gap: i64::from_le_bytes(gap.try_into().ok()?),
        passes: u16::from_le_bytes(passes.try_into().ok()?),
    })
}

/// The body of the field at the front, which must have this tag, and what follows it.
fn field(file: &[u8], expected: u8) -> Option<(&[u8], &[u8])> {
    let [tag, low, high, after @ ..] = file else {
        return None;
    };
    let length = usize::from(u16::from_le_bytes([*low, *high]));
    (*tag == expected).then_some(())?;
    after.split_at_checked(length)
}
