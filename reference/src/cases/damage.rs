//! Damaged block files: every fault that document 01's refusal table names, in every kind of
//! field, alone and together.

use crate::block::*;
use crate::refusal::*;
use crate::rng::Rng;
use std::cmp::Reverse;

/// One fault of a field. Offsets count from the front of the field's body.
#[derive(Debug, Clone, PartialEq, Eq)]
pub enum Fault {
    /// The file ends after so many bytes of the header.
    CutHeader(usize),
    /// The field has this tag, which is not 1 to 5.
    Tag(u8),
    /// A cap stands before the field.
    OutOfTurn,
    /// As many fields of its tag as allowed stand before it.
    TooMany,
    /// The header has this length, which its tag doesn't have.
    Length(u16),
    /// The file ends so many bytes before the body does.
    CutBody(usize),
    /// At this offset stands a number outside its range.
    Number(usize, Vec<u8>),
    /// At this offset stands a count or word number that the list can't have.
    List(usize, u8),
    /// The body has the length of so many pairs, which the count isn't.
    Pairs(usize),
    /// These are the lower and the upper end.
    Crossed(i32, i32),
}

impl Fault {
    /// The refusal that the fault leads to where no other comes before it.
    pub fn refusal(&self) -> u32 {
        match self {
            Fault::CutHeader(_) | Fault::Length(_) | Fault::CutBody(_) => CUT_SHORT,
            Fault::Tag(_) => UNKNOWN_TAG,
            Fault::OutOfTurn => OUT_OF_TURN,
            Fault::TooMany => TOO_MANY,
            Fault::Number(..) => OUT_OF_RANGE,
            Fault::List(..) | Fault::Pairs(_) => BAD_LIST,
            Fault::Crossed(..) => CROSSED,
        }
    }

    /// The fault's place among those of a field with this tag, in the order of judging: 'a cut
    /// header 1, then 2, 3, 4, then a wrong length or a cut body 1, its numbers and list 5 or 7
    /// in file order, then 6'.
    pub fn rank(&self, tag: u8) -> usize {
        match self {
            Fault::CutHeader(_) => 0,
            Fault::Tag(_) => 1,
            Fault::OutOfTurn => 2,
            Fault::TooMany => 3,
            Fault::Length(_) | Fault::CutBody(_) => 4,
            Fault::Number(offset, _) | Fault::List(offset, _) => 5 + offset,
            Fault::Pairs(_) => 5 + count_offset(tag),
            Fault::Crossed(..) => usize::MAX,
        }
    }
}

/// Where a list's count byte stands.
fn count_offset(tag: u8) -> usize {
    fixed_bytes(tag) - 1
}

/// A fault, and the number of the field that has it.
pub type Place = (usize, Fault);

/// The refusal of [`damaged`]: the first field's, and in it the first judged.
pub fn first_refusal(fields: &[Field], faults: &[Place]) -> Option<u32> {
    let first = |(at, fault): &&Place| (*at, fault.rank(fields[*at].tag));
    let (_, fault) = faults.iter().min_by_key(first)?;
    Some(fault.refusal())
}

/// The file of these fields with the faults in them. Where two faults of a field need the same
/// byte, the one that is judged first gets it.
pub fn damaged(fields: &[Field], faults: &[Place]) -> Vec<u8> {
    let mut bytes = Vec::new();
    for (at, good) in fields.iter().enumerate() {
        let mut own: Vec<&Fault> = faults
            .iter()
            .filter(|(place, _)| *place == at)
            .map(|(_, fault)| fault)
            .collect();
        own.sort_by_key(|fault| Reverse(fault.rank(good.tag)));
        let mut field = good.clone();
        let mut kept = None;
        for fault in own {
            match fault {
                Fault::CutHeader(n) => kept = Some(*n),
                Fault::Tag(tag) => field.tag = *tag,
                Fault::OutOfTurn => Field::new(CAP, vec![0; 4]).append_to(&mut bytes),
                Fault::TooMany => append_copies(&fields[..at], good, &mut bytes),
                Fault::Length(length) => field.length = *length,
                Fault::CutBody(n) => kept = Some(HEADER + field.body.len().saturating_sub(*n)),
                Fault::Number(offset, number) => put(&mut field, *offset, number),
                Fault::List(offset, byte) => put(&mut field, *offset, &[*byte]),
                Fault::Pairs(pairs) => {
                    field.body.resize(fixed_bytes(good.tag) + 2 * pairs, 1);
                    field.length = field.body.len() as u16;
                }
                Fault::Crossed(lower, upper) => {
                    put(&mut field, 0, &lower.to_le_bytes());
                    put(&mut field, 4, &upper.to_le_bytes());
                }
            }
        }
        let start = bytes.len();
        field.append_to(&mut bytes);
        if let Some(kept) = kept {
            bytes.truncate(start + kept);
            return bytes;
        }
    }
    bytes
}

/// Puts bytes into a field's body, as far as a fault before left it that long.
fn put(field: &mut Field, offset: usize, bytes: &[u8]) {
    for (i, byte) in bytes.iter().enumerate() {
        if let Some(place) = field.body.get_mut(offset + i) {
            *place = *byte;
        }
    }
}

/// Copies of a field, until with those before there are as many of its tag as allowed.
fn append_copies(before: &[Field], field: &Field, bytes: &mut Vec<u8>) {
    let there = before.iter().filter(|f| f.tag == field.tag).count();
    for _ in there..most_fields(field.tag) {
        field.append_to(bytes);
    }
}

/// Every fault that a good field can have, in a block of so many words.
pub fn faults(field: &Field, words: usize) -> Vec<Fault> {
    let tag = field.tag;
    let length = field.body.len();
    let mut faults = vec![Fault::CutHeader(1), Fault::CutHeader(2), Fault::OutOfTurn];
    faults.extend([0, 6, 17, 128, 255].map(Fault::Tag));
    if tag != CAP {
        faults.push(Fault::TooMany);
    }
    faults.extend([1, length - 1, length].map(Fault::CutBody));
    faults.extend(wrong_lengths(tag, length).into_iter().map(Fault::Length));
    faults.extend(numbers_out_of_range(tag));
    if has_list(tag) {
        faults.extend(list_faults(field, words));
    }
    if matches!(tag, WORD | SPAN) {
        faults.extend([(1, 0), (LATEST, 0), (70_001, 70_000)].map(|(l, u)| Fault::Crossed(l, u)));
    }
    faults
}

/// Lengths that the tag doesn't have: near its own, the other tags' and the ends of the range.
fn wrong_lengths(tag: u8, length: usize) -> Vec<u16> {
    let fits = |n: usize| {
        let pairs = if has_list(tag) { 1..=MOST_PAIRS } else { 0..=0 };
        pairs.into_iter().any(|p| fixed_bytes(tag) + 2 * p == n)
    };
    let near = [length - 1, length + 1, length + 256, fixed_bytes(tag) + 10];
    let others = [WORD, TEMPO, ANCHOR, SPAN, CAP].map(fixed_bytes);
    let mut lengths: Vec<usize> = near.into_iter().chain(others).collect();
    lengths.extend([0, 1, 28, 256, 32_768, 65_535]);
    lengths.retain(|n| !fits(*n));
    lengths.into_iter().map(|n| n as u16).collect()
}

/// Every number of a body before its list, just past each end of its range and far outside.
fn numbers_out_of_range(tag: u8) -> Vec<Fault> {
    let signed = (-FARTHEST, FARTHEST);
    let slots: Vec<(usize, (i32, i32))> = match tag {
        WORD => (0..4)
            .map(|k| (4 * k, (0, LATEST)))
            .chain([(16, (0, STEEPEST))])
            .collect(),
        TEMPO => vec![(2, signed)],
        ANCHOR => vec![(0, signed)],
        SPAN => vec![(0, signed), (4, signed)],
        _ => vec![(0, (0, FARTHEST))],
    };
    let mut faults = Vec::new();
    for (offset, (lo, hi)) in slots {
        for number in [lo - 1, hi + 1, i32::MIN, i32::MAX] {
            faults.push(Fault::Number(offset, number.to_le_bytes().to_vec()));
        }
    }
    if tag == TEMPO {
        for weight in [0, HEAVIEST + 1, 256, 0x8001, 0xFFFF] {
            faults.push(Fault::Number(0, weight.to_le_bytes().to_vec()));
        }
    }
    faults
}

/// Every fault of a list: its count, each word number and each coefficient.
fn list_faults(field: &Field, words: usize) -> Vec<Fault> {
    let count_at = count_offset(field.tag);
    let pairs = usize::from(field.body[count_at]);
    let mut faults: Vec<Fault> = (0..=MOST_PAIRS + 1)
        .chain([128, 255])
        .filter(|count| *count != pairs)
        .map(|count| Fault::List(count_at, count as u8))
        .collect();
    let others = (1..=MOST_PAIRS).filter(|other| *other != pairs);
    faults.extend(others.map(Fault::Pairs));
    for k in 0..pairs {
        let word_at = count_at + 1 + 2 * k;
        let mut wrong = vec![words as u8, 128, 255];
        if k > 0 {
            let before = field.body[word_at - 2];
            wrong.extend([before, before.saturating_sub(1)]);
        }
        faults.extend(wrong.into_iter().map(|word| Fault::List(word_at, word)));
        for coefficient in [0, STRONGEST + 1, -STRONGEST - 1, i8::MAX, i8::MIN] {
            faults.push(Fault::Number(word_at + 1, vec![coefficient as u8]));
        }
    }
    faults
}

/// A file that comes from a good block by one to three random acts, most of them faults.
pub fn random(rng: &mut Rng, block: &Block) -> Vec<u8> {
    let mut fields = fields(block);
    match rng.below(10) {
        0 => {
            rearranged(rng, &mut fields);
            joined(&fields)
        }
        1 => {
            let mut bytes = joined(&fields);
            bytes.truncate(rng.below(bytes.len()));
            bytes
        }
        2 => {
            let mut bytes = joined(&fields);
            append_trailing(rng, &mut bytes);
            bytes
        }
        3 => {
            let mut bytes = joined(&fields);
            for _ in 0..rng.int(1, 3) {
                let at = rng.below(bytes.len());
                bytes[at] = odd_byte(rng);
            }
            bytes
        }
        _ => {
            let count = rng.int(1, 2);
            let places: Vec<Place> = (0..count)
                .map(|_| random_place(rng, &fields, block.words.len()))
                .collect();
            damaged(&fields, &places)
        }
    }
}

/// A fault of some field, each refusal about as often.
fn random_place(rng: &mut Rng, fields: &[Field], words: usize) -> Place {
    let refusal = rng.int(1, 7) as u32;
    let at = rng.below(fields.len());
    let mut all = faults(&fields[at], words);
    if all.iter().any(|fault| fault.refusal() == refusal) {
        all.retain(|fault| fault.refusal() == refusal);
    }
    (at, all.swap_remove(rng.below(all.len())))
}

/// Drops, repeats or exchanges fields.
fn rearranged(rng: &mut Rng, fields: &mut Vec<Field>) {
    match rng.below(4) {
        0 => {
            fields.pop();
        }
        1 => fields.retain(|field| field.tag != WORD),
        2 => {
            let at = rng.below(fields.len());
            fields.insert(at, fields[at].clone());
        }
        _ => {
            let (i, j) = (rng.below(fields.len()), rng.below(fields.len()));
            fields.swap(i, j);
        }
    }
}

/// A few bytes after the cap: too few for a header, a field, or anything.
fn append_trailing(rng: &mut Rng, bytes: &mut Vec<u8>) {
    match rng.below(3) {
        0 => Field::new(rng.int(0, 6) as u8, vec![0; 4]).append_to(bytes),
        _ => {
            for _ in 0..rng.int(1, 5) {
                bytes.push(odd_byte(rng));
            }
        }
    }
}

/// A byte that is often one of those that matter in a block file.
fn odd_byte(rng: &mut Rng) -> u8 {
    if rng.chance(50) {
        rng.pick(&[0, 1, 2, 3, 4, 5, 6, 8, 9, 20, 127, 128, 247, 248, 255])
    } else {
        rng.below(256) as u8
    }
}

/// Arbitrary bytes, most of them in fields whose tags don't fall and whose lengths fit.
pub fn arbitrary(rng: &mut Rng) -> Vec<u8> {
    let mut bytes = Vec::new();
    let mut tag = WORD;
    for _ in 0..rng.below(9) {
        let mut field = Field::new(tag, plausible_body(rng, tag));
        if rng.chance(3) {
            field.tag = odd_byte(rng);
        }
        if rng.chance(3) {
            field.length = u16::from(odd_byte(rng));
        }
        field.append_to(&mut bytes);
        if rng.chance(50) && tag < SPAN {
            tag += 1;
        }
    }
    if rng.chance(90) {
        Field::new(CAP, plausible_body(rng, CAP)).append_to(&mut bytes);
    }
    bytes
}

/// A body with the length of its tag, its numbers mostly small.
fn plausible_body(rng: &mut Rng, tag: u8) -> Vec<u8> {
    if !has_list(tag) {
        return (0..fixed_bytes(tag) / 4)
            .flat_map(|_| plausible_number(rng))
            .collect();
    }
    let pairs = rng.int(1, 4) as u8;
    let mut body = if tag == TEMPO {
        vec![plausible_byte(rng, 1), 0]
    } else {
        Vec::new()
    };
    while body.len() < count_offset(tag) {
        body.extend(plausible_number(rng));
    }
    body.push(plausible_byte(rng, pairs));
    for word in 0..pairs {
        body.extend([plausible_byte(rng, word), plausible_byte(rng, 1)]);
    }
    body
}

fn plausible_number(rng: &mut Rng) -> [u8; 4] {
    if rng.chance(97) {
        [odd_byte(rng), 0, 0, 0]
    } else {
        [(); 4].map(|()| odd_byte(rng))
    }
}

fn plausible_byte(rng: &mut Rng, likely: u8) -> u8 {
    if rng.chance(95) {
        likely
    } else {
        odd_byte(rng)
    }
}
