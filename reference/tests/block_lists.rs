//! Replays the fixed lists of blocks, read as `docs/CASES.md` says.

use reference::block;
use reference::cases::lists::path;
use reference::check::check;
use reference::service::place;
use std::collections::BTreeSet;

/// What is left of a list or record.
struct Bytes<'a>(&'a [u8]);

impl<'a> Bytes<'a> {
    fn take(&mut self, count: usize) -> &'a [u8] {
        let (taken, rest) = self.0.split_at(count);
        self.0 = rest;
        taken
    }

    fn byte(&mut self) -> u8 {
        self.take(1)[0]
    }

    /// As many bytes as the 16-bit number in front of them says.
    fn counted(&mut self) -> &'a [u8] {
        let length = self.u16();
        self.take(length)
    }

    fn u16(&mut self) -> usize {
        usize::from(u16::from_le_bytes(self.take(2).try_into().unwrap()))
    }

    fn i32(&mut self) -> i32 {
        i32::from_le_bytes(self.take(4).try_into().unwrap())
    }

    fn i64(&mut self) -> i64 {
        i64::from_le_bytes(self.take(8).try_into().unwrap())
    }
}

fn list(program: &str) -> Vec<u8> {
    std::fs::read(path(program)).expect("the list")
}

/// The bodies of a list's records.
fn records(list: &[u8]) -> Vec<Bytes<'_>> {
    let mut rest = Bytes(list);
    let mut records = Vec::new();
    while !rest.0.is_empty() {
        records.push(Bytes(rest.counted()));
    }
    records
}

#[test]
fn replay_blocks() {
    let list = list("replay_blocks");
    let records = records(&list);
    assert!(records.len() >= 2_000);
    let mut read = BTreeSet::new();
    let mut checked = BTreeSet::new();
    for mut record in records {
        let block = record.counted();
        let outcome = record.byte();
        assert_eq!(outcome, block::read(block).err().unwrap_or(0) as u8);
        read.insert(outcome);
        for _ in 0..record.byte() {
            let times: Vec<i32> = (0..record.byte()).map(|_| record.i32()).collect();
            let prices: Vec<i64> = (0..record.byte()).map(|_| record.i64()).collect();
            let outcome = record.byte();
            let expected = match outcome {
                0 => Ok(record.i64()),
                refusal => Err(refusal.into()),
            };
            assert_eq!(check(block, &times, &prices), expected);
            checked.insert(outcome);
        }
        assert!(record.0.is_empty());
    }
    assert!(read.iter().eq(&[0, 1, 2, 3, 4, 5, 6, 7]));
    assert!(checked.iter().eq(&[0, 1, 2, 3, 4, 5, 6, 7, 9]));
}

#[test]
fn replay_places() {
    let list = list("replay_places");
    let records = records(&list);
    let (mut solved, mut outcomes) = (0, BTreeSet::new());
    for mut record in records {
        let block = record.counted();
        let mut slice = vec![0xA5; record.u16()];
        let mut expected = slice.clone();
        let outcome = record.byte();
        let written = match outcome {
            0 => {
                let answer = record.counted();
                expected[..answer.len()].copy_from_slice(answer);
                solved += 1;
                Ok(answer.len())
            }
            refusal => Err(refusal.into()),
        };
        assert_eq!(place(block, &mut slice), written);
        assert_eq!(slice, expected);
        outcomes.insert(outcome);
        assert!(record.0.is_empty());
    }
    assert!(solved >= 3_000);
    assert!(outcomes.iter().eq(&[0, 1, 2, 3, 4, 5, 6, 7, 8, 12, 14]));
}
