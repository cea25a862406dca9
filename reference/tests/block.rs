//! The block file's reader: what it accepts, each refusal, and the order of judging.

use reference::block::*;
use reference::cases::damage::{Place, damaged, faults, first_refusal};
use reference::cases::{block as blocks, damage};
use reference::refusal::*;
use reference::rng::Rng;
use std::collections::BTreeSet;

/// Three words, and a field of each other kind with a list of two or three pairs.
fn sample() -> Block {
    let word = |key| Word {
        lower: 10,
        upper: 900,
        key,
        start: 20,
        slope: 3,
    };
    let pair = |word, coefficient| Pair { word, coefficient };
    Block {
        words: vec![word(100), word(200), word(300)],
        tempos: vec![Tempo {
            weight: 4,
            target: -50,
            list: vec![pair(0, -1), pair(1, 2), pair(2, -8)],
        }],
        anchors: vec![Anchor {
            value: 7,
            list: vec![pair(0, 1), pair(2, 8)],
        }],
        spans: vec![Span {
            lower: -5,
            upper: 5,
            list: vec![pair(1, -1), pair(2, 1)],
        }],
        cap: 70,
    }
}

#[test]
fn good_blocks_come_back_as_written() {
    assert_eq!(read(&write(&sample())), Ok(sample()));
    let mut rng = Rng::new(1);
    for _ in 0..2_000 {
        for block in [
            blocks::tiny(&mut rng),
            blocks::realistic(&mut rng, 32),
            blocks::degenerate(&mut rng, 12),
        ] {
            assert_eq!(read(&write(&block)), Ok(block));
        }
    }
    for _ in 0..20 {
        let block = blocks::limits(&mut rng);
        let bytes = write(&block);
        assert_eq!(bytes.len(), 2_343);
        assert_eq!(read(&bytes), Ok(block));
    }
}

#[test]
fn p5_latest_upper() {
    let mut block = sample();
    block.words[1].upper = 262_144;
    assert_eq!(read(&write(&block)), Ok(block.clone()));
    block.words[1].upper = 262_145;
    assert_eq!(read(&write(&block)), Err(5));
}

#[test]
fn p6_thirty_third_word() {
    let mut block = sample();
    block.words = vec![block.words[0]; 32];
    assert_eq!(read(&write(&block)), Ok(block.clone()));
    block.words.push(block.words[0]);
    assert_eq!(read(&write(&block)), Err(4));
}

/// One field more than allowed, for each tag; a second cap is 3.
#[test]
fn one_field_more() {
    for (tag, refusal) in [(WORD, 4), (TEMPO, 4), (ANCHOR, 4), (SPAN, 4), (CAP, 3)] {
        let mut fields = fields(&sample());
        let at = fields.iter().position(|f| f.tag == tag).unwrap();
        let there = fields.iter().filter(|f| f.tag == tag).count();
        let field = fields[at].clone();
        for _ in there..most_fields(tag) {
            fields.insert(at, field.clone());
        }
        assert!(read(&joined(&fields)).is_ok(), "tag {tag}");
        fields.insert(at, field);
        assert_eq!(read(&joined(&fields)), Err(refusal), "tag {tag}");
    }
}

/// The ends of every range are in it.
#[test]
fn ends_of_ranges() {
    let mut block = sample();
    block.words[0] = Word {
        lower: 0,
        upper: 262_144,
        key: 262_144,
        start: 0,
        slope: 65_535,
    };
    block.words[1] = Word {
        lower: 262_144,
        upper: 262_144,
        key: 0,
        start: 262_144,
        slope: 0,
    };
    for (weight, far) in [(1, -8_388_608), (64, 8_388_608)] {
        block.tempos[0].weight = weight;
        block.tempos[0].target = far;
        block.anchors[0].value = far;
        (block.spans[0].lower, block.spans[0].upper) = (far, far);
        block.cap = far.max(0);
        assert_eq!(read(&write(&block)), Ok(block.clone()));
    }
}

/// Every fault of every kind of field, alone.
#[test]
fn each_fault_alone() {
    let fields = fields(&sample());
    let mut seen = [0; 8];
    for (at, field) in fields.iter().enumerate() {
        for fault in faults(field, 3) {
            let refusal = fault.refusal();
            let place = (at, fault);
            let found = read(&damaged(&fields, std::slice::from_ref(&place)));
            assert_eq!(found, Err(refusal), "{place:?}");
            seen[refusal as usize] += 1;
        }
    }
    assert!(seen[1..].iter().all(|count| *count > 0), "{seen:?}");
}

/// Two faults at once, in one field or in two: the one that is judged first decides.
#[test]
fn two_faults_give_the_earlier() {
    let fields = fields(&sample());
    let mut places: Vec<Place> = Vec::new();
    for (at, field) in fields.iter().enumerate() {
        // One word is enough, and the cap after it.
        if at == 0 || field.tag != WORD {
            places.extend(faults(field, 3).into_iter().map(|fault| (at, fault)));
        }
    }
    let mut ahead = BTreeSet::new();
    for first in &places {
        for second in &places {
            let [a, b] = [first, second].map(|(at, fault)| (*at, fault.rank(fields[*at].tag)));
            if a == b {
                // Judged as one.
                continue;
            }
            let pair = [first.clone(), second.clone()];
            let refusal = first_refusal(&fields, &pair).unwrap();
            let found = read(&damaged(&fields, &pair));
            assert_eq!(found, Err(refusal), "{pair:?}");
            let other = if a < b { second } else { first };
            ahead.insert((refusal, other.1.refusal()));
        }
    }
    // Each number was given ahead of each somewhere.
    for given in 1..=7 {
        for other in 1..=7 {
            assert!(ahead.contains(&(given, other)), "{given} ahead of {other}");
        }
    }
}

/// The kinds of refusal within one field, in the order of judging.
#[test]
fn order_within_a_field() {
    let fields = fields(&sample());
    for (at, field) in fields.iter().enumerate() {
        let all = faults(field, 3);
        for first in &all {
            for second in &all {
                if first.rank(field.tag) < second.rank(field.tag) {
                    let pair = [(at, second.clone()), (at, first.clone())];
                    let found = read(&damaged(&fields, &pair));
                    assert_eq!(found, Err(first.refusal()), "{pair:?}");
                }
            }
        }
    }
}

/// 'No word' and 'no cap' are judged at the end, after every field's own faults.
#[test]
fn missing_fields() {
    assert_eq!(read(&[]), Err(OUT_OF_TURN));
    let all = fields(&sample());
    let (cap, uncapped) = all.split_last().unwrap();
    assert_eq!(read(&joined(uncapped)), Err(OUT_OF_TURN));
    assert_eq!(read(&joined(std::slice::from_ref(cap))), Err(OUT_OF_TURN));
    for (at, field) in uncapped.iter().enumerate() {
        for fault in faults(field, 3) {
            let refusal = fault.refusal();
            let found = read(&damaged(uncapped, &[(at, fault)]));
            assert_eq!(found, Err(refusal));
        }
    }
    // A list before any word fails on its word number.
    for tag in [TEMPO, ANCHOR, SPAN] {
        let at = all.iter().position(|f| f.tag == tag).unwrap();
        assert_eq!(read(&joined(&all[at..])), Err(BAD_LIST));
    }
}

/// A file cut at every byte: between fields it lacks its cap, elsewhere a header or body is cut.
#[test]
fn cut_at_every_byte() {
    let all = fields(&sample());
    let bytes = joined(&all);
    let ends: Vec<usize> = (0..all.len()).map(|k| joined(&all[..k]).len()).collect();
    for cut in 0..bytes.len() {
        let refusal = if ends.contains(&cut) { 3 } else { 1 };
        assert_eq!(read(&bytes[..cut]), Err(refusal), "cut at {cut}");
    }
}

/// What follows the cap still decides.
#[test]
fn trailing_bytes() {
    for (trailing, refusal) in [
        (&[1][..], 1),
        (&[9], 1),
        (&[9, 0], 1),
        (&[5, 4], 1),
        (&[0, 0, 0], 2),
        (&[6, 0, 0], 2),
        (&[255, 255, 255, 0], 2),
        (&[1, 20, 0], 3),
        (&[4, 0, 0], 3),
        (&[5, 4, 0], 3),
        (&[5, 4, 0, 0, 0, 0, 0], 3),
        (&[5, 9, 9], 3),
    ] {
        let mut bytes = write(&sample());
        bytes.extend(trailing);
        assert_eq!(read(&bytes), Err(refusal), "{trailing:?}");
    }
}

/// A length that fits no count of its tag is 1, a count that disagrees with a fitting length 7.
#[test]
fn lengths_and_counts() {
    let words = joined(&fields(&sample())[..3]);
    for tag in [TEMPO, ANCHOR, SPAN] {
        for length in 0..=40 {
            for count in 0..=6u8 {
                let mut body = vec![0; fixed_bytes(tag)];
                body[0] = u8::from(tag == TEMPO);
                body[fixed_bytes(tag) - 1] = count;
                body.extend((0..17).flat_map(|word| [word, 1]));
                body.truncate(length);
                let mut bytes = words.clone();
                Field::new(tag, body).append_to(&mut bytes);
                Field::new(CAP, vec![0; 4]).append_to(&mut bytes);
                let pairs = (1..=4).find(|p| fixed_bytes(tag) + 2 * p == length);
                let expected = match pairs {
                    None => Some(CUT_SHORT),
                    Some(pairs) if pairs != usize::from(count) => Some(BAD_LIST),
                    // The block has three words.
                    Some(4) => Some(BAD_LIST),
                    Some(_) => None,
                };
                assert_eq!(read(&bytes).err(), expected, "{tag} {length} {count}");
            }
        }
    }
    for tag in [WORD, CAP] {
        for length in 0..=40 {
            let mut bytes = if tag == WORD {
                Vec::new()
            } else {
                words.clone()
            };
            Field::new(tag, vec![0; length]).append_to(&mut bytes);
            if tag == WORD {
                Field::new(CAP, vec![0; 4]).append_to(&mut bytes);
            }
            let fits = length == fixed_bytes(tag);
            assert_eq!(read(&bytes).err(), (!fits).then_some(1), "{tag} {length}");
        }
    }
}

/// The longest bodies there can be: present or cut, their length is wrong.
#[test]
fn longest_bodies() {
    for tag in 0..=6u8 {
        for there in [0, 20, 65_534, 65_535] {
            let mut bytes = vec![tag, 255, 255];
            bytes.resize(3 + there, 0);
            let refusal = if (1..=5).contains(&tag) { 1 } else { 2 };
            assert_eq!(read(&bytes), Err(refusal));
        }
    }
}

/// No bytes make the reader stop short, and it accepts only what the writer writes.
#[test]
fn arbitrary_bytes() {
    let mut rng = Rng::new(2);
    let mut outcomes = [0; 8];
    for _ in 0..50_000 {
        let block = blocks::tiny(&mut rng);
        for bytes in [
            damage::arbitrary(&mut rng),
            damage::random(&mut rng, &block),
        ] {
            match read(&bytes) {
                Ok(block) => {
                    assert_eq!(write(&block), bytes);
                    outcomes[0] += 1;
                }
                Err(refusal) => outcomes[refusal as usize] += 1,
            }
        }
    }
    assert!(outcomes.iter().all(|count| *count > 100), "{outcomes:?}");
}
