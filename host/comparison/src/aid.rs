//! The AID: every length up to 17, every truncated length up to 18, every first byte, and the other tests below.

mod benchmark;
mod operations;

use gorvisclen::AID_NUMBERS;
use original::aid::Aid;

pub use self::benchmark::bench;
use self::operations::{matches, part, rust_aid, try_new, try_new_truncatable, AidInput, PIV};

use crate::call::Call;
use crate::hex::Hex;
use crate::loops::pairs;
use crate::panics::unless_it_panics;
use crate::random::Random;
use crate::tally::Tally;

/// Ends the program unless the Rust's makers that panic agree with those that return an error.
fn check_makers_that_panic(input: AidInput) {
    let (Hex(name), truncated_len) = input;
    let one = unless_it_panics(|| Aid::new_truncatable(name, truncated_len));
    let whole = unless_it_panics(|| Aid::new(name));
    let same = one == rust_aid(&input).ok() && whole == Aid::try_new(name).ok();
    assert!(same, "the Rust's makers differ: {input:?}");
    assert!(one.is_none_or(|aid| *aid == *aid.as_bytes()));
}

/// Every operation once or more, with buffers around the lengths that it needs.
fn every_operation(tally: &mut Tally, random: &mut Random, input: AidInput) {
    check_makers_that_panic(input);
    let (Hex(name), truncated_len) = input;
    try_new_truncatable(input).compare_numbers(tally, AID_NUMBERS + random.below(3));
    try_new_truncatable(input).compare_numbers(tally, random.below(AID_NUMBERS));
    try_new(name).compare_numbers(tally, random.below(AID_NUMBERS + 3));
    for number in [0, 1, 2, 3, 4 + random.below(252) as u8] {
        part(input, number).compare(tally, random.below(18), random.below(4));
    }
    let shortest = name.get(..truncated_len).unwrap_or(name);
    let prefix = &name[..random.below(name.len() + 1)];
    let (one_more, many_more) = (random.bytes(1), random.bytes(256));
    let selected = [
        Vec::new(),
        name.to_vec(),
        shortest.to_vec(),
        shortest[..shortest.len().saturating_sub(1)].to_vec(),
        prefix.to_vec(),
        [name, &one_more].concat(),
        [prefix, &many_more].concat(),
        random.one_byte_off(name),
        random.one_byte_off(shortest),
        random.damaged(name),
        random.damaged(prefix),
    ];
    for selected in selected {
        matches(input, &selected).compare_numbers(tally, 1 + random.below(3));
    }
    matches(input, prefix).compare_numbers(tally, 0);
}

/// A random name with this first byte.
fn random_name(random: &mut Random, first: u8, len: usize) -> Vec<u8> {
    let mut name = random.bytes(len);
    name.iter_mut().take(1).for_each(|byte| *byte = first);
    name
}

/// Every length up to 17, every truncated length up to 18, every first byte.
fn every_first_byte(tally: &mut Tally, random: &mut Random) {
    // There is only one name of no bytes.
    for (len, first) in pairs(0..=17, 0..=255).filter(|&(len, first)| len > 0 || first == 0) {
        let name = random_name(random, first, len);
        for truncated_len in 0..=18 {
            every_operation(tally, random, (Hex(&name), truncated_len));
        }
    }
}

/// Much larger lengths and truncated lengths. They would show a number that is cut to one or two bytes.
fn far_above(tally: &mut Tally, random: &mut Random) {
    for (len, first) in pairs([5, 16, 18, 255, 256, 261, 272, 65_541], [0xA0, 0xD2, 0xE8, 0xF0, 0x00]) {
        let name = random_name(random, first, len);
        for truncated_len in [5, 255, 256, 261, 65_536, 65_541, usize::MAX] {
            every_operation(tally, random, (Hex(&name), truncated_len));
        }
    }
}

/// Each category with `out` of every length up to 12, and each part with `to` of every length up to 17.
fn every_room(tally: &mut Tally, random: &mut Random) {
    for (first, len) in pairs([0xA0, 0xD2, 0xE8, 0xF0, 0x00], 0..=17) {
        let name = random_name(random, first, len);
        for truncated_len in 0..=18 {
            let input = (Hex(&name[..]), truncated_len);
            for out_len in 0..=12 {
                try_new_truncatable(input).compare_numbers(tally, out_len);
                try_new(&name).compare_numbers(tally, out_len);
            }
            for (number, to_len) in pairs([0, 1, 2, 3, 255], 0..=17) {
                part(input, number).compare(tally, to_len, 1);
                part(input, number).compare(tally, to_len, random.below(3));
            }
        }
    }
}

/// A damaged copy of a registered AID.
fn damaged(tally: &mut Tally, random: &mut Random) {
    let name = random.damaged(PIV);
    let input = (Hex(&name[..]), random.below(name.len() + 2));
    every_operation(tally, random, input);
    matches(input, PIV).compare_numbers(tally, 1);
}

/// A random AID, and a damaged copy of a registered one.
pub fn random_cases(tally: &mut Tally, random: &mut Random) {
    let first = match random.below(3) {
        0 => random.one_of(&[0xA0, 0xD0, 0xE0, 0xF0]) | random.below(16) as u8,
        _ => random.byte(),
    };
    let len = random.below(18);
    let name = random_name(random, first, len);
    let truncated_len = match random.below(8) {
        0 => random.number() as usize >> random.below(64),
        _ => random.below(len + 2),
    };
    every_operation(tally, random, (Hex(&name), truncated_len));
    damaged(tally, random);
}

/// The short run.
pub fn compare(tally: &mut Tally, random: &mut Random) {
    every_first_byte(tally, random);
    far_above(tally, random);
    every_room(tally, random);
    for _ in 0..5_000 {
        damaged(tally, random);
    }
}
