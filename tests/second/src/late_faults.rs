//! The edges of document 02's No. 4: texts with a fault at each place, early and late, which leave the page as it was, and
//! texts whose bits show how each character is packed as it comes.

use crate::blocks::MESSAGE;
use crate::case::{Case, Entry};
use crate::text::{ALPHABET, CHARACTERS};

const UNLISTED: [u16; 4] = [0x0000, 0x0009, 0x001B, 0x0060]; // in neither table, below the alphabet's highest code point
const PAST: [u16; 3] = [0x03AA, 0x20AD, 0xFFFF]; // above it, and not the euro sign
const CR: u16 = 0x0D;
const BITS: [[usize; 2]; 5] = [[0x7F, 0x7F], [0x00, 0x00], [0x7F, 0x00], [0x00, 0x7F], [0x55, 0x2A]]; // septets in turn

/// So many good characters, all different and none of them CR.
fn good(length: usize) -> Vec<u16> {
    ALPHABET[0x20..][..length].to_vec()
}

/// A text with a bad character at a place from 0: one that is unlisted, and one that is past all that are listed.
fn with_bad(text: Vec<u16>, place: usize) -> [Vec<u16>; 2] {
    [UNLISTED[place % UNLISTED.len()], PAST[place % PAST.len()]].map(|bad| {
        let mut text = text.clone();
        text[place] = bad;
        text
    })
}

fn ending_in_cr(length: usize) -> Vec<u16> {
    let mut text = good(length);
    text[length - 1] = CR;
    text
}

/// A bad character first, in the middle and last but one of texts that end in CR. // 01 Order
fn bad_before_cr() -> Vec<Vec<u16>> {
    let lengths = [4, 8, 9].into_iter();
    let places =
        |length: usize| [0, (length - 1) / 2, length - 2].map(|place| with_bad(ending_in_cr(length), place)).concat();
    lengths.flat_map(places).collect()
}

/// Two septets in turn: texts of each length modulo 8, short ones and long ones. Those of one character are edges already.
fn bits() -> Vec<Vec<u16>> {
    let lengths: Vec<usize> = (2..=8).chain(CHARACTERS - 8..=CHARACTERS).collect();
    let text = |length: usize, two: [usize; 2]| (0..length).map(|at| ALPHABET[two[at % 2]]).collect();
    BITS.iter().flat_map(|&two| lengths.iter().map(move |&length| text(length, two))).collect()
}

/// What the writer of text is given. // 02 No. 4
pub fn texts() -> Vec<Case> {
    let mut texts: Vec<Vec<u16>> = (0..CHARACTERS).flat_map(|place| with_bad(good(CHARACTERS), place)).collect();
    texts.extend((1..=CHARACTERS).map(ending_in_cr));
    texts.extend(bad_before_cr());
    texts.extend(with_bad(good(CHARACTERS + 1), CHARACTERS));
    texts.push(ending_in_cr(CHARACTERS + 1));
    texts.extend(bits());
    let numbers = [1, 2, 3, 0x11, MESSAGE as u64];
    texts.iter().map(|text| Case::new(Entry::WriteText, &numbers, &[], text)).collect()
}
