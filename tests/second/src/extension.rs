//! The edges of document 02's No. 5: texts of characters that take two septets about every limit, and pages with 1B before
//! each septet, at the ends of what can be received, and beside CRs.

use crate::blocks::MESSAGE;
use crate::case::{Case, Entry};
use crate::text::{pack, ALPHABET, CHARACTERS, ESCAPE, EXTENSION, HEADER, SEPTETS};

const CR: u8 = 0x0D;
const CR_POINT: u16 = 0x0D;
pub const RECEIVED: [(u64, usize); 4] = [(22, 18), (44, 43), (66, 68), (88, SEPTETS)]; // 01 Page and text: whole septets
const FOREIGN: [u16; 6] = [0x001B, 0x0060, 0x20AD, 0x0009, 0x1B3C, 0xFFFF]; // in neither table
const LONG: usize = 300; // characters, or twice as many septets: over 255 either way

/// The edge cases of an entry. // 02 No. 5
pub fn cases(entry: Entry) -> Vec<Case> {
    match entry {
        Entry::WriteText => [texts().iter().map(|text| written(text)).collect(), faults_at_once()].concat(),
        Entry::ReadText => readings(),
        _ => vec![],
    }
}

fn written(text: &[u16]) -> Case {
    Case::new(Entry::WriteText, &[0x0010, 0x8001, 0, 0x11, MESSAGE as u64], &[], text)
}

/// So many characters of the extension table, in turn.
fn pairs(count: usize) -> Vec<u16> {
    (0..count).map(|at| EXTENSION[at % EXTENSION.len()].1).collect()
}

/// So many characters of the alphabet, in turn and none of them CR.
fn plain(count: usize) -> Vec<u16> {
    (0..count).map(|at| ALPHABET[0x20 + at % 96]).collect()
}

/// A text with others put in before the character at a place.
fn with(text: &[u16], place: usize, others: &[u16]) -> Vec<u16> {
    [&text[..place], others, &text[place..]].concat()
}

/// A text with another character at a place.
fn with_at(text: &[u16], place: usize, other: u16) -> Vec<u16> {
    let mut text = text.to_vec();
    text[place] = other;
    text
}

/// Each character of the table alone, first, in the middle and last.
fn placed() -> Vec<Vec<u16>> {
    let around = |point: u16| [vec![point], vec![point, 0x41, 0x42], vec![0x41, point, 0x42], vec![0x41, 0x42, point]];
    EXTENSION.iter().flat_map(|&(_, point)| around(point)).collect()
}

/// Pairs for each number of septets, and so for each of used octets; an odd septet stands first, in the middle or last.
fn counted() -> Vec<Vec<u16>> {
    let odd = |septets: usize| &[0x41][..septets % 2];
    (1..=SEPTETS).map(|septets| with(&pairs(septets / 2), septets / 2 * (septets % 3) / 2, odd(septets))).collect()
}

/// A pair that ends with a block, one that goes on in the next and one that begins it, last and last but one.
fn about_blocks() -> Vec<Vec<u16>> {
    let mut texts = Vec::new();
    for (at, (_, whole)) in RECEIVED.into_iter().enumerate() {
        for place in [whole - 2, whole - 1, whole] {
            let text = with(&plain(place), place, &[[0x5D, 0x20AC][(at + place) % 2]]);
            texts.push(text.clone());
            texts.push(with(&text, place + 1, &[0x41]));
        }
    }
    texts
}

/// One pair in a text of 93 septets, at places with every remainder by eight.
fn one_pair() -> Vec<Vec<u16>> {
    let places = (0..SEPTETS - 2).step_by(5).chain([SEPTETS - 2]);
    places.enumerate().map(|(at, place)| with(&plain(SEPTETS - 2), place, &pairs(10)[at % 10..][..1])).collect()
}

/// 93 septets, which fit: 46 pairs of each kind and one character more, and pairs before others.
fn just_fit() -> Vec<Vec<u16>> {
    let mut texts: Vec<Vec<u16>> = [0, 23, 46].map(|place| with(&pairs(46), place, &[0x41])).to_vec();
    texts.extend(EXTENSION.iter().map(|&(_, point)| with(&[point; 46], 46, &[0x7A])));
    texts.extend([1, 2, 23, 45].map(|count| [pairs(count), plain(SEPTETS - 2 * count)].concat()));
    texts
}

/// Over 93 septets, most of them in fewer characters than that: 94 and 95 septets, and many. // 01 Numbers given, 10
fn too_long() -> Vec<Vec<u16>> {
    let mut texts: Vec<Vec<u16>> =
        [0, 1, 2, 23, 45, 46, 47].map(|count| [pairs(count), plain(94 - 2 * count)].concat()).to_vec();
    texts.extend([1, 24, 47].map(|count| [plain(95 - 2 * count), pairs(count)].concat()));
    texts.extend([0, 23, 45, 46].map(|place| with(&with(&pairs(46), place, &[0x41]), 47, &[0x42])));
    texts.extend([0, 46, 93].map(|place| with(&plain(93), place, &[0x5B])));
    texts.extend(EXTENSION.iter().map(|&(_, point)| vec![point; 47]));
    texts.extend([93, 94, 128, 129, LONG].map(pairs));
    texts.extend([256, 257, LONG].map(plain));
    texts
}

/// Characters one bit away from a listed one, and 1B and a listed septet as one number; only those past U+03AA, since up to
/// there each character alone is an edge already.
fn near_listed() -> Vec<Vec<u16>> {
    let near = |point: u16| (0..16).map(move |bit| point ^ 1 << bit);
    let all = EXTENSION.iter().flat_map(|&(septet, point)| near(point).chain([u16::from_be_bytes([ESCAPE, septet])]));
    all.filter(|&point| point > 0x3AA).map(|point| vec![point]).collect()
}

/// A foreign character in texts that fit, in texts over 93 septets, and at the far end of long ones. // 02 No. 5
fn foreign() -> Vec<Vec<u16>> {
    let at_ends = |text: &[u16], at: usize| {
        let places = [0, text.len() / 2, text.len() - 1].into_iter();
        places.map(|place| with_at(text, place, FOREIGN[(at + place) % FOREIGN.len()])).collect::<Vec<Vec<u16>>>()
    };
    let limits = [pairs(46), pairs(47), plain(93), plain(94), [pairs(46), plain(2)].concat(), pairs(94), plain(LONG)];
    let mut texts: Vec<Vec<u16>> = limits.iter().enumerate().flat_map(|(at, text)| at_ends(text, at)).collect();
    texts.extend((0..46).step_by(3).map(|place| with_at(&pairs(46), place, FOREIGN[place % FOREIGN.len()])));
    texts.extend([93, 94, 127, 255, 256].map(|place| with_at(&plain(LONG), place, 0x0060)));
    texts.push(with_at(&pairs(LONG), LONG - 1, 0x20AD));
    texts.extend([[0x1B, 0x3C], [0x0041, 0x1B]].map(|text| text.to_vec()));
    texts
}

/// CR at the end after pairs, beside too many septets and beside a foreign character; and CR before pairs. // 02 No. 5
fn ending_in_cr() -> Vec<Vec<u16>> {
    let ending = |text: Vec<u16>, crs: usize| [text, vec![CR_POINT; crs]].concat();
    let mut texts: Vec<Vec<u16>> = [1, 2, 9, 21, 45, 46, 47, 48].map(|count| ending(pairs(count), 1)).to_vec();
    texts.extend([1, 44, 45, 46].map(|count| ending(pairs(count), 2)));
    texts.extend([91, 92, 93].map(|count| ending(with(&plain(count - 1), 7, &[0x5B]), 1)));
    texts.push(ending([pairs(46), plain(1)].concat(), 1));
    texts.push(ending(vec![CR_POINT; 46], 47));
    texts.push(ending(vec![CR_POINT; 46], 48));
    for text in [pairs(2), pairs(46), pairs(47), plain(94), plain(LONG - 1)] {
        let places = [0, text.len() - 1];
        texts.extend(places.map(|place| ending(with_at(&text, place, FOREIGN[place % FOREIGN.len()]), 1)));
    }
    let short: [&[u16]; 5] =
        [&[0x1B, 0x0D], &[0x0D, 0x5B], &[0x0D, 0x0D, 0x20AC], &[0x5B, 0x0D, 0x5D], &[0x0D, 0x5D, 0x0D]];
    texts.extend(short.map(<[u16]>::to_vec));
    texts
}

/// Texts that the writer is given.
fn texts() -> Vec<Vec<u16>> {
    let brackets: Vec<u16> = "[BAY 7]".encode_utf16().collect();
    let mut texts = vec![brackets];
    texts.extend([placed(), counted(), about_blocks(), one_pair(), just_fit(), too_long()].concat());
    texts.extend([near_listed(), foreign(), ending_in_cr()].concat());
    texts
}

/// Every set of the writer's six faults. // 02 No. 5
fn faults_at_once() -> Vec<Case> {
    let cases = (0..1 << 6).map(|set: usize| {
        let has = |fault: usize| set >> fault & 1 == 1;
        let either = |fault: usize, wrong: u64, right: u64| if has(fault) { wrong } else { right };
        let length = MESSAGE as u64;
        let numbers = [0x0010, 0x8001, either(1, 0x10, 0x0F), either(2, 0x21, 0x12), either(0, length - 1, length)];
        // two more than fit, so that it is too long without its foreign character too
        let mut text = pairs(if has(4) { 48 } else { 3 });
        if has(3) {
            text[set % 3] = FOREIGN[set % FOREIGN.len()];
        }
        if has(5) {
            text.push(CR_POINT);
        }
        Case::new(Entry::WriteText, &numbers, &[], &text)
    });
    cases.collect()
}

/// A reading of these septets, with CR after them up to 93.
pub fn read(septets: &[u8], received: u64) -> Case {
    let mut all = septets.to_vec();
    all.resize(SEPTETS, CR);
    let mut page = [0; MESSAGE];
    page[..HEADER].copy_from_slice(&[0x00, 0x10, 0x80, 0x01, 0x00, 0x11]);
    pack(&all, &mut page[HEADER..]);
    Case::new(Entry::ReadText, &[received, CHARACTERS as u64], &[&page], &[])
}

/// 93 septets that are letters, with others from a place on.
pub fn letters(place: usize, others: &[u8]) -> Vec<u8> {
    let mut septets: Vec<u8> = (0..SEPTETS as u8).map(|at| 0x41 + at % 26).collect();
    septets[place..place + others.len()].copy_from_slice(others);
    septets
}

/// 1B before each septet, at different places.
fn each_septet() -> Vec<Case> {
    let place = |septet: u8, whole: usize| 5 * septet as usize % (whole - 1);
    let case = |septet: u8| {
        let (received, whole) = RECEIVED[septet as usize % 4];
        read(&letters(place(septet, whole), &[ESCAPE, septet]), received)
    };
    (0..128).map(case).collect()
}

/// Each septet of the table after 1B alone, first, in the middle and last, with CRs after it.
fn each_listed() -> Vec<Case> {
    let around = |septet: u8| {
        let pair = [ESCAPE, septet];
        let all: [[&[u8]; 3]; 4] =
            [[&[], &pair, &[]], [&[], &pair, &[0x41, 0x42]], [&[0x41], &pair, &[0x42]], [&[0x41, 0x42], &pair, &[]]];
        all.map(|septets| septets.concat())
    };
    let all = EXTENSION.iter().enumerate().flat_map(|(at, &(septet, _))| around(septet).map(|septets| (at, septets)));
    all.map(|(at, septets)| read(&septets, RECEIVED[at % 4].0)).collect()
}

/// Pages full of pairs, each septet in turn after 1B, with up to seven letters before them.
fn full_of_pairs() -> Vec<Case> {
    let septets = |first: usize| {
        let pairs = (0..46).flat_map(|at| [ESCAPE, ((first * 16 + at) % 128) as u8]);
        [vec![0x41; first], pairs.collect()].concat()[..SEPTETS.min(first + 92)].to_vec()
    };
    (0..8).map(|first| read(&septets(first), RECEIVED[3 - first % 2].0)).collect()
}

/// 1B as the last whole septet received, whatever the next block begins with, and the same with that block received; with
/// CRs before it, and with other bits past the last septet. // 02 No. 5
fn escape_last() -> Vec<Case> {
    let mut cases = Vec::new();
    for (at, (received, whole)) in RECEIVED.into_iter().enumerate() {
        if whole < SEPTETS {
            for next in [0x3E, CR, 0x65, ESCAPE, 0x41] {
                let page = letters(whole - 1, &[ESCAPE, next]);
                cases.extend([received, RECEIVED[at + 1].0].map(|received| read(&page, received)));
            }
        }
        let (crs, only) = ([vec![0x41], vec![CR; whole - 2], vec![ESCAPE]], [vec![CR; whole - 1], vec![ESCAPE]]);
        cases.extend([crs.concat(), only.concat()].map(|septets| read(&septets, received)));
    }
    for bits in [0x00, 0x08, 0x68, 0xF8] {
        let mut case = read(&letters(SEPTETS - 1, &[ESCAPE]), 88);
        case.lists[0][MESSAGE - 1] |= bits;
        cases.push(case);
    }
    cases
}

/// A pair in the last two septets received.
fn pair_last() -> Vec<Case> {
    let all =
        RECEIVED.into_iter().flat_map(|(received, whole)| [0x3E, CR, 0x1B, 0x41].map(|last| (received, whole, last)));
    all.map(|(received, whole, last)| read(&letters(whole - 2, &[ESCAPE, last]), received)).collect()
}

/// One to five 1B in a row: before a listed septet, before CRs, before a letter, and up to the last septet received; and
/// pages of nothing else. // 02 No. 5
fn runs() -> Vec<Case> {
    let mut cases = Vec::new();
    for run in 1..=5 {
        let (received, whole) = RECEIVED[run % 4];
        let escapes = vec![ESCAPE; run];
        for (at, next) in [0x3C, 0x65, CR, 0x41].into_iter().enumerate() {
            let place = 3 + (run + 4 * at) % (whole - 10);
            cases.push(read(&letters(place, &[&escapes[..], &[next]].concat()), received));
        }
        cases.push(read(&[&[0x41][..], &escapes].concat(), received));
        cases.extend(RECEIVED.map(|(received, whole)| read(&letters(whole - run, &escapes), received)));
    }
    cases.extend(RECEIVED.map(|(received, _)| read(&[ESCAPE; SEPTETS], received)));
    cases
}

/// CRs before an escaped CR, after it and without one; then CRs up to the end. // 02 No. 5
fn crs() -> Vec<Case> {
    let (e, c, a) = (ESCAPE, CR, 0x41);
    let septets: [&[u8]; 18] = [
        &[e, c],
        &[a, e, c],
        &[c, e, c],
        &[a, c, c, e, c],
        &[a, c, c, e, c, c, c, a],
        &[e, c, e, c],
        &[e, c, c, e, c],
        &[e, c, c, a],
        &[e, c, e, e],
        &[e, e],
        &[e, e, e, c],
        &[c, c, e, e],
        &[c, e, e, c, e, c],
        &[e, c, e, e, c, c],
        &[e, 0x0A, c, 0x0A],
        &[e, 0x3E, c],
        &[e, c, e, 0x3E],
        &[e, 0x0E, e, 0x0C, e, 0x4D],
    ];
    septets.iter().enumerate().map(|(at, septets)| read(septets, RECEIVED[at % 4].0)).collect()
}

/// CRs alone with one of them escaped: the first, one in the middle, the last received, and one that isn't received.
fn one_escaped_cr() -> Vec<Case> {
    let mut cases = Vec::new();
    for (received, whole) in RECEIVED {
        for place in [0, whole / 2, whole - 3, whole - 2, whole].into_iter().filter(|&place| place < SEPTETS) {
            cases.push(read(&[vec![CR; place], vec![ESCAPE]].concat(), received));
        }
    }
    cases
}

/// What the reader is given.
fn readings() -> Vec<Case> {
    let mut cases = [each_septet(), each_listed(), full_of_pairs(), escape_last(), pair_last()].concat();
    cases.extend([runs(), crs(), one_escaped_cr()].concat());
    cases
}
