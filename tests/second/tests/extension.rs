//! Document 02's No. 5: brackets, the euro sign and the rest of the default extension table, sentence by sentence; and that
//! programs which take a sentence otherwise are told from this one.

mod septets;

use second::blocks::{write_blocks, Kind};
use second::case::{Case, Entry};
use second::extension::cases;
use second::intake::{intake, start, Answer, STATE};
use second::invent::{paired, sound};
use second::random::Random;
use second::side::{header, Ours, Side};
use second::text::{septet, unpack, Header, ALPHABET};
use septets::{cases_of, page_of, wrong_ways_are_told, CR, HEADER, RECEIVED, SPACE};

const LISTED: [(u8, char); 10] = [
    (0x0A, '\u{000C}'),
    (0x14, '^'),
    (0x28, '{'),
    (0x29, '}'),
    (0x2F, '\\'),
    (0x3C, '['),
    (0x3D, '~'),
    (0x3E, ']'),
    (0x40, '|'),
    (0x65, '€'),
];

/// The code point that a septet has after 1B, where it is listed.
fn listed(septet: u8) -> Option<u16> {
    LISTED.into_iter().find(|&(listed, _)| listed == septet).map(|(_, character)| character as u16)
}

/// The septets of a character that is in either table.
fn septets_of(point: u16) -> Option<Vec<u8>> {
    let pair = LISTED.into_iter().find(|&(_, character)| character as u16 == point);
    pair.map(|(after, _)| vec![0x1B, after]).or(septet(point).map(|septet| vec![septet]))
}

/// The number and the used octets that the writer gives, and the page.
fn written(text: &[u16]) -> (u64, u64, Vec<u8>) {
    let mut page = vec![0xA5; 88];
    let returned = Ours.write_text(HEADER, &mut text.to_vec(), &mut page);
    (returned & 0xFF, returned >> 8, page)
}

/// The text that is read of a page; what is behind it must be spaces. // 02 No. 6
fn text_of(page: &[u8], received: usize) -> Vec<u16> {
    let mut text = [0xA5A5; 93];
    let returned = Ours.read_text(&mut page.to_vec(), received, &mut text);
    let (text, rest) = text.split_at((returned >> 8) as usize);
    assert_eq!((returned & 0xFF, rest.iter().all(|&point| point == SPACE)), (0, true));
    text.to_vec()
}

/// The text that is read of these septets.
fn read(septets: &[u8], received: usize) -> Vec<u16> {
    text_of(&page_of(septets), received)
}

fn points(text: &str) -> Vec<u16> {
    text.encode_utf16().collect()
}

#[test]
fn bay_names_have_square_brackets() {
    let septets = [0x1B, 0x3C, 0x42, 0x41, 0x59, 0x20, 0x37, 0x1B, 0x3E];
    assert_eq!(written(&points("[BAY 7]")), (0, 6 + 8, page_of(&septets)));
    for (received, _) in RECEIVED {
        assert_eq!(read(&septets, received), points("[BAY 7]"));
    }
    assert_eq!(page_of(&[0x1B, 0x3C])[6..9], [0x1B, 0x5E, 0xA3]);
}

#[test]
fn the_ten_pairs_are_written_and_read() {
    for (after, character) in LISTED {
        let point = character as u16;
        assert_eq!(written(&[point]), (0, 6 + 2, page_of(&[0x1B, after])));
        assert_eq!(read(&[0x1B, after], 22), [point]);
        assert_eq!(written(&[0x41, point, 0x42]), (0, 6 + 4, page_of(&[0x41, 0x1B, after, 0x42])));
        assert_eq!(read(&[0x41, 0x1B, after, 0x42], 22), [0x41, point, 0x42]);
    }
    let all = (0..=0xFFFF).filter(|&point| written(&[point]).0 == 0);
    assert_eq!(all.count(), 127 + 10 - 1, "the alphabet, in which CR can't stand last, and the ten");
}

#[test]
fn such_a_character_takes_two_septets() {
    for pairs in 0..=94 {
        for others in 0..=95 {
            let text = [vec![0x5B; pairs], vec![0x41; others]].concat();
            let (septets, (number, used, page)) = (2 * pairs + others, written(&text));
            if septets > 93 {
                assert_eq!((number, used, page), (10, 0, vec![0xA5; 88]), "{pairs} {others}");
            } else {
                assert_eq!((number, used), (0, 6 + (7 * septets as u64).div_ceil(8)), "{pairs} {others}");
                assert_eq!(page, page_of(&[[0x1B, 0x3C].repeat(pairs), vec![0x41; others]].concat()));
            }
        }
    }
}

#[test]
fn an_unlisted_septet_after_1b_shows_its_own_character() {
    for after in (0..128).filter(|&after| listed(after).is_none() && after != 0x1B) {
        for (received, whole) in RECEIVED {
            for place in 0..whole - 1 {
                let septets = [vec![0x41; place], vec![0x1B, after], vec![0x42; 91 - place]].concat();
                let own = ALPHABET[after as usize];
                let text = [vec![0x41; place], vec![own], vec![0x42; whole - 2 - place]].concat();
                assert_eq!(read(&septets, received), text, "{after:02x} at {place}");
            }
        }
    }
}

#[test]
fn twice_1b_shows_one_space() {
    for after in (0..128).filter(|&after| after != CR && after != 0x1B) {
        let own = ALPHABET[after as usize];
        assert_eq!(read(&[0x1B, 0x1B, after, 0x41], 22), [SPACE, own, 0x41], "the second of them doesn't escape");
        let third = listed(after).unwrap_or(own);
        assert_eq!(read(&[0x1B, 0x1B, 0x1B, after], 22), [SPACE, third]);
    }
    for (received, whole) in RECEIVED {
        assert_eq!(read(&[0x1B; 93], received), vec![SPACE; whole.div_ceil(2)]);
    }
}

#[test]
fn as_the_last_whole_septet_received_1b_shows_a_space() {
    for (received, whole) in RECEIVED {
        let text = [vec![0x41; whole - 1], vec![SPACE]].concat();
        for next in 0..128 {
            let mut septets = [vec![0x41; whole - 1], vec![0x1B], vec![next; 93 - whole]].concat();
            assert_eq!(read(&septets, received), text, "though {next:02x} is in the next block");
            septets[..whole - 1].fill(CR);
            let crs = [vec![CR as u16; whole - 1], vec![SPACE]].concat();
            assert_eq!(read(&septets, received), crs);
        }
    }
    let mut page = page_of(&[vec![0x41; 92], vec![0x1B]].concat());
    page[87] |= 0xF8;
    assert_eq!(text_of(&page, 88), [vec![0x41; 92], vec![SPACE]].concat(), "five bits are no septet");
}

#[test]
fn trailing_crs_are_dropped_after_decoding() {
    for (received, whole) in RECEIVED {
        for kept in 0..whole {
            assert_eq!(read(&vec![0x41; kept], received), vec![0x41; kept]);
        }
    }
    assert_eq!(read(&[0x41, 0x1B, 0x1B, CR, CR], 22), [0x41, SPACE]);
    assert_eq!(read(&[0x1B, 0x3E, CR, CR, 0x1B, 0x3E], 22), points("]\r\r]"));
    assert!(read(&[CR; 93], 88).is_empty());
}

#[test]
fn an_escaped_cr_stays() {
    for (received, whole) in RECEIVED {
        for before in 0..whole - 1 {
            let septets = [vec![CR; before], vec![0x1B, CR]].concat();
            assert_eq!(read(&septets, received), vec![CR as u16; before + 1], "and those before it");
            let letter = [vec![0x41; before], vec![0x1B, CR]].concat();
            assert_eq!(read(&letter, received), [vec![0x41; before], vec![CR as u16]].concat());
        }
    }
    assert_eq!(read(&[0x1B, CR, 0x1B, CR, CR, 0x1B, 0x1B], 22), points("\r\r\r "));
    assert_eq!(read(&[0x1B, 0x1B, 0x1B, CR, CR], 22), points(" \r"));
}

/// What a telephone hands out of a page, up to its last used block.
fn over_the_air(page: &[u8], used: usize) -> (Vec<u8>, usize) {
    let (mut blocks, mut state, mut output) = ([0; 92], [0; STATE], [0; 88]);
    write_blocks(page, Kind::Page, used, &mut blocks).unwrap();
    start(&mut state).unwrap();
    for block in blocks.chunks(23) {
        if let Answer::Page(received) = intake(&mut state, block, &mut output).unwrap() {
            return (output.to_vec(), received);
        }
    }
    panic!("a page is complete at its fourth block");
}

#[test]
fn text_of_listed_characters_comes_back() {
    let mut random = Random::new(21);
    let mut full = 0;
    for at in 0..20_000 {
        let invent: fn(Entry, &mut Random, usize) -> Case = if at % 4 == 0 { sound } else { paired };
        let case = invent(Entry::WriteText, &mut random, 48);
        let (number, used, page) = written(&case.words);
        assert_eq!(number, 0, "{}", case.text());
        let last = 22 * (used as usize).div_ceil(22);
        for received in [22, 44, 66, 88].into_iter().filter(|&received| received >= last) {
            assert_eq!(text_of(&page, received), case.words);
        }
        let (taken, received) = over_the_air(&page, used as usize);
        assert_eq!((received, text_of(&taken, received)), (last, case.words));
        full += (used == 88) as usize;
    }
    assert!(full > 4_000, "{full} fill their page");
}

#[test]
fn the_case_of_93_characters_holds_for_plain_ones() {
    let (number, used, page) = written(&[0x41; 93]);
    assert_eq!((number, used, page), (0, 88, page_of(&[0x41; 93])));
    for (_, character) in LISTED {
        for place in 0..93 {
            let mut text = [0x41; 93];
            text[place] = character as u16;
            assert_eq!(written(&text), (10, 0, vec![0xA5; 88]));
        }
    }
}

/// A text with these of its faults: a foreign character at a place, over 93 septets, CR at the end.
fn faulty(foreign: Option<usize>, long: bool, cr: bool) -> Vec<u16> {
    // 48 pairs are over 93 septets without their foreign character too
    let mut text = vec![0x5D; if long { 48 } else { 46 }];
    if let Some(place) = foreign {
        text[place] = 0x0060;
    }
    if cr {
        text.push(CR as u16);
    }
    text
}

#[test]
fn the_order_of_refusals() {
    for set in 0..1 << 6 {
        let has = |fault: usize| set >> fault & 1 == 1;
        let header =
            Header { scheme: if has(1) { 0x10 } else { 0x0F }, parameter: if has(2) { 0x32 } else { 0x23 }, ..HEADER };
        let first = [15, 13, 14, 11, 10, 12].into_iter().enumerate().find(|&(at, _)| has(at));
        for place in 0..46 {
            let mut text = faulty(has(3).then_some(place), has(4), has(5));
            let mut page = vec![0xA5; if has(0) { 89 } else { 88 }];
            let returned = Ours.write_text(header, &mut text, &mut page);
            match first {
                None => assert_eq!(returned, 256 * (6 + 81)),
                Some((_, number)) => {
                    assert_eq!(returned, number, "{set:06b}");
                    assert!(page.iter().all(|&octet| octet == 0xA5));
                }
            }
        }
    }
}

#[test]
fn a_foreign_character_is_found_however_far() {
    for length in [94, 128, 255, 256, 257, 300, 65_536, 65_537, 100_000] {
        for point in [0x41, 0x5B, CR as u16] {
            let mut text = vec![point; length];
            assert_eq!(written(&text).0, 10);
            text[length - 1] = 0x20AD;
            assert_eq!(written(&text), (11, 0, vec![0xA5; 88]));
        }
    }
}

/// A sentence taken otherwise by a reader.
#[derive(Clone, Copy, Debug, PartialEq, Eq)]
enum Misread {
    Nothing,
    EscapeAlone,          // 1B is a space, as document 01 alone has it
    UnlistedSpace,        // 1B with an unlisted septet is a space
    UnlistedSpaceToo,     // or a space, and then the septet's own character
    SecondEscapes,        // the second of two 1B escapes what comes after it
    TwoSpaces,            // two 1B are two spaces
    LastIsNothing,        // 1B as the last whole septet received shows nothing
    LastLooksOn,          // or what the next block makes of it
    DroppedBefore,        // CRs are dropped before decoding
    EscapedDropped,       // an escaped CR is dropped too
    DroppedBeforeEscaped, // the CRs before an escaped one are dropped, though it stays
}

/// What a reader shows for 1B and what follows it, and how many septets that takes.
fn escape_misread(reader: Misread, next: Option<u8>, on: Option<u8>) -> (Vec<u16>, usize) {
    let one = |septet: u8| listed(septet).unwrap_or(ALPHABET[septet as usize]);
    match (next, reader) {
        (_, Misread::EscapeAlone) => (vec![SPACE], 1),
        (None, Misread::LastIsNothing) => (vec![], 1),
        (None, Misread::LastLooksOn) => (vec![on.map_or(SPACE, one)], 1),
        (None, _) => (vec![SPACE], 1),
        (Some(0x1B), Misread::SecondEscapes) => (vec![SPACE], 1),
        (Some(0x1B), Misread::TwoSpaces) => (vec![SPACE; 2], 2),
        (Some(0x1B), _) => (vec![SPACE], 2),
        (Some(septet), Misread::UnlistedSpace) => (vec![listed(septet).unwrap_or(SPACE)], 2),
        (Some(septet), Misread::UnlistedSpaceToo) if listed(septet).is_none() => (vec![SPACE, one(septet)], 2),
        (Some(septet), _) => (vec![one(septet)], 2),
    }
}

/// The text that a reader gives of what was received of a page.
fn misread(reader: Misread, page: &[u8], received: usize) -> Vec<u16> {
    let all = unpack(&page[6..]);
    let (mut septets, on) = all.split_at(8 * (received - 6) / 7);
    while reader == Misread::DroppedBefore && septets.last() == Some(&CR) {
        septets = &septets[..septets.len() - 1];
    }
    let mut shown: Vec<(u16, bool)> = Vec::new();
    let mut at = 0;
    while at < septets.len() {
        let next = septets.get(at + 1).copied();
        let (points, taken) = match septets[at] {
            0x1B => escape_misread(reader, next, on.first().copied()),
            septet => (vec![ALPHABET[septet as usize]], 1),
        };
        shown.extend(points.into_iter().map(|point| (point, septets[at] == 0x1B)));
        at += taken;
    }
    let kept = |&(point, escaped): &(u16, bool)| point != CR as u16 || escaped && reader != Misread::EscapedDropped;
    shown.truncate(shown.iter().rposition(kept).map_or(0, |last| last + 1));
    if reader == Misread::DroppedBeforeEscaped && shown.last() == Some(&(CR as u16, true)) {
        shown.pop();
        shown.truncate(shown.iter().rposition(kept).map_or(0, |last| last + 1));
        shown.push((CR as u16, true));
    }
    shown.into_iter().map(|(point, _)| point).collect()
}

/// Whether a reader shows another text than this implementation; not where a case is refused.
fn tells_reader(reader: Misread, case: &Case) -> bool {
    let (page, received) = (&case.lists[0], case.number(0));
    let refused = case.number(1) != 93 || page.len() != 88 || page[4] > 0x0F;
    if refused || ![22, 44, 66, 88].contains(&received) {
        return false;
    }
    misread(reader, page, received) != text_of(page, received)
}

#[test]
fn readers_that_take_a_sentence_otherwise_are_told() {
    let wrong = [
        Misread::EscapeAlone,
        Misread::UnlistedSpace,
        Misread::UnlistedSpaceToo,
        Misread::SecondEscapes,
        Misread::TwoSpaces,
        Misread::LastIsNothing,
        Misread::LastLooksOn,
        Misread::DroppedBefore,
        Misread::EscapedDropped,
        Misread::DroppedBeforeEscaped,
    ];
    let sets = cases_of((Entry::ReadText, "R "), cases);
    wrong_ways_are_told(sets, tells_reader, Misread::Nothing, &wrong, [6, 200]);
}

/// A sentence taken otherwise by a writer.
#[derive(Clone, Copy, Debug, PartialEq, Eq)]
enum Miswritten {
    Nothing,
    TenFirst,          // 10 before 11, as document 01 alone has it
    NotFar,            // 11 looks at 93 characters at most
    TwelveFirst,       // 12 before 10
    LimitByCharacters, // 10 counts characters
    UsedByCharacters,  // used octets follow from characters
    NoPairs,           // no extension table, as document 01 alone has it
    LowOctet,          // a listed character is found by its low octet
}

/// What a writer returns for a text, where nothing else is refused.
fn miswritten(writer: Miswritten, text: &[u16]) -> u64 {
    let of = |point: u16| match writer {
        Miswritten::NoPairs => septet(point).map(|septet| vec![septet]),
        Miswritten::LowOctet => {
            let low = LISTED.into_iter().find(|&(_, character)| character as u16 as u8 == point as u8);
            septets_of(point).or(low.map(|(after, _)| vec![0x1B, after]))
        }
        _ => septets_of(point),
    };
    let looked_at = if writer == Miswritten::NotFar { &text[..text.len().min(93)] } else { text };
    let foreign = looked_at.iter().any(|&point| of(point).is_none());
    let septets: usize = text.iter().map(|&point| of(point).map_or(1, |septets| septets.len())).sum();
    let by_characters = [Miswritten::LimitByCharacters, Miswritten::UsedByCharacters].map(|by| by == writer);
    let long = if by_characters[0] { text.len() } else { septets } > 93;
    let cr = text.last() == Some(&(CR as u16));
    let used = 6 + (7 * if by_characters[1] { text.len() } else { septets }).div_ceil(8);
    match writer {
        Miswritten::TenFirst if long => 10,
        Miswritten::TwelveFirst if cr && !foreign => 12,
        _ if foreign => 11,
        _ if long => 10,
        _ if cr => 12,
        _ => 256 * used as u64,
    }
}

/// Whether a writer returns something else than this implementation; not where 15, 13 or 14 refuses.
fn tells_writer(writer: Miswritten, case: &Case) -> bool {
    let mut page = vec![0xA5; case.number(4)];
    let returned = Ours.write_text(header(case), &mut case.words.clone(), &mut page);
    ![13, 14, 15].contains(&(returned & 0xFF)) && miswritten(writer, &case.words) != returned
}

#[test]
fn writers_that_take_a_sentence_otherwise_are_told() {
    let wrong = [
        Miswritten::TenFirst,
        Miswritten::NotFar,
        Miswritten::TwelveFirst,
        Miswritten::LimitByCharacters,
        Miswritten::UsedByCharacters,
        Miswritten::NoPairs,
        Miswritten::LowOctet,
    ];
    let sets = cases_of((Entry::WriteText, "T "), cases);
    wrong_ways_are_told(sets, tells_writer, Miswritten::Nothing, &wrong, [6, 50]);
}
