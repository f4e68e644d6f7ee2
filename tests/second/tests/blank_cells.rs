//! Document 02's No. 6, that the places after a text are spaces, sentence by sentence; and that programs which take a
//! sentence otherwise are told from this one.

mod septets;

use second::blank_cells::cases;
use second::case::{Case, Entry};
use second::random::Random;
use second::side::{Ours, Side};
use second::text::{unpack, ALPHABET, EXTENSION};
use septets::{cases_of, page_of, wrong_ways_are_told, CR, HEADER, RECEIVED, SPACE};

const NO_BREAK_SPACE: u16 = 0xA0;
const LENT: u16 = 0xA5A5;

/// The 93 places after a reading that isn't refused, and the reported length.
fn read(page: &[u8], received: usize) -> (Vec<u16>, usize) {
    let mut places = vec![LENT; 93];
    let returned = Ours.read_text(&mut page.to_vec(), received, &mut places);
    assert_eq!(returned & 0xFF, 0);
    (places, (returned >> 8) as usize)
}

/// A text in 93 places, with spaces after it.
fn laid(text: &[u16]) -> Vec<u16> {
    let mut places = text.to_vec();
    places.resize(93, SPACE);
    places
}

#[test]
fn the_rest_of_the_93_places_is_filled_with_spaces() {
    for (received, whole) in RECEIVED {
        for length in 0..=whole {
            let not_received = vec![0x42; 93 - whole];
            let page = page_of(&[vec![0x41; length], vec![CR; whole - length], not_received].concat());
            assert_eq!(read(&page, received), (laid(&vec![0x41; length]), length));
        }
    }
}

#[test]
fn whatever_stood_in_them_before() {
    for lent in [0, SPACE, 0x41, NO_BREAK_SPACE, LENT, 0xFFFF] {
        let mut places = vec![lent; 93];
        assert_eq!(Ours.read_text(&mut page_of(b"BAY"), 88, &mut places), 256 * 3);
        assert_eq!(places, laid(&[0x42, 0x41, 0x59]));
    }
}

#[test]
fn no_place_is_0() {
    let mut random = Random::new(23);
    let any_content = (0..5_000).map(|_| [vec![0x00, 0x10, 0x80, 0x01, 0x0F, 0x11], random.octets(82)].concat());
    let two_septets = (0..128).flat_map(|one| (0..128).map(move |other| page_of(&[one, other])));
    for page in two_septets.chain(any_content) {
        for (received, _) in RECEIVED {
            assert!(!read(&page, received).0.contains(&0), "a box on the new panel, an end for the old driver");
        }
    }
}

#[test]
fn the_places_dont_tell_the_length() {
    for (received, whole) in RECEIVED {
        for text in [&b""[..], b"BAY"] {
            for spaces in 0..=whole - text.len() {
                let (places, length) = read(&page_of(&[text, &vec![0x20; spaces]].concat()), received);
                assert_eq!((places, length), (read(&page_of(text), received).0, text.len() + spaces));
            }
        }
    }
}

#[test]
fn spaces_at_the_end_of_a_text_count() {
    for letters in 0..=93 {
        for spaces in 0..=93 - letters {
            let mut text = [vec![0x41; letters], vec![SPACE; spaces]].concat();
            let mut page = [0; 88];
            let used = (Ours.write_text(HEADER, &mut text, &mut page) >> 8) as usize;
            for (received, _) in RECEIVED.into_iter().filter(|&(received, _)| received >= used) {
                assert_eq!(read(&page, received), (laid(&text), letters + spaces));
            }
        }
    }
}

#[test]
fn escaped_spaces_count_too() {
    for (received, whole) in RECEIVED {
        for pair in [[0x1B, 0x1B], [0x1B, 0x20]] {
            for letters in 0..=whole - 2 {
                let page = page_of(&[vec![0x41; letters], pair.to_vec()].concat());
                let text = [vec![0x41; letters], vec![SPACE]].concat();
                assert_eq!(read(&page, received), (laid(&text), letters + 1));
            }
        }
        let escape_last = page_of(&[vec![0x20; whole - 1], vec![0x1B]].concat());
        assert_eq!(read(&escape_last, received), (vec![SPACE; 93], whole));
    }
}

#[test]
fn a_refusal_leaves_the_places() {
    for set in 1..1 << 4 {
        let has = |fault: usize| set >> fault & 1 == 1;
        let (_, number) = [15, 16, 18, 13].into_iter().enumerate().find(|&(at, _)| has(at)).unwrap();
        let mut page = page_of(&[0x20; 93]);
        page[4] = if has(3) { 0x10 } else { 0x0F };
        page.resize(if has(1) { 89 } else { 88 }, 0x20);
        let (length, received) = (if has(0) { 94 } else { 93 }, if has(2) { 89 } else { 88 });
        for lent in [0, SPACE, LENT] {
            let mut places = vec![lent; length];
            assert_eq!(Ours.read_text(&mut page, received, &mut places), number, "{set:04b}");
            assert_eq!(places, vec![lent; length]);
        }
    }
}

/// A reader, by what it takes otherwise.
#[derive(Clone, Copy, Debug, PartialEq, Eq)]
enum Reader {
    Right,
    Zeros,             // fills with 0, as document 01 alone has it
    ZerosPastReceived, // fills with 0 past the septets received
    NoBreakSpaces,     // fills with U+00A0
    OnePlace,          // fills only the place after the last character
    CrsLeft,           // leaves the CRs that it drops in their places
    LastPlaceLeft,     // leaves the last place as it was
    SpacesDropped,     // drops the spaces at the end from the length
    Blanks(u64),       // fills the places with spaces where this number refuses
}

/// The number that refuses a case. // 01 Order
fn refusal(case: &Case) -> Option<u64> {
    let page = &case.lists[0];
    let faults = [
        (15, case.numbers[1] != 93),
        (16, page.len() != 88),
        (18, ![22, 44, 66, 88].contains(&case.numbers[0])),
        (13, page.get(4).is_some_and(|&scheme| scheme > 0x0F)),
    ];
    faults.into_iter().find(|&(_, is_so)| is_so).map(|(number, _)| number)
}

/// The characters of these septets, and how many are left without the CRs at the end. // 02 No. 5
fn characters_of(septets: &[u8]) -> (Vec<u16>, usize) {
    let (mut text, mut length) = (Vec::new(), 0);
    let mut septets = septets.iter().copied();
    while let Some(septet) = septets.next() {
        let escaped = (septet == 0x1B).then(|| septets.next().unwrap_or(0x1B));
        let listed = EXTENSION.into_iter().find(|&(after, _)| Some(after) == escaped);
        text.push(listed.map_or(ALPHABET[escaped.unwrap_or(septet) as usize], |(_, point)| point));
        if septet != CR {
            length = text.len();
        }
    }
    (text, length)
}

/// What a reader returns, and the places after it.
fn read_by(reader: Reader, case: &Case) -> (u64, Vec<u16>) {
    if let Some(number) = refusal(case) {
        let place = if reader == Reader::Blanks(number) { SPACE } else { LENT };
        return (number, vec![place; case.number(1)]);
    }
    let septets = unpack(&case.lists[0][6..case.number(0)]);
    let (all, mut length) = characters_of(&septets);
    let text = &all[..length];
    let mut places = laid(text);
    match reader {
        Reader::Right | Reader::Blanks(_) => {}
        Reader::Zeros => places[length..].fill(0),
        Reader::ZerosPastReceived => places[septets.len()..].fill(0),
        Reader::CrsLeft => places[length..all.len()].fill(CR as u16),
        Reader::NoBreakSpaces => places[length..].fill(NO_BREAK_SPACE),
        Reader::OnePlace => places.iter_mut().skip(length + 1).for_each(|place| *place = LENT),
        Reader::LastPlaceLeft => places.iter_mut().skip(length.max(92)).for_each(|place| *place = LENT),
        Reader::SpacesDropped => length = text.iter().rposition(|&point| point != SPACE).map_or(0, |last| last + 1),
    }
    (256 * length as u64, places)
}

/// What this implementation returns, and the places after it.
fn read_by_ours(case: &Case) -> (u64, Vec<u16>) {
    let mut places = vec![LENT; case.number(1)];
    (Ours.read_text(&mut case.lists[0].clone(), case.number(0), &mut places), places)
}

#[test]
fn text_itself_is_unchanged() {
    for case in cases_of((Entry::ReadText, "R "), cases).concat() {
        let (before, zeros) = read_by(Reader::Zeros, &case);
        let (returned, places) = read_by_ours(&case);
        let length = (returned >> 8) as usize;
        assert_eq!((returned, &places[..length]), (before, &zeros[..length]));
    }
}

#[test]
fn readers_that_take_a_sentence_otherwise_are_told() {
    let wrong = [
        Reader::Zeros,
        Reader::ZerosPastReceived,
        Reader::NoBreakSpaces,
        Reader::OnePlace,
        Reader::CrsLeft,
        Reader::LastPlaceLeft,
        Reader::SpacesDropped,
        Reader::Blanks(15),
        Reader::Blanks(16),
        Reader::Blanks(18),
        Reader::Blanks(13),
    ];
    let sets = cases_of((Entry::ReadText, "R "), cases);
    let tells = |reader: Reader, case: &Case| read_by(reader, case) != read_by_ours(case);
    wrong_ways_are_told(sets, tells, Reader::Right, &wrong, [4, 200]);
}
