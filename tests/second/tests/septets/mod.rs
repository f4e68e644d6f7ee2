//! What the tests of text share: a header, what can be received, the page of some septets, and the cases that wrong readers and
//! writers are held to.

use std::fmt::Debug;

use second::case::{Case, Entry};
use second::invent::any;
use second::random::Random;
use second::stored::{case_of, files};
use second::text::{pack, Header};

pub const HEADER: Header = Header { serial: 0x0010, identifier: 0x8001, scheme: 0, parameter: 0x11 };
pub const RECEIVED: [(usize, usize); 4] = [(22, 18), (44, 43), (66, 68), (88, 93)]; // octets, and their whole septets
pub const CR: u8 = 0x0D;
pub const SPACE: u16 = 0x20;

/// The page of these septets, with CR after them.
pub fn page_of(septets: &[u8]) -> Vec<u8> {
    let mut all = septets.to_vec();
    all.resize(93, CR);
    let mut page = vec![0x00, 0x10, 0x80, 0x01, 0x00, 0x11];
    page.resize(88, 0);
    pack(&all, &mut page[6..]);
    page
}

/// An entry's cases: these edges, those stored, and invented ones.
pub fn cases_of((entry, letter): (Entry, &str), edges: fn(Entry) -> Vec<Case>) -> [Vec<Case>; 3] {
    let files = files();
    let lines = files.iter().flat_map(|(_, lines)| lines).filter(|line| line.starts_with(letter));
    let mut random = Random::new(22);
    let invented = (0..10_000).map(|_| any(entry, &mut random, 48)).collect();
    [edges(entry), lines.map(|line| case_of(line).unwrap()).collect(), invented]
}

/// Holds ways to take the sentences to the edges, the stored and the invented cases of an entry: the right way differs in
/// none of them, and each wrong one in some of each, in so many edges and invented ones at least.
pub fn wrong_ways_are_told<W: Copy + Debug>(
    sets: [Vec<Case>; 3],
    tells: fn(W, &Case) -> bool,
    right: W,
    wrong: &[W],
    least: [usize; 2],
) {
    let counts = |way: W| sets.each_ref().map(|cases| cases.iter().filter(|case| tells(way, case)).count());
    assert_eq!(counts(right), [0; 3]);
    for &way in wrong {
        let [edges, stored, invented] = counts(way);
        let enough = edges >= least[0] && stored > edges && invented > least[1];
        assert!(enough, "{way:?}: {edges} {stored} {invented}");
    }
}
