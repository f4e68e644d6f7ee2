//! Results that other people's programs confirm, in `crates/trial/data/peers.txt`, `peers_messages.txt` and
//! `peers_extension.txt`.

use second::case::{hex, octets, words};
use second::intake::STATE;
use second::side::{Ours, Side};
use second::stored::{case_of, line, row, row_line};
use second::text::{pack, read_text, septet, unpack, ALPHABET, CHARACTERS};

const PEERS: &str = include_str!("../../../crates/trial/data/peers.txt");
const MESSAGES: &str = include_str!("../../../crates/trial/data/peers_messages.txt");
const EXTENSION: &str = include_str!("../../../crates/trial/data/peers_extension.txt");

fn list(field: &str) -> Vec<u8> {
    octets(field.trim_matches('-')).unwrap()
}

fn number(field: &str) -> u64 {
    u64::from_str_radix(field, 16).unwrap()
}

#[test]
fn all_agree() {
    let mut count = 0;
    for peer in PEERS.lines() {
        let fields: Vec<&str> = peer.split(' ').collect();
        match fields[0] {
            "X" => packing(&list(fields[1]), &list(fields[2])),
            "A" => assert_eq!(ALPHABET[number(fields[1]) as usize], number(fields[2]) as u16),
            "V" => taken(&fields[1..]),
            _ => assert_eq!(line(&case_of(peer).expect("a call")), peer),
        }
        count += 1;
    }
    assert_eq!(count, 359);
}

fn packing(septets: &[u8], packed: &[u8]) {
    let mut octets = vec![0; packed.len()];
    pack(septets, &mut octets);
    assert_eq!(hex(&octets), hex(packed));
    assert_eq!(unpack(packed)[..septets.len()], *septets);
}

/// Pieces in order, each with its number, its octets received and the text of a page that it completes.
fn taken(fields: &[&str]) {
    let mut state = [0; STATE];
    Ours.start(&mut state);
    for group in fields.chunks(4) {
        let mut output = [0; 88];
        let returned = Ours.intake(&mut state, &mut list(group[0]), &mut output);
        assert_eq!(returned, number(group[1]) + 256 * number(group[2]));
        if group[3] != "-" {
            let text = words(group[3]).unwrap();
            let mut read = [0; CHARACTERS];
            assert_eq!(read_text(&output, (returned >> 8) as usize, &mut read), Ok(text.len()));
            assert_eq!(read[..text.len()], text);
        }
    }
}

#[test]
fn peers_know_every_septet_but_the_escape() {
    let known = PEERS.lines().filter(|line| line.starts_with("A "));
    let septets: Vec<u64> = known.map(|line| number(line.split(' ').nth(1).unwrap())).collect();
    assert_eq!(septets.len(), 127);
    assert!(septets.iter().all(|&at| septet(ALPHABET[at as usize]) == Some(at as u8)));
}

#[test]
fn all_agree_on_messages_of_several_pages() {
    let (comments, messages): (Vec<&str>, Vec<&str>) = MESSAGES.lines().partition(|line| line.starts_with('#'));
    assert_eq!((comments.len(), messages.len()), (51, 50));
    for message in messages {
        assert_eq!(row_line(&row(message).expect("pages in a row")), message);
    }
}

#[test]
fn all_agree_on_the_extension_table() {
    let results: Vec<&str> = EXTENSION.lines().filter(|line| !line.starts_with('#')).collect();
    for result in &results {
        assert_eq!(line(&case_of(result).expect("a call")), *result);
    }
    let texts = results.iter().filter(|line| line.starts_with("T ")).count();
    assert_eq!((results.len(), texts), (308, 89));
}
