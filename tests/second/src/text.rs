//! A page of 88 octets: its header, and text in the default alphabet and its extension table, written to it and read back.

use crate::blocks::{is_received, MESSAGE};
use crate::refusal::Refusal;

pub const CHARACTERS: usize = 93; // 01 Page and text: code points that the reader writes
pub const SEPTETS: usize = 93; // 01 Page and text: septets of a page
pub const HEADER: usize = 6; // 002 9.3.2
pub const ESCAPE: u8 = 0x1B; // 02 No. 5

const CR: u8 = 0x0D;
const CR_POINT: u16 = 0x0D;
const SPACE: u16 = 0x20;
const BLANK: u16 = 0x20; // 02 No. 6: what the reader writes in the places after a text

/// The default alphabet of GSM 03.38 by septet; 1B reads as a space. // 01 Page and text
#[rustfmt::skip]
pub const ALPHABET: [u16; 128] = [
    0x0040, 0x00A3, 0x0024, 0x00A5, 0x00E8, 0x00E9, 0x00F9, 0x00EC,
    0x00F2, 0x00C7, 0x000A, 0x00D8, 0x00F8, 0x000D, 0x00C5, 0x00E5,
    0x0394, 0x005F, 0x03A6, 0x0393, 0x039B, 0x03A9, 0x03A0, 0x03A8,
    0x03A3, 0x0398, 0x039E, 0x0020, 0x00C6, 0x00E6, 0x00DF, 0x00C9,
    0x0020, 0x0021, 0x0022, 0x0023, 0x00A4, 0x0025, 0x0026, 0x0027,
    0x0028, 0x0029, 0x002A, 0x002B, 0x002C, 0x002D, 0x002E, 0x002F,
    0x0030, 0x0031, 0x0032, 0x0033, 0x0034, 0x0035, 0x0036, 0x0037,
    0x0038, 0x0039, 0x003A, 0x003B, 0x003C, 0x003D, 0x003E, 0x003F,
    0x00A1, 0x0041, 0x0042, 0x0043, 0x0044, 0x0045, 0x0046, 0x0047,
    0x0048, 0x0049, 0x004A, 0x004B, 0x004C, 0x004D, 0x004E, 0x004F,
    0x0050, 0x0051, 0x0052, 0x0053, 0x0054, 0x0055, 0x0056, 0x0057,
    0x0058, 0x0059, 0x005A, 0x00C4, 0x00D6, 0x00D1, 0x00DC, 0x00A7,
    0x00BF, 0x0061, 0x0062, 0x0063, 0x0064, 0x0065, 0x0066, 0x0067,
    0x0068, 0x0069, 0x006A, 0x006B, 0x006C, 0x006D, 0x006E, 0x006F,
    0x0070, 0x0071, 0x0072, 0x0073, 0x0074, 0x0075, 0x0076, 0x0077,
    0x0078, 0x0079, 0x007A, 0x00E4, 0x00F6, 0x00F1, 0x00FC, 0x00E0,
];

/// The default extension table of GSM 03.38: a septet after 1B, and the code point of the two. // 02 No. 5
pub const EXTENSION: [(u8, u16); 10] = [
    (0x0A, 0x000C), // form feed
    (0x14, 0x005E), // ^
    (0x28, 0x007B), // {
    (0x29, 0x007D), // }
    (0x2F, 0x005C), // \
    (0x3C, 0x005B), // [
    (0x3D, 0x007E), // ~
    (0x3E, 0x005D), // ]
    (0x40, 0x007C), // |
    (0x65, 0x20AC), // euro sign
];

/// The septet of a code point in the default alphabet; 1B is no character's. // 01 Page and text
pub fn septet(point: u16) -> Option<u8> {
    (0..128).find(|&septet| septet != ESCAPE && ALPHABET[septet as usize] == point)
}

/// The septet that makes a code point after 1B. // 02 No. 5
pub fn septet_after_escape(point: u16) -> Option<u8> {
    EXTENSION.iter().find(|&&(_, listed)| listed == point).map(|&(septet, _)| septet)
}

/// A page's header as it is written and read. // 002 9.3.2
#[derive(Clone, Copy, Debug, PartialEq, Eq)]
pub struct Header {
    pub serial: u16,
    pub identifier: u16,
    pub scheme: u8,
    pub parameter: u8,
}

/// Writes a page and gives its used octets; refuses by 15, 13, 14, 11, 10, 12 in this order. // 02 No. 5
pub fn write_text(header: Header, text: &[u16], page: &mut [u8]) -> Result<usize, Refusal> {
    if page.len() != MESSAGE {
        return Err(Refusal::OutputLength);
    }
    if header.scheme > 0x0F {
        return Err(Refusal::Scheme);
    }
    if !good_parameter(header.parameter) {
        return Err(Refusal::Parameter);
    }
    let mut septets = septets_of(text)?;
    let used = HEADER + (7 * septets.len()).div_ceil(8); // 02 No. 5
    septets.resize(SEPTETS, CR);
    page[0..2].copy_from_slice(&header.serial.to_be_bytes());
    page[2..4].copy_from_slice(&header.identifier.to_be_bytes());
    page[4] = header.scheme;
    page[5] = header.parameter;
    pack(&septets, &mut page[HEADER..]);
    Ok(used)
}

/// Reads the header, whatever stands in it; refuses by 16. // 002 9.3.2
pub fn read_header(page: &[u8]) -> Result<Header, Refusal> {
    if page.len() != MESSAGE {
        return Err(Refusal::MessageLength);
    }
    Ok(Header {
        serial: u16::from_be_bytes([page[0], page[1]]),
        identifier: u16::from_be_bytes([page[2], page[3]]),
        scheme: page[4],
        parameter: page[5],
    })
}

/// Neither half zero, and the page not over the total. // 01 Numbers given, 14
fn good_parameter(parameter: u8) -> bool {
    let (page, total) = (parameter >> 4, parameter & 0x0F);
    page != 0 && total != 0 && page <= total
}

/// The septets of a text; refuses by 11, 10, 12. // 02 No. 5
fn septets_of(text: &[u16]) -> Result<Vec<u8>, Refusal> {
    let mut septets = Vec::new();
    for &point in text {
        match (septet(point), septet_after_escape(point)) {
            (Some(septet), _) => septets.push(septet),
            (None, Some(septet)) => septets.extend([ESCAPE, septet]),
            (None, None) => return Err(Refusal::NotInAlphabet),
        }
    }
    if septets.len() > SEPTETS {
        return Err(Refusal::TextLength);
    }
    if text.last() == Some(&CR_POINT) {
        return Err(Refusal::EndsInCr);
    }
    Ok(septets)
}

/// Septets packed low bits first; bits past the last septet are 0. // 01 Page and text
pub fn pack(septets: &[u8], octets: &mut [u8]) {
    octets.fill(0);
    for bit in 0..7 * septets.len() {
        if septets[bit / 7] >> (bit % 7) & 1 == 1 {
            octets[bit / 8] |= 1 << (bit % 8);
        }
    }
}

/// The whole septets of packed octets. // 01 Page and text
pub fn unpack(octets: &[u8]) -> Vec<u8> {
    let bit = |at: usize| octets[at / 8] >> (at % 8) & 1;
    let septet = |at: usize| (0..7).fold(0, |sum, i| sum | bit(7 * at + i) << i);
    (0..8 * octets.len() / 7).map(septet).collect()
}

/// Reads the text and gives the number of characters; refuses by 15, 16, 18, 13 in this order. // 01 Order
pub fn read_text(page: &[u8], received: usize, text: &mut [u16]) -> Result<usize, Refusal> {
    if text.len() != CHARACTERS {
        return Err(Refusal::OutputLength);
    }
    let part = content(page, received)?;
    if page[4] > 0x0F {
        return Err(Refusal::Scheme);
    }
    let characters = characters(&unpack(part));
    let count = characters.iter().rposition(|character| !character.is_dropped_at_end()).map_or(0, |last| last + 1);
    text.fill(BLANK);
    for (point, character) in text.iter_mut().zip(&characters[..count]) {
        *point = character.point;
    }
    Ok(count)
}

/// A character read, and whether it came after 1B.
struct Character {
    point: u16,
    escaped: bool,
}

impl Character {
    /// Whether it is a CR that wasn't escaped. // 02 No. 5
    fn is_dropped_at_end(&self) -> bool {
        self.point == CR_POINT && !self.escaped
    }
}

/// The characters of the whole septets received. // 02 No. 5
fn characters(septets: &[u8]) -> Vec<Character> {
    let mut septets = septets.iter().copied();
    let mut characters = Vec::new();
    while let Some(septet) = septets.next() {
        characters.push(match septet {
            ESCAPE => Character { point: after_escape(septets.next()), escaped: true },
            _ => Character { point: ALPHABET[septet as usize], escaped: false },
        });
    }
    characters
}

/// The code point of 1B and the septet after it, if one was received. // 02 No. 5
fn after_escape(septet: Option<u8>) -> u16 {
    match septet {
        None | Some(ESCAPE) => SPACE,
        Some(septet) => {
            let listed = EXTENSION.iter().find(|&&(listed, _)| listed == septet);
            listed.map_or(ALPHABET[septet as usize], |&(_, point)| point)
        }
    }
}

/// The received part of a page's content, octets 7 to the last received; refuses by 16, 18. // 01 Page and text
pub fn content(page: &[u8], received: usize) -> Result<&[u8], Refusal> {
    if page.len() != MESSAGE {
        return Err(Refusal::MessageLength);
    }
    if !is_received(received) {
        return Err(Refusal::Received);
    }
    Ok(&page[HEADER..received])
}
