// Texts that differ from a sound one in one character: left out, put in, or another.

use crate::examples::SQUARE;
use crate::random::Random;

/// A line of each letter, of which the last names corners that do not exist.
const SHORT: &str = "\
P 3E800000 3FC00000 3F000000 40000000 3F800000 1 4
C 41200000 80000000 00000000 - 3FC90FDB 3F000000
T 0 10 2 - 3 -
";

/// What is put in or stands for another: digits, letters, and what may not stand at every place.
const CHARACTERS: &[u8] = b"07Aa- \t\n\r";

/// A text with some bytes from one place to another replaced by others.
fn spliced(text: &str, from: usize, to: usize, by: &[u8]) -> Vec<u8> {
    [&text.as_bytes()[..from], by, &text.as_bytes()[to..]].concat()
}

/// Every change of the short text, each text once.
fn all(texts: &mut Vec<Vec<u8>>) {
    for place in 0..=SHORT.len() {
        let next = (place + 1).min(SHORT.len());
        texts.push(spliced(SHORT, place, next, &[]));
        for &byte in CHARACTERS {
            texts.push(spliced(SHORT, place, place, &[byte]));
            texts.push(spliced(SHORT, place, next, &[byte]));
        }
    }
}

/// A comma for each blank of the short text.
fn commas(texts: &mut Vec<Vec<u8>>) {
    let blanks = SHORT.match_indices(' ');
    texts.extend(blanks.map(|(place, _)| spliced(SHORT, place, place + 1, b",")));
}

/// At each place of document 01's text one left out, and two drawn ones in its place.
fn some(texts: &mut Vec<Vec<u8>>) {
    let mut random = Random::new(41);
    for place in 0..SQUARE.len() {
        texts.push(spliced(SQUARE, place, place + 1, &[]));
        texts.push(spliced(SQUARE, place, place + 1, &[random.pick(CHARACTERS)]));
        texts.push(spliced(SQUARE, place, place + 1, &[random.pick(b"123456789BF")]));
    }
}

pub fn texts() -> Vec<Vec<u8>> {
    let mut texts = vec![SHORT.as_bytes().to_vec()];
    all(&mut texts);
    commas(&mut texts);
    some(&mut texts);
    let mut seen = std::collections::HashSet::new();
    texts.retain(|text| seen.insert(text.clone()));
    texts
}
