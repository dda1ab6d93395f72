// Texts whose P line has an eighth field, the number of the spread rule: what it may say, the
// rules told apart, and row 18 beside faults of other rows and beside bad lines.

use super::lines::WHOLES;
use crate::examples::SQUARE;
use crate::text::{fits, write};
use crate::vectors::by_rule::{refused_number, NUMBERS};
use crate::vectors::frames::rule_frames;
use frame::Frame;

const P: &str = "P 3E800000 3FC00000 3F000000 40000000 3F800000 1 4";
const LONGEST_C: &str = "C 49800000 49800000 49800000 49800000 49800000 49800000\n";
const LONGEST_T: &str = "T 4294967295 4294967294 4294967293 4294967292 4294967291 4294967290\n";

/// Words in the place of a rule beside those of every decimal, and what may not stand behind one.
const WORDS: [&str; 28] = [
    "4294967297",
    "4294967298",
    "8589934594",
    "00000000001",
    "02",
    "03",
    "-2",
    "+2",
    "2.0",
    "2e0",
    "0x2",
    "0X2",
    "00000002",
    "B",
    "1A",
    "2a",
    "two",
    "2 ",
    "1 ",
    " 2",
    "2 2",
    "1 1",
    "2 -",
    "2 0 0",
    "2\t",
    "2\r",
    "12",
    "21",
];

/// Bytes for a blank before the field, and for its digit: those beside what is read, and some far.
const BYTES: [u8; 12] = [0, b'\t', 11, b'\r', 31, b'!', b',', b'-', b'/', b':', 0x80, 0xFF];

/// Document 01's text, which has no spreads, with something behind its P line.
fn square(behind: &str) -> String {
    SQUARE.replacen('\n', &format!("{behind}\n"), 1)
}

/// Every word as an eighth field; P lines of up to nine fields and more; a field too many elsewhere.
fn fields(texts: &mut Vec<String>) {
    let words = WHOLES.into_iter().chain(WORDS).map(|word| square(&format!(" {word}")));
    texts.extend(words);
    texts.extend(NUMBERS.map(|number| square(&format!(" {number}"))));
    for behind in ["", " ", "  ", "\t2", ",2", "-", "2", " 2 1 2"] {
        texts.push(square(behind));
    }
    let fewer = |fields: usize| P.split(' ').take(1 + fields).collect::<Vec<_>>().join(" ") + "\n";
    texts.extend((0..=7).map(fewer));
    texts.push(fewer(6) + &fewer(7));
    for letter in ["C", "T"] {
        let line = SQUARE.lines().rfind(|line| line.starts_with(letter)).unwrap_or(P);
        texts.push(SQUARE.replacen(line, &format!("{line} 2"), 1));
    }
}

/// A byte in the place of the blank before the field and in the place of its digit.
fn bytes() -> Vec<Vec<u8>> {
    let text = |place: usize, byte: u8| {
        let mut text = format!("{P} 2\n").into_bytes();
        text[P.len() + place] = byte;
        text
    };
    BYTES.iter().flat_map(|&byte| [text(0, byte), text(1, byte)]).collect()
}

/// A text without a rule, and the same by rule 1 and by rule 2.
fn by_rules(texts: &mut Vec<String>, frame: &Frame) {
    let text = write(frame);
    for behind in ["", " 1", " 2"] {
        texts.push(text.replacen('\n', &format!("{behind}\n"), 1));
    }
}

/// Faults of rows 3 to 12 beside a number that row 18 refuses, and by rule 2.
fn faulty(texts: &mut Vec<String>, frames: Vec<Frame>) {
    for (i, frame) in frames.into_iter().enumerate().filter(|(_, frame)| fits(frame)) {
        for rule in [refused_number(i), 2] {
            let mut frame = frame.clone();
            frame.params.spread_rule = rule;
            texts.push(write(&frame));
        }
    }
}

/// All lines are read before anything is judged.
fn bad_lines(texts: &mut Vec<String>) {
    for rule in [" 2", " 3"] {
        let first = format!("{P}{rule}\n");
        let text = square(rule);
        texts.push(text.clone() + "\n");
        texts.push(text.clone() + "x");
        texts.push(text.trim_end().to_string());
        texts.push(text.replacen("C 41200000", "C 4120000", 1));
        texts.push(text.replacen("2 - -\n", "2 -\n", 1));
        texts.push(text.clone() + P + " 2\n");
        texts.push(first.clone() + P + "\n");
        texts.push(first.clone() + P + " 2\n");
        texts.push(first.trim_end().to_string());
        texts.push(format!("\n{first}"));
        texts.push(first);
    }
    texts.push(format!("{P}\n{P} 2\n"));
}

/// The longest P line, one digit more, and the longest text.
fn longest(texts: &mut Vec<String>) {
    let floats = &P[..P.len() - 4];
    let most = format!("{floats} 4294967295 4294967295");
    for rule in ["", " 1", " 2", " 4294967295", " 42949672950", " 4294967295 0", " 04294967295"] {
        texts.push(format!("{most}{rule}\n"));
    }
    texts.push(format!("{most} 4294967295\n") + &LONGEST_C.repeat(128) + &LONGEST_T.repeat(256));
}

pub fn texts() -> Vec<Vec<u8>> {
    let mut texts = Vec::new();
    let [shapes, faults] = rule_frames();
    fields(&mut texts);
    shapes.iter().step_by(2).for_each(|frame| by_rules(&mut texts, frame));
    faulty(&mut texts, faults);
    bad_lines(&mut texts);
    longest(&mut texts);
    let mut texts: Vec<Vec<u8>> = texts.into_iter().map(String::into_bytes).collect();
    texts.extend(bytes());
    let mut seen = std::collections::HashSet::new();
    texts.retain(|text| seen.insert(text.clone()));
    texts
}
